//! How an image is parsed.

use crate::error;

/// Whether damage to a directory is an error of the image.
#[derive(Debug, Copy, Clone, PartialEq, Eq)]
pub enum ParseMode {
    /// The first error of a directory is the error of the image.
    Strict,
    /// A damaged directory counts as absent, and some damage is accepted.
    Permissive,
}

impl ParseMode {
    /// Whether it is [`ParseMode::Permissive`].
    pub fn is_permissive(&self) -> bool {
        *self == ParseMode::Permissive
    }
}

/// What is parsed of an image, and how. The default parses all of a file, strictly.
#[derive(Debug, Copy, Clone, PartialEq, Eq)]
pub struct ParseOptions {
    /// Whether RVAs are mapped to file offsets; `false` for an image as loaded, whose RVAs are its offsets.
    pub resolve_rva: bool,
    /// Whether the certificates are read; `false` for an image as loaded, which has none.
    pub parse_attribute_certificates: bool,
    /// Whether the imports are read.
    pub parse_imports: bool,
    /// Whether the resources are read.
    pub parse_resources: bool,
    /// What damage to a directory is.
    pub parse_mode: ParseMode,
}

impl Default for ParseOptions {
    fn default() -> Self {
        ParseOptions {
            resolve_rva: true,
            parse_attribute_certificates: true,
            parse_imports: true,
            parse_resources: true,
            parse_mode: ParseMode::Strict,
        }
    }
}

impl ParseOptions {
    /// Those of a TE image: its RVAs are its offsets, and it has debug data alone.
    pub fn te() -> Self {
        ParseOptions {
            resolve_rva: false,
            parse_attribute_certificates: false,
            parse_imports: false,
            parse_resources: false,
            ..ParseOptions::default()
        }
    }

    /// The same options in a mode.
    pub fn with_parse_mode(self, parse_mode: ParseMode) -> Self {
        ParseOptions { parse_mode, ..self }
    }
}

/// How much of an image is taken into lists. goblin has no limit, and a small file can name more imports than fit in any memory,
/// or names inside one long text that take hours to read. [`PE::parse_with_limits`](super::PE::parse_with_limits) takes it beside
/// the options, whose fields are goblin's.
#[derive(Debug, Copy, Clone, PartialEq, Eq)]
pub struct Limits {
    /// The most imports that an image may have, and the most addresses in its import address tables.
    pub imports: usize,
    /// The most bytes that all names of its exports and their forwarders may have together, and all names of its imports.
    pub names: usize,
}

impl Default for Limits {
    /// A million imports, some hundred megabytes, and 64 MiB of names: real images have some ten thousand imports at most, and
    /// some megabytes of names.
    fn default() -> Self {
        Limits { imports: 1 << 20, names: 64 << 20 }
    }
}

/// How many of a limit may still be taken, and what an error says of the limit.
pub(crate) struct Left {
    left: usize,
    limit: usize,
    what: &'static str,
}

impl Left {
    /// Of imports and of the slots of the import address tables.
    pub(crate) fn of_imports(limits: &Limits) -> Self {
        Left { left: limits.imports, limit: limits.imports, what: "more imports" }
    }

    /// Of bytes of names.
    pub(crate) fn of_names(limits: &Limits) -> Self {
        Left { left: limits.names, limit: limits.names, what: "longer names" }
    }

    pub(crate) fn count(&self) -> usize {
        self.left
    }

    /// Takes so many. Error: `Malformed` above the limit.
    #[inline]
    pub(crate) fn take(&mut self, count: usize) -> error::Result<()> {
        self.left = self.left.checked_sub(count).ok_or_else(|| self.error())?;
        Ok(())
    }

    #[cold]
    pub(crate) fn error(&self) -> error::Error {
        error::Error::Malformed(format!("image has {} than the limit of {}", self.what, self.limit))
    }
}
