//! Version information as a tree of blocks, each inside the length of the one that it belongs to. See
//! [Microsoft's page](https://learn.microsoft.com/windows/win32/menurc/vs-versioninfo).

use crate::image::{bytes_of, returned, Error, Image};
use crate::resources::ResourceLeaf;
use crate::shown::{self, shown};
use crate::sys;
use crate::version::Text;
use core::fmt;
use core::iter::FusedIterator;

/// A block of version information.
///
/// The first block of an image, `VS_VERSION_INFO`, is all of its version information. It contains `StringFileInfo`, with a
/// string table for each language, whose blocks are strings with any key; and `VarFileInfo`, with `Translation`.
///
/// ```
/// # #[path = "../tests/made/mod.rs"] mod made;
/// # let bytes = made::with_resources();
/// use pe_c::{Image, Mode};
///
/// let image = Image::parse(&bytes, Mode::Permissive)?;
/// for root in image.version_blocks()?.flatten().take(1) {
///     for info in root.children().flatten().filter(|block| block.key.to_string_lossy() == "StringFileInfo") {
///         for table in info.children().flatten() {
///             for string in table.children().flatten() {
///                 println!("{:?} {} {}", table.language, string.key, string.text());
///             }
///         }
///     }
/// }
/// # Ok::<(), pe_c::Error>(())
/// ```
#[derive(Clone, Copy)]
pub struct VersionBlock<'a> {
    /// The key.
    pub key: Text<'a>,
    /// The bytes of the value.
    pub value: &'a [u8],
    /// Whether the value is a text in UTF-16, and not binary data.
    pub is_text: bool,
    /// Of a string table the language that its key is. `None` if the key is not eight hexadecimal digits.
    pub language: Option<VersionLanguage>,
    bytes: &'a [u8],
    children: sys::Range,
}

impl fmt::Debug for VersionBlock<'_> {
    fn fmt(&self, f: &mut fmt::Formatter<'_>) -> fmt::Result {
        let mut shown = f.debug_struct("VersionBlock");
        shown.field("key", &self.key);
        if self.is_text {
            shown.field("value", &self.text());
        } else {
            shown.field("value", &shown::Bytes(self.value));
        }
        shown.field("is_text", &self.is_text).field("language", &self.language).finish_non_exhaustive()
    }
}

/// A language and a code page of version information.
#[derive(Clone, Copy, Debug, PartialEq, Eq, Hash)]
pub struct VersionLanguage {
    /// The language identifier of Windows, as 0x409 for English (United States).
    pub language: u16,
    /// The code page, as 1200 for UTF-16. Texts are in UTF-16, whatever it says.
    pub code_page: u16,
}

impl<'a> VersionBlock<'a> {
    /// The value as a text.
    pub fn text(&self) -> Text<'a> {
        Text(self.value)
    }

    /// The blocks that it contains.
    pub fn children(&self) -> VersionBlocks<'a> {
        VersionBlocks { bytes: self.bytes, walk: self.children }
    }

    /// The bytes of these blocks; none of zeros, as a block may have up to a multiple of four.
    pub(crate) fn inner(&self) -> &'a [u8] {
        let inner = bytes_of(self.children, self.bytes).unwrap_or_default();
        if inner.iter().all(|it| *it == 0) {
            return &[];
        }
        inner
    }

    /// The languages and code pages in the value, if the block is `Translation`.
    pub fn languages(&self) -> impl Iterator<Item = VersionLanguage> + Clone + 'a {
        self.value.chunks_exact(4).map(|pair| VersionLanguage {
            language: u16::from_le_bytes([pair[0], pair[1]]),
            code_page: u16::from_le_bytes([pair[2], pair[3]]),
        })
    }
}

/// Blocks of version information, one after the other.
///
/// An item is an error: [`Error::SHORT`] where a block is truncated, and the last one; [`Error::RESOURCE_STRING`] where its
/// length is below 6, and the last one, or its key is not NUL-terminated, and then the block after it comes next.
#[derive(Clone)]
pub struct VersionBlocks<'a> {
    bytes: &'a [u8],
    walk: sys::Range,
}

shown! { VersionBlocks<'_> { walk; .. } }

impl<'a> VersionBlocks<'a> {
    /// The blocks in the content of a resource of type `RT_VERSION`, of which the first is all of it.
    pub fn of(content: &'a [u8]) -> Self {
        VersionBlocks { bytes: content, walk: sys::Range { offset: 0, length: content.len() as u64 } }
    }
}

impl<'a> Iterator for VersionBlocks<'a> {
    type Item = Result<VersionBlock<'a>, Error>;

    fn next(&mut self) -> Option<Self::Item> {
        let (bytes, mut out) = (self.bytes, sys::VersionBlock::default());
        // SAFETY: the pointer and the length are those of one slice; the records are lent for the call.
        let number = unsafe { sys::pe_c_next_version_block(bytes.as_ptr(), bytes.len(), &mut self.walk, &mut out) };
        let Some(item) = returned(number, out).transpose() else {
            // Over for good, also where a length of 0 ended it.
            self.walk = sys::Range::default();
            return None;
        };
        Some(item.and_then(|found| {
            Ok(VersionBlock {
                key: Text(bytes_of(found.key, bytes)?),
                value: bytes_of(found.value, bytes)?,
                is_text: found.value_type == 1,
                language: (found.has_language == 1)
                    .then_some(VersionLanguage { language: found.language as u16, code_page: found.code_page as u16 }),
                bytes,
                children: found.children,
            })
        }))
    }
}

impl FusedIterator for VersionBlocks<'_> {}

impl<'a> ResourceLeaf<'a> {
    /// The blocks of the version information that a leaf of type `RT_VERSION` is, of which the first is all of it; none of
    /// another type.
    ///
    /// # Errors
    ///
    /// Those of [`ResourceLeaf::content`].
    pub fn version_blocks(&self) -> Result<VersionBlocks<'a>, Error> {
        let (bytes, walk) = self.version_content()?.unwrap_or_default();
        Ok(VersionBlocks { bytes, walk })
    }
}

impl<'a> Image<'a> {
    /// The blocks of version information, of which the first is all of it; none without version information.
    ///
    /// # Errors
    ///
    /// Those of [version information](#version-information-and-manifest), the first three items.
    pub fn version_blocks(&self) -> Result<VersionBlocks<'a>, Error> {
        let walk = self.ask(sys::pe_c_version_blocks)?.unwrap_or_default();
        Ok(VersionBlocks { bytes: self.bytes(), walk })
    }
}
