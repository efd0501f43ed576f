//! String tables: texts one after the other, each with a byte after it that ends it. A COFF object has one after its symbols;
//! names longer than eight bytes are in it.
//! <https://learn.microsoft.com/windows/win32/debug/pe-format#coff-string-table>

use crate::error;
use crate::raw;
use core::{fmt, ops::Index, str};

/// A string table, and what ends its texts.
#[derive(Default)]
pub struct Strtab<'a> {
    bytes: &'a [u8],
    delim: u8,
}

impl<'a> Strtab<'a> {
    /// A table of all the bytes.
    pub fn new(bytes: &'a [u8], delim: u8) -> Self {
        Strtab { bytes, delim }
    }

    /// The length in bytes.
    pub fn len(&self) -> usize {
        self.bytes.len()
    }

    /// Whether there are no bytes.
    pub fn is_empty(&self) -> bool {
        self.bytes.is_empty()
    }

    /// A table of `len` bytes at an offset. Error: `Malformed` where they are not all there.
    pub fn parse(bytes: &'a [u8], offset: usize, len: usize, delim: u8) -> error::Result<Strtab<'a>> {
        let bytes = raw::bytes_at(bytes, offset, len).map_err(|_| {
            error::Error::Malformed(format!(
                "Strtable size ({len}) + offset ({offset}) is out of bounds for {} #bytes. Overflowed: {}",
                bytes.len(),
                offset.checked_add(len).is_none()
            ))
        })?;
        Ok(Strtab { bytes, delim })
    }

    /// The text at an offset, or `None` past the end and where it is not UTF-8.
    pub fn get_at(&self, offset: usize) -> Option<&'a str> {
        self.get(offset)?.ok()
    }

    /// The text at an offset, or `None` past the end. Error: `Malformed` where it is not UTF-8.
    pub fn get(&self, offset: usize) -> Option<error::Result<&'a str>> {
        (offset < self.bytes.len()).then(|| match self.delim {
            0 => raw::text_up_to_zero(self.bytes, offset),
            end => raw::text_up_to(self.bytes, offset, end),
        })
    }

    /// The same, and `None` also where it is not UTF-8.
    #[deprecated(note = "use get_at")]
    pub fn get_unsafe(&self, offset: usize) -> Option<&'a str> {
        self.get_at(offset)
    }

    /// All texts. Error: the first that is not UTF-8.
    pub fn to_vec(&self) -> error::Result<Vec<&'a str>> {
        let (mut offset, mut texts) = (0, Vec::new());
        while let Some(text) = self.get(offset) {
            let text = text?;
            offset += text.len() + 1;
            raw::push(&mut texts, text)?;
        }
        Ok(texts)
    }

    /// Of a table whose texts a zero ends how many bytes the text at an offset has, and the text where it is UTF-8.
    pub(crate) fn text_and_length(&self, offset: usize) -> Option<(usize, Option<&'a str>)> {
        raw::text_and_length(self.bytes, offset)
    }
}

impl fmt::Debug for Strtab<'_> {
    fn fmt(&self, f: &mut fmt::Formatter<'_>) -> fmt::Result {
        let delim = scroll::ctx::StrCtx::Delimiter(self.delim);
        f.debug_struct("Strtab").field("delim", &delim).field("bytes", &str::from_utf8(self.bytes)).finish()
    }
}

impl Index<usize> for Strtab<'_> {
    type Output = str;

    /// Panics past the end and where the text is not UTF-8, as in goblin.
    fn index(&self, offset: usize) -> &str {
        self.get_at(offset).expect("a text at the offset")
    }
}
