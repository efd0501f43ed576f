//! The overlay: the bytes after the headers and the raw data of all sections. COFF symbols and the certificate table, which the
//! headers lead to, are parts of it; what is left is the content, which installers read themselves.

use super::counted;
use pe_c::{DirectoryIndex, Image};
use serde::Serialize;
use std::fmt;
use std::ops::Range;

#[derive(Clone, Debug, Serialize)]
pub struct Overlay {
    pub file_offset: usize,
    pub size: usize,
    /// Up to the end of the string table of COFF symbols, if it lies in the overlay.
    pub symbols_size: usize,
    /// Of the certificate table.
    pub certificates_size: usize,
    /// What is neither, or null: of what comes before certificates and after them the first. Fewer than eight zeros are none.
    pub content: Option<Content>,
    /// How many bytes come after the certificates, where `content` comes before them. For text.
    #[serde(skip)]
    pub size_after: usize,
}

#[derive(Clone, Debug, Serialize)]
pub struct Content {
    pub file_offset: usize,
    pub size: usize,
    /// What it is by its first bytes, or null.
    pub kind: Option<&'static str>,
}

/// First bytes of what installers append, from an offset on.
const KINDS: &[(usize, &[u8], &str)] = &[
    (4, b"\xEF\xBE\xAD\xDENullsoftInst", "an NSIS installer"),
    (0, b"zlb\x1A", "an Inno Setup installer"),
    (0, b"idska32\x1A", "an Inno Setup installer"),
    (0, b"Inno Setup", "an Inno Setup installer"),
    (0, b"7z\xBC\xAF\x27\x1C", "a 7z archive"),
    (0, b"PK\x03\x04", "a ZIP archive"),
    (0, b"Rar!\x1A\x07", "a RAR archive"),
    (0, b"MSCF\0\0\0\0", "a cabinet"),
    (0, b"\xD0\xCF\x11\xE0\xA1\xB1\x1A\xE1", "an OLE file, as an MSI is"),
    (0, b"\x1F\x8B\x08", "gzip data"),
    (0, b"\xFD7zXZ\0", "xz data"),
    (0, b"BZh", "bzip2 data"),
    (0, b"NB10", "a PDB name"),
    (0, b"MZ", "an image or a DOS program"),
];

/// The end of a ZIP archive, which other data may come before.
const ZIP_END: &[u8] = b"PK\x05\x06";
/// Of that record, without a comment.
const ZIP_END_SIZE: usize = 22;

/// What a file or an overlay is by its first bytes.
pub fn kind_by_start(content: &[u8]) -> Option<&'static str> {
    let starts =
        |(offset, magic, _): &&(usize, &[u8], &str)| content.get(*offset..).is_some_and(|it| it.starts_with(magic));
    KINDS.iter().find(starts).map(|it| it.2)
}

fn kind_of(content: &[u8]) -> Option<&'static str> {
    let by_start = kind_by_start(content);
    let end = content.len().checked_sub(ZIP_END_SIZE).and_then(|it| content.get(it..));
    by_start.or(end.filter(|it| it.starts_with(ZIP_END)).map(|_| "data with a ZIP archive at its end"))
}

/// Where a slice of a file is in it.
fn range_in(whole: &[u8], part: &[u8]) -> Option<Range<usize>> {
    let start = (part.as_ptr() as usize).checked_sub(whole.as_ptr() as usize)?;
    (start + part.len() <= whole.len()).then(|| start..start + part.len())
}

/// The certificate table, as far as it is in the file.
fn certificates_in(image: &Image<'_>) -> Option<Range<usize>> {
    let row = image.info().directory(DirectoryIndex::Security).filter(|it| it.virtual_address != 0)?;
    let start = row.virtual_address as usize;
    let end = start.checked_add(row.size as usize)?.min(image.bytes().len());
    (start < end).then_some(start..end)
}

/// The overlay, which ends with the file. `None` where nothing follows the headers and the raw data of the sections.
pub fn of(image: &Image<'_>) -> Option<Overlay> {
    let bytes = image.bytes();
    let size = image.overlay().len();
    let (start, end) = (bytes.len() - size, bytes.len());
    if size == 0 {
        return None;
    }
    let strings = image.string_table().ok().flatten().and_then(|it| range_in(bytes, it));
    let symbols = strings.filter(|it| it.start > start).map_or(start, |it| it.end);
    let table = certificates_in(image).filter(|it| it.start >= symbols);
    let (before, after) = table.as_ref().map_or((symbols..end, end..end), |it| (symbols..it.start, it.end..end));
    let is_padding = |range: &Range<usize>| range.len() < 8 && bytes[range.clone()].iter().all(|it| *it == 0);
    let mut rest = [before, after].into_iter().filter(|it| !is_padding(it));
    let content = rest.next().map(|it| Content { file_offset: it.start, size: it.len(), kind: kind_of(&bytes[it]) });
    Some(Overlay {
        file_offset: start,
        size,
        symbols_size: symbols - start,
        certificates_size: table.map_or(0, |it| it.len()),
        content,
        size_after: rest.next().map_or(0, |it| it.len()),
    })
}

impl Overlay {
    /// Says how many bytes come after the certificates, if `content` does not have them.
    pub fn after(&self) -> Option<String> {
        (self.size_after > 0).then(|| format!("{} after the certificates", counted(self.size_after, "byte")))
    }

    /// What its content is, and where.
    pub fn said(&self) -> Option<String> {
        let Content { file_offset, size, kind } = self.content.as_ref()?;
        let (size, kind) = (counted(*size, "byte"), kind.unwrap_or("of no known kind"));
        let after = self.after().map_or(String::new(), |it| format!("; {it}"));
        Some(format!("{size} at file offset {file_offset:#x}, {kind}{after}"))
    }
}

impl fmt::Display for Overlay {
    fn fmt(&self, f: &mut fmt::Formatter<'_>) -> fmt::Result {
        write!(f, "{} bytes at file offset {:#x}", self.size, self.file_offset)?;
        if self.symbols_size > 0 {
            write!(f, "; COFF symbols, {} bytes", self.symbols_size)?;
        }
        if self.certificates_size > 0 {
            write!(f, "; certificates, {} bytes", self.certificates_size)?;
        }
        if let Some(content) = &self.content {
            write!(f, "; {}, {} bytes", content.kind.unwrap_or("of no known kind"), content.size)?;
        }
        self.after().map_or(Ok(()), |it| write!(f, "; {it}"))
    }
}
