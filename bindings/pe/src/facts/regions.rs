//! The map of a file: which of its bytes are headers, sections, certificates, none of these, and where in them the data
//! directories and debug records are. What the headers say is mapped to file offsets by the library (`Image::offset`).

use super::headers::Headers;
use super::sections::range_of;
use super::Facts;
use pe_c::{Image, Layout};
use std::ops::Range;

/// Bytes of a section header, `IMAGE_SIZEOF_SECTION_HEADER`.
const SECTION_HEADER: u64 = 40;

/// What a region is. Those before `Directory` cover the file; the others lie inside of them.
#[derive(Clone, Copy, Debug, PartialEq, Eq)]
pub enum Kind {
    Headers,
    /// A section that may be executed.
    Code,
    /// A section that may be written and executed, as packers have.
    WritableCode,
    /// A section that may be written.
    Writable,
    /// Any other section.
    ReadOnly,
    Certificates,
    /// Bytes between two of the above.
    Gap,
    /// Bytes after all of the above.
    Trailing,
    Directory,
    DebugRecord,
}

impl Kind {
    pub const ALL: [Kind; 10] = [
        Kind::Headers,
        Kind::Code,
        Kind::WritableCode,
        Kind::Writable,
        Kind::ReadOnly,
        Kind::Certificates,
        Kind::Gap,
        Kind::Trailing,
        Kind::Directory,
        Kind::DebugRecord,
    ];

    pub fn name(self) -> &'static str {
        match self {
            Kind::Headers => "headers",
            Kind::Code => "section, executable",
            Kind::WritableCode => "section, writable and executable",
            Kind::Writable => "section, writable",
            Kind::ReadOnly => "section, read-only",
            Kind::Certificates => "certificates",
            Kind::Gap => "gap",
            Kind::Trailing => "overlay",
            Kind::Directory => "directory",
            Kind::DebugRecord => "debug record",
        }
    }

    /// Whether it covers the file, and lies not in a region that does.
    pub fn is_cover(self) -> bool {
        !matches!(self, Kind::Directory | Kind::DebugRecord)
    }

    /// By the permissions of a section, such as `r-x`.
    fn of_section(permissions: &str) -> Kind {
        match (permissions.contains('w'), permissions.contains('x')) {
            (true, true) => Kind::WritableCode,
            (false, true) => Kind::Code,
            (true, false) => Kind::Writable,
            (false, false) => Kind::ReadOnly,
        }
    }
}

/// A region of the file, as far as it is there.
#[derive(Clone, Debug)]
pub struct Region {
    pub kind: Kind,
    /// Escaped: of a section, a directory or a debug record.
    pub name: String,
    /// File offsets.
    pub range: Range<u64>,
    /// How many bytes the headers say that it has past the end of the file.
    pub missing: u64,
}

/// The map of an image whose headers and sections are among the facts: what covers the file, what is left, what lies in it.
pub fn of(image: &Image<'_>, facts: &Facts) -> Vec<Region> {
    let Some(headers) = &facts.headers else { return Vec::new() };
    let mut map = Map { length: facts.file_size as u64, regions: Vec::new() };
    let info = image.info();
    let section_headers = info.sections_offset + SECTION_HEADER * u64::from(info.number_of_sections);
    map.put(Kind::Headers, String::new(), 0..section_headers.max(headers.size_of_headers.into()));
    for (section, facts) in image.sections().iter().zip(facts.sections.iter().flatten()) {
        let kind = Kind::of_section(&facts.permissions);
        map.put(kind, facts.shown_name().to_string(), range_of(image.layout(), section));
    }
    directories_of(image, headers, &mut map);
    map.put_rest();
    if let Some(entries) = facts.debug.as_ref().and_then(|it| it.entries.present()) {
        for entry in &entries.entries {
            let start = if image.layout() == Layout::Mapped { entry.rva } else { entry.file_offset };
            map.put_sized(Kind::DebugRecord, entry.r#type.to_string(), start.into(), entry.size);
        }
    }
    map.regions
}

/// The directories that are somewhere in the file.
fn directories_of(image: &Image<'_>, headers: &Headers, map: &mut Map) {
    for directory in &headers.directories {
        let is_certificates = directory.rva.is_none();
        let kind = if is_certificates { Kind::Certificates } else { Kind::Directory };
        let name = if is_certificates { "" } else { directory.name };
        let offset = match (directory.rva, directory.file_offset) {
            (Some(rva), _) => image.offset(rva),
            // Certificates are no part of the image in memory.
            (None, _) if image.layout() == Layout::Mapped => None,
            (None, offset) => offset.map(u64::from),
        };
        if let Some(offset) = offset {
            map.put_sized(kind, name.to_string(), offset, directory.size);
        }
    }
}

struct Map {
    /// Of the file, in bytes.
    length: u64,
    regions: Vec<Region>,
}

impl Map {
    fn put_sized(&mut self, kind: Kind, name: String, start: u64, size: u32) {
        self.put(kind, name, start..start + u64::from(size));
    }

    /// Puts what is there of a region: nothing of one without bytes, or after the end of the file.
    fn put(&mut self, kind: Kind, name: String, stated: Range<u64>) {
        let range = stated.start.min(self.length)..stated.end.min(self.length);
        if !range.is_empty() {
            self.regions.push(Region { kind, name, missing: stated.end - range.end, range });
        }
    }

    /// Puts the bytes that no region covers which does so: gaps between two regions, and what follows the last.
    fn put_rest(&mut self) {
        let covers = self.regions.iter().filter(|it| it.kind.is_cover());
        let mut covers: Vec<Range<u64>> = covers.map(|it| it.range.clone()).collect();
        covers.sort_unstable_by_key(|it| it.start);
        let mut end = 0;
        for cover in covers {
            if cover.start > end {
                self.put(Kind::Gap, String::new(), end..cover.start);
            }
            end = end.max(cover.end);
        }
        self.put(Kind::Trailing, String::new(), end..self.length);
    }
}

#[cfg(test)]
mod tests {
    use super::*;

    #[test]
    fn what_nothing_covers_is_a_gap_or_trails() {
        let mut map = Map { length: 100, regions: Vec::new() };
        map.put(Kind::Headers, String::new(), 0..10);
        map.put(Kind::Code, "a".into(), 20..40);
        map.put(Kind::ReadOnly, "inside".into(), 25..30);
        map.put(Kind::ReadOnly, "b".into(), 40..60);
        map.put(Kind::ReadOnly, "empty".into(), 70..70);
        map.put(Kind::ReadOnly, "outside".into(), 100..120);
        map.put(Kind::Directory, "no cover".into(), 12..14);
        map.put_rest();
        let found: Vec<_> = map.regions.iter().map(|it| (it.kind, it.range.clone())).collect();
        assert_eq!(found[5..], [(Kind::Gap, 10..20), (Kind::Trailing, 60..100)]);
        assert_eq!(found.len(), 7);
    }

    #[test]
    fn sections_are_what_they_permit() {
        let kinds = ["r--", "rw-", "r-x", "rwx", "--x", "---"].map(Kind::of_section);
        let wanted = [Kind::ReadOnly, Kind::Writable, Kind::Code, Kind::WritableCode, Kind::Code, Kind::ReadOnly];
        assert_eq!(kinds, wanted);
    }

    #[test]
    fn what_the_file_lacks_is_missing() {
        let mut map = Map { length: 100, regions: Vec::new() };
        map.put_sized(Kind::Code, "a".into(), 90, 30);
        assert_eq!((map.regions[0].range.clone(), map.regions[0].missing), (90..100, 20));
    }
}
