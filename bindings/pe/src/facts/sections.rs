//! The sections: where each is in the file and in memory, what its memory permits, and how its bytes look.

use super::entropy::ByteCounts;
use super::hashes::sha256_of;
use super::name::text;
use super::others::Other;
use super::{Budget, Name};
use crate::names::permissions;
use pe_c::{Coff, Image, Layout};
use serde::Serialize;
use std::ops::Range;

#[derive(Clone, Debug, Serialize)]
pub struct Section<'a> {
    /// As the header has it.
    #[serde(flatten, serialize_with = "text::name")]
    pub name: Name<'a>,
    /// The name in the string table to which a name such as `/4` leads.
    pub long_name: Option<Name<'a>>,
    pub rva: u32,
    pub virtual_size: u32,
    pub file_offset: u32,
    pub file_size: u32,
    /// `r`, `w` and `x`, or `-` in place of one.
    pub permissions: String,
    pub flags: u32,
    /// Bits a byte of what the file has of the section: 0 where all bytes are equal, near 8 where they are compressed or
    /// encrypted. Null without bytes.
    pub entropy: Option<f64>,
    /// Of the same bytes. Null without bytes, where hashes are left out, and once the sections before have as many bytes as
    /// the file: in a hostile one each of many sections may be the whole file.
    pub sha256_hex: Option<String>,
    /// Whether the file ends before its bytes do. For text.
    #[serde(skip)]
    pub is_cut: bool,
}

/// How many sections are looked up in the string table: as many as Windows loads. Many could lead to one long string.
const LONG_NAMES: usize = 96;

impl<'a> Section<'a> {
    /// The name for people: the long one, if it has one.
    pub fn shown_name(&self) -> &Name<'a> {
        self.long_name.as_ref().unwrap_or(&self.name)
    }
}

/// Says how many sections pass the end of the file, if one does.
pub fn cut(sections: &[Section]) -> Option<String> {
    let count = sections.iter().filter(|it| it.is_cut).count();
    (count > 0).then(|| format!("sections: {count} not whole: the file ends before they do"))
}

pub fn of<'a>(image: &'a Image<'_>, has_hashes: bool) -> Vec<Section<'a>> {
    let mut content = Content::of(image.bytes(), has_hashes);
    let range = |section: &_| range_of(image.layout(), section);
    image.sections().iter().map(with(long_names_of(image), |section| content.of_section(range(section)))).collect()
}

/// The long names of an image's sections. Without a string table, or one that is refused, the name of the header is what there is.
fn long_names_of<'a>(image: &'a Image<'_>) -> impl FnMut(&'a pe_c::Section) -> Option<&'a str> {
    let mut indices = 0..LONG_NAMES;
    move |section| indices.next().and_then(|_| image.long_section_name(section).ok().flatten())
}

fn names<'a>(
    sections: &'a [pe_c::Section],
    mut long_name: impl FnMut(&'a pe_c::Section) -> Option<&'a str>,
) -> Vec<Name<'a>> {
    sections.iter().map(|it| long_name(it).map_or(Name(it.name()), Name::of)).collect()
}

/// The names of the sections alone.
pub fn names_of<'a>(image: &'a Image<'_>) -> Vec<Name<'a>> {
    names(image.sections(), long_names_of(image))
}

pub fn names_of_object<'a>(object: &'a Coff<'_>) -> Vec<Name<'a>> {
    names(object.sections(), long_names_of_object(object))
}

/// The sections of a TE image or of an object. An object may have thousands that have long names.
pub fn of_other<'a>(other: &'a Other<'_>, has_hashes: bool) -> Vec<Section<'a>> {
    let mut content = Content::of(other.bytes(), has_hashes);
    match other {
        Other::Te(te) => {
            let content = |section: &_| content.of_section(range_of(Layout::File, section));
            te.sections().iter().map(with(|_| None, content)).collect()
        }
        Other::Object(object) => {
            let content = |section: &pe_c::Section| {
                // Zeros, as in `.bss`, have a size and no bytes.
                let is_there = section.pointer_to_raw_data != 0;
                content.of_section(if is_there { range_of(Layout::File, section) } else { 0..0 })
            };
            object.sections().iter().map(with(long_names_of_object(object), content)).collect()
        }
    }
}

/// The long names of an object's sections, until too many bytes are read for them: many could lead to one long string, or to
/// one that does not end.
fn long_names_of_object<'a>(object: &'a Coff<'_>) -> impl FnMut(&'a pe_c::Section) -> Option<&'a str> {
    let mut budget = Budget::without_rvas(object.bytes());
    let length = object.string_table().ok().flatten().map_or(0, <[u8]>::len);
    let mut is_limited = false;
    move |section| {
        if is_limited || !section.name().starts_with(b"/") {
            return None;
        }
        let name = object.long_section_name(section).ok().flatten();
        is_limited = !budget.takes(name.map_or(length, str::len));
        name.filter(|_| !is_limited)
    }
}

/// What the bytes of sections look like.
struct Content<'a> {
    bytes: &'a [u8],
    counts: ByteCounts<'a>,
    /// How many bytes are still hashed.
    left: usize,
}

impl<'a> Content<'a> {
    fn of(bytes: &'a [u8], has_hashes: bool) -> Content<'a> {
        Content { bytes, counts: ByteCounts::of(bytes), left: if has_hashes { bytes.len() } else { 0 } }
    }

    /// The entropy and the hash of a section, and whether it passes the end.
    fn of_section(&mut self, range: Range<u64>) -> (Option<f64>, Option<String>, bool) {
        let is_cut = !range.is_empty() && range.end > self.bytes.len() as u64;
        (self.counts.entropy_of(range.clone()), self.hash_of(range), is_cut)
    }

    /// The hash of a section, if it has bytes and so many are left.
    fn hash_of(&mut self, range: Range<u64>) -> Option<String> {
        let length = self.bytes.len();
        let there = |offset: u64| usize::try_from(offset).map_or(length, |it| it.min(length));
        let bytes = self.bytes.get(there(range.start)..there(range.end)).filter(|it| !it.is_empty())?;
        self.left = self.left.checked_sub(bytes.len())?;
        Some(sha256_of(bytes))
    }
}

/// What a section header becomes, by its long name and by what its bytes look like.
fn with<'a>(
    mut long_name: impl FnMut(&'a pe_c::Section) -> Option<&'a str>,
    mut content: impl FnMut(&'a pe_c::Section) -> (Option<f64>, Option<String>, bool),
) -> impl FnMut(&'a pe_c::Section) -> Section<'a> {
    move |section| {
        let (entropy, sha256_hex, is_cut) = content(section);
        Section {
            name: Name(section.name()),
            long_name: long_name(section).map(Name::of),
            rva: section.virtual_address,
            virtual_size: section.virtual_size,
            file_offset: section.pointer_to_raw_data,
            file_size: section.size_of_raw_data,
            permissions: permissions(section.characteristics),
            flags: section.characteristics,
            entropy,
            sha256_hex,
            is_cut,
        }
    }
}

/// Where the bytes of a section are: in the file, or in the image as loaded.
pub fn range_of(layout: Layout, section: &pe_c::Section) -> Range<u64> {
    let (start, length) = match layout {
        Layout::Mapped => (section.virtual_address, section.virtual_size),
        _ => (section.pointer_to_raw_data, section.size_of_raw_data),
    };
    start.into()..u64::from(start) + u64::from(length)
}
