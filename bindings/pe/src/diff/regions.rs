//! Which bytes of two files differ: each byte of a file is of one region, and regions of one name are compared. So what no other part
//! compares is seen too, as the DOS stub, slack and an overlay.

use crate::facts::sections::range_of;
use crate::facts::Facts;
use pe_c::{Image, Layout};
use serde::Serialize;
use std::collections::BTreeMap;
use std::ops::Range;

/// Bytes of `IMAGE_DOS_HEADER`, and of `IMAGE_SECTION_HEADER`.
const DOS_HEADER: usize = 64;
const SECTION_HEADER: usize = 40;
/// What a Rich header starts with, XORed with its key, and ends with before the key.
const DANS: u32 = u32::from_le_bytes(*b"DanS");
const RICH: &[u8] = b"Rich";

/// A region that has other bytes in the other file.
#[derive(Debug, Serialize)]
pub struct Changed {
    pub name: String,
    /// How many bytes it has in each file.
    pub before: u64,
    pub after: u64,
    /// How many of them differ; what one has more counts too.
    pub different: u64,
}

type Named = (String, Range<usize>);

/// The Rich header in the bytes between the DOS header and the PE signature.
fn rich_in(bytes: &[u8]) -> Option<Range<usize>> {
    let end = bytes.windows(RICH.len()).rposition(|it| it == RICH)?;
    let key = u32::from_le_bytes(*bytes.get(end + RICH.len()..)?.first_chunk()?);
    let start = bytes[..end].windows(4).position(|it| it == (DANS ^ key).to_le_bytes())?;
    Some(start..end + RICH.len() + 4)
}

/// The headers by their parts, in the order of the file.
fn headers_of(image: &Image<'_>) -> Vec<Named> {
    let (bytes, info) = (image.bytes(), image.info());
    let signature = bytes.get(60..64).map_or(0, |it| u32::from_le_bytes([it[0], it[1], it[2], it[3]]) as usize);
    let sections = usize::try_from(info.sections_offset).unwrap_or(bytes.len());
    let end = sections + SECTION_HEADER * image.sections().len();
    let all = end.max(info.size_of_headers as usize);
    let stub = bytes.get(DOS_HEADER..signature).unwrap_or_default();
    let rich = rich_in(stub).map(|it| ("Rich header".to_string(), it.start + DOS_HEADER..it.end + DOS_HEADER));
    let start = rich.as_ref().map_or(signature, |it| it.1.start);
    let stub = [("DOS header", 0..DOS_HEADER), ("DOS stub", DOS_HEADER..start)].map(|it| (it.0.to_string(), it.1));
    let after = rich.as_ref().map(|it| ("after the Rich header".to_string(), it.1.end..signature));
    let rest = [("PE headers", signature..sections), ("section headers", sections..end), ("header slack", end..all)];
    stub.into_iter().chain(rich).chain(after).chain(rest.map(|it| (it.0.to_string(), it.1))).collect()
}

/// The regions that cover a file. Of two that overlap the first has the bytes.
fn regions_of(image: &Image<'_>, facts: &Facts) -> Vec<Named> {
    let length = image.bytes().len();
    let within = |it: u64| usize::try_from(it).unwrap_or(length).min(length);
    let mut named = headers_of(image);
    for (section, facts) in image.sections().iter().zip(facts.sections.iter().flatten()) {
        let range = range_of(image.layout(), section);
        named.push((format!("section {}", facts.shown_name()), within(range.start)..within(range.end)));
    }
    let last = named.iter().map(|it| it.1.end).max().unwrap_or_default();
    let directories = facts.headers.iter().flat_map(|it| &it.directories);
    for it in directories.filter(|it| it.rva.is_none() && image.layout() != Layout::Mapped) {
        let start = it.file_offset.map_or(length as u64, u64::from);
        named.push(("certificates".into(), within(start)..within(start + u64::from(it.size))));
    }
    named.sort_by_key(|it| it.1.start);
    let (mut cover, mut end) = (Vec::new(), 0);
    named.push((String::new(), length..length));
    for (name, range) in named {
        let start = range.start.clamp(end, length);
        if start > end {
            let gap = if end >= last { "overlay" } else { "padding" };
            cover.push((gap.to_string(), end..start));
        }
        end = range.end.clamp(start, length);
        cover.push((name, start..end));
    }
    cover.retain(|it| !it.1.is_empty());
    cover
}

/// The regions by their names. Of several with one name each has its number.
fn by_name(image: &Image<'_>, facts: &Facts) -> BTreeMap<(String, usize), Range<usize>> {
    let (mut counts, mut found) = (BTreeMap::new(), BTreeMap::new());
    for (name, range) in regions_of(image, facts) {
        let count: &mut usize = counts.entry(name.clone()).or_default();
        found.insert((name, *count), range);
        *count += 1;
    }
    found
}

/// The regions of two images that differ, in the order of their names.
pub fn changed(images: [&Image<'_>; 2], facts: [&Facts; 2]) -> Vec<Changed> {
    let found = [0, 1].map(|it| by_name(images[it], facts[it]));
    let mut names: Vec<_> = found.iter().flat_map(BTreeMap::keys).collect();
    names.sort_unstable();
    names.dedup();
    let region =
        |number: usize, name| found[number].get(name).map_or(&[][..], |it| &images[number].bytes()[it.clone()]);
    let compared = names.into_iter().map(|name| {
        let contents = [region(0, name), region(1, name)];
        let name = if name.1 == 0 { name.0.clone() } else { format!("{} ({})", name.0, name.1 + 1) };
        Changed::of(name, contents)
    });
    compared.filter(|it| it.different > 0).collect()
}

impl Changed {
    /// A region with these bytes in each file.
    pub fn of(name: String, [before, after]: [&[u8]; 2]) -> Changed {
        let unlike = before.iter().zip(after).filter(|(one, other)| one != other).count();
        let different = (unlike + before.len().abs_diff(after.len())) as u64;
        Changed { name, before: before.len() as u64, after: after.len() as u64, different }
    }

    /// What follows the name in text.
    pub fn text(&self) -> String {
        let Changed { before, after, different, .. } = self;
        match before == after {
            true => format!("{different} of {before} bytes differ"),
            false => format!("{before} bytes -> {after} bytes, {different} differ"),
        }
    }
}

#[cfg(test)]
mod tests {
    use super::*;

    #[test]
    fn a_rich_header_is_found_by_its_key() {
        let key = 0x0102_0304u32;
        let start = (DANS ^ key).to_le_bytes();
        let bytes = [&[0; 8][..], &start, &[1; 20], RICH, &key.to_le_bytes(), &[0; 8]].concat();
        assert_eq!(rich_in(&bytes), Some(8..8 + 4 + 20 + 8));
        assert_eq!(rich_in(&bytes[..34]), None);
        assert_eq!(rich_in(b"Rich"), None);
    }
}
