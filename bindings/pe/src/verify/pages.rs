//! Hashes of the pages of an image, which a signature may have beside the image's digest: Windows compares one when it loads the page.
//! The first is of the headers, without what the digest leaves out; the others are of the raw data of each section, which zeros fill up
//! to whole pages. A table has the file offset and the hash of each, and last the end alone.

use super::hashing::{Compared, Hash};
use crate::facts::hex_of;
use pe_c::{DigestRanges, Image};
use serde::Serialize;
use std::iter;

/// What Windows loads at a time. Tools take the alignment of sections too, which is mostly the same.
const PAGE: u32 = 4096;
/// How many bytes of pages are hashed at most for all tables, for each byte of the file and beside these: sections may share their raw
/// data, and a page may be nearly all zeros.
const READINGS: u64 = 16;
const BESIDE: u64 = 1 << 20;
/// The digits of an offset in the table.
const OFFSET: usize = 4;
static ZEROS: [u8; PAGE as usize] = [0; PAGE as usize];

/// What a signature says of the pages of an image.
#[derive(Clone, Debug, Serialize)]
pub struct PageHashes {
    algorithm: &'static str,
    pub pages: usize,
    pub compared: Compared,
    /// Where the first page starts whose hash differs.
    pub different_file_offset: Option<u32>,
}

/// How many bytes of pages may be hashed of an image.
pub fn budget(image: &Image<'_>) -> u64 {
    (image.bytes().len() as u64).saturating_mul(READINGS).saturating_add(BESIDE)
}

impl PageHashes {
    /// A table of a signature, compared with an image. So many bytes may still be hashed.
    pub fn of(hash: Hash, table: &[u8], image: &Image<'_>, left: &mut u64) -> PageHashes {
        let entry = OFFSET + hash.size();
        let pages = (table.len() / entry).saturating_sub(1);
        let is_whole = table.len() % entry == 0;
        let mut compared = |size| Pages { image, size }.compared(hash, table, left);
        let (by_pages, alignment) = (compared(PAGE), image.info().section_alignment);
        let by_alignment =
            if by_pages.0 == Compared::Equal || alignment == PAGE { None } else { Some(compared(alignment)) };
        let best = by_alignment.filter(|it| it.0 == Compared::Equal).unwrap_or(by_pages);
        let (compared, different_file_offset) = if is_whole { best } else { (different(Vec::new()), None) };
        PageHashes { algorithm: hash.name(), pages, compared, different_file_offset }
    }

    pub fn algorithm(&self) -> &'static str {
        self.algorithm
    }
}

fn different(worked_out: Vec<u8>) -> Compared {
    Compared::Different { worked_out_hex: hex_of(&worked_out) }
}

/// The pages of an image, of this size.
struct Pages<'a, 'b> {
    image: &'a Image<'b>,
    size: u32,
}

/// A page: its file offset, how long it is without the zeros that fill it up, and what of that is hashed: `None` where it is not in the
/// file.
struct Page<'a> {
    offset: u32,
    length: u32,
    parts: Option<Vec<&'a [u8]>>,
}

impl<'a> Pages<'a, '_> {
    /// Raw data as start and length, section by section.
    fn raw_data(&self) -> impl Iterator<Item = (u32, u32)> + 'a {
        let sections = self.image.sections().iter();
        sections.map(|it| (it.pointer_to_raw_data, it.size_of_raw_data)).filter(|it| it.1 > 0)
    }

    /// How many pages there are.
    fn count(&self) -> u64 {
        1 + self.raw_data().map(|it| u64::from(it.1.div_ceil(self.size))).sum::<u64>()
    }

    /// The headers, without their checksum and the entry of the certificates.
    fn headers(&self, covered: &DigestRanges<'a>) -> Page<'a> {
        let (length, bytes) = (self.image.info().size_of_headers, self.image.bytes());
        let end = length as usize;
        let parts = covered.ranges().map(|it| bytes.get(it.start.min(end)..it.end.min(end)).unwrap_or_default());
        let is_one_page = length <= self.size && end <= bytes.len();
        Page { offset: 0, length, parts: is_one_page.then(|| parts.collect()) }
    }

    fn of_sections(&self) -> impl Iterator<Item = Page<'a>> + 'a {
        let (bytes, size) = (self.image.bytes(), self.size);
        let pages = move |(start, length): (u32, u32)| {
            (0..length.div_ceil(size)).map(move |page| {
                let (offset, length) = (start.wrapping_add(page * size), (length - page * size).min(size));
                let parts = bytes.get(offset as usize..offset as usize + length as usize).map(|it| vec![it]);
                Page { offset, length, parts }
            })
        };
        self.raw_data().flat_map(pages)
    }

    /// The hash of a page.
    fn hash_of(&self, hash: Hash, parts: &[&[u8]], length: u32) -> Vec<u8> {
        let zeros = self.size.saturating_sub(length) as usize;
        let whole = iter::repeat_n(&ZEROS[..], zeros / ZEROS.len());
        hash.digest(parts.iter().copied().chain(whole).chain([&ZEROS[..zeros % ZEROS.len()]]))
    }

    /// How a table compares with these pages, and where the first page starts that differs.
    fn compared(&self, hash: Hash, table: &[u8], left: &mut u64) -> (Compared, Option<u32>) {
        let Ok(covered) = self.image.digest_ranges() else { return (Compared::Unknown, None) };
        if !self.size.is_power_of_two() {
            return (Compared::Unknown, None);
        }
        let mut entries = table.chunks_exact(OFFSET + hash.size());
        let (count, last) = (self.count(), entries.next_back());
        if entries.len() as u64 != count {
            return (different(Vec::new()), None);
        }
        match left.checked_sub(count.saturating_mul(self.size.into())) {
            Some(rest) => *left = rest,
            None => return (Compared::Unknown, None),
        }
        for (page, entry) in iter::once(self.headers(&covered)).chain(self.of_sections()).zip(entries) {
            let Some(parts) = page.parts else { return (Compared::Unknown, None) };
            let (said, hashed) = entry.split_at(OFFSET);
            let worked_out = self.hash_of(hash, &parts, page.length);
            if said != page.offset.to_le_bytes() || hashed != worked_out {
                return (different(worked_out), Some(page.offset));
            }
        }
        let end = self.raw_data().last().map_or(0, |it| it.0.wrapping_add(it.1));
        match last {
            Some(last) if last[..OFFSET] == end.to_le_bytes() => (Compared::Equal, None),
            _ => (different(Vec::new()), None),
        }
    }
}
