//! Shannon's entropy of parts of a file, in bits a byte: 0 where all bytes are equal, near 8 where they are compressed or
//! encrypted.

use std::ops::Range;

/// The bytes of a block. Counts are kept of what is before each.
const BLOCK: usize = 1 << 13;
/// The bytes after which counts are summed, long before 32 bits overflow.
const SUMMED: usize = 1 << 28;

/// How often each value of a byte occurs.
type Counts = [u64; 256];

/// The bytes of a file, to be counted by parts. Sections side by side are no longer together than the file, and each is counted
/// by itself. But each of many sections may be the whole file: parts past the length of the file take the counts before
/// blocks, by which a part costs two blocks, however long it is.
pub struct ByteCounts<'a> {
    bytes: &'a [u8],
    /// How many bytes are still counted in parts by themselves.
    left: usize,
    /// Of the bytes before each block, and of all of them last. Empty until a part needs it.
    before: Vec<Counts>,
}

/// Adds the counts of some bytes. Eight tables by turns, since a count that was just changed is slow to read; bytes that are
/// all equal, as zeros between sections are, change one.
fn add(counts: &mut Counts, bytes: &[u8]) {
    for piece in bytes.chunks(SUMMED) {
        let mut tables = [[0u32; 256]; 8];
        let mut chunks = piece.chunks_exact(16);
        for chunk in chunks.by_ref() {
            let chunk = u128::from_le_bytes(chunk.try_into().unwrap_or_default());
            if chunk == chunk.rotate_left(8) {
                tables[0][usize::from(chunk as u8)] += 16;
                continue;
            }
            for half in [chunk as u64, (chunk >> 64) as u64] {
                for (index, table) in tables.iter_mut().enumerate() {
                    table[usize::from((half >> (8 * index)) as u8)] += 1;
                }
            }
        }
        for byte in chunks.remainder() {
            tables[0][usize::from(*byte)] += 1;
        }
        for table in tables {
            counts.iter_mut().zip(table).for_each(|(count, more)| *count += u64::from(more));
        }
    }
}

impl<'a> ByteCounts<'a> {
    pub fn of(bytes: &'a [u8]) -> ByteCounts<'a> {
        ByteCounts { bytes, left: bytes.len(), before: Vec::new() }
    }

    /// The entropy of a part, as far as it is there, rounded to hundredths. `None` where nothing is there.
    pub fn entropy_of(&mut self, part: Range<u64>) -> Option<f64> {
        let there = |offset: u64| usize::try_from(offset).map_or(self.bytes.len(), |it| it.min(self.bytes.len()));
        let (start, end) = (there(part.start), there(part.end));
        (start < end).then(|| entropy_of(&self.counts_of(start, end), (end - start) as f64))
    }

    fn counts_of(&mut self, start: usize, end: usize) -> Counts {
        let Some(left) = self.left.checked_sub(end - start) else { return self.counts_by_blocks(start, end) };
        self.left = left;
        let mut counts = [0; 256];
        add(&mut counts, &self.bytes[start..end]);
        counts
    }

    /// The counts of the blocks from the one in which `start` is up to `end`, less those before `start`.
    fn counts_by_blocks(&mut self, start: usize, end: usize) -> Counts {
        if self.before.is_empty() {
            self.before = before_blocks(self.bytes);
        }
        let up_to = |offset: usize| {
            let mut counts = self.before[offset / BLOCK];
            add(&mut counts, &self.bytes[offset / BLOCK * BLOCK..offset]);
            counts
        };
        let (mut counts, less) = (up_to(end), up_to(start));
        for (count, less) in counts.iter_mut().zip(less) {
            *count -= less;
        }
        counts
    }
}

fn before_blocks(bytes: &[u8]) -> Vec<Counts> {
    let mut counts = [0; 256];
    let mut before = vec![counts];
    for block in bytes.chunks(BLOCK) {
        add(&mut counts, block);
        before.push(counts);
    }
    before
}

fn entropy_of(counts: &Counts, total: f64) -> f64 {
    let shares = counts.iter().filter(|count| **count > 0).map(|count| *count as f64 / total);
    (shares.map(|share| share * -share.log2()).sum::<f64>() * 100.0).round() / 100.0 + 0.0
}

#[cfg(test)]
mod tests {
    use super::*;

    fn whole(bytes: &[u8]) -> Option<f64> {
        ByteCounts::of(bytes).entropy_of(0..u64::MAX)
    }

    #[test]
    fn entropy_is_that_of_the_bytes() {
        assert_eq!(whole(b""), None);
        assert_eq!(whole(b"aaaa"), Some(0.0));
        assert_eq!(whole(b"abab"), Some(1.0));
        assert_eq!(whole(&(0..=255).collect::<Vec<u8>>()), Some(8.0));
    }

    #[test]
    fn parts_across_blocks_have_their_own() {
        let bytes = [vec![0; 3 * BLOCK - 2], vec![1; 2], vec![2; BLOCK + 5]].concat();
        let mut counts = ByteCounts::of(&bytes);
        let end = 3 * BLOCK as u64;
        assert_eq!(counts.entropy_of(0..end - 2), Some(0.0));
        assert_eq!(counts.entropy_of(end - 4..end), Some(1.0));
        assert_eq!(counts.entropy_of(end - 4..end + 4), Some(1.5));
        assert_eq!(counts.entropy_of(bytes.len() as u64..u64::MAX), None);
    }

    /// Bytes of all values, with runs of one value among them.
    fn many() -> Vec<u8> {
        let mixed = (0..3 * BLOCK as u32 + 21).map(|it| (it.wrapping_mul(0x9E37_79B1) >> 24) as u8);
        mixed.enumerate().map(|(index, byte)| if index % 512 < 70 { 7 } else { byte }).collect()
    }

    #[test]
    fn both_ways_count_each_byte() {
        let bytes = many();
        let end = bytes.len();
        for (start, end) in
            [(0, end), (1, end - 1), (5, 20), (BLOCK - 1, 2 * BLOCK + 1), (2 * BLOCK, 3 * BLOCK), (9, 80)]
        {
            let mut expected = [0; 256];
            bytes[start..end].iter().for_each(|byte| expected[usize::from(*byte)] += 1);
            assert_eq!(ByteCounts::of(&bytes).counts_of(start, end), expected);
            assert_eq!(ByteCounts::of(&bytes).counts_by_blocks(start, end), expected);
        }
    }

    #[test]
    fn parts_longer_than_the_file_are_counted_by_blocks() {
        let bytes = many();
        let mut counts = ByteCounts::of(&bytes);
        counts.entropy_of(0..BLOCK as u64);
        counts.entropy_of(BLOCK as u64..u64::MAX);
        assert_eq!((counts.left, counts.before.len()), (0, 0));
        assert_eq!(counts.entropy_of(1..u64::MAX), ByteCounts::of(&bytes).entropy_of(1..u64::MAX));
        assert_eq!(counts.before.len(), 5);
    }
}
