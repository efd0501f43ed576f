//! Where functions are inlined in a procedure: the offsets that the annotations of its sites name, at which another function or another
//! line may start or end. Which one it is the library says, so that here is no more than where to ask. The annotations of a site follow
//! its record: numbers of one, two or four bytes, each an operation or what it takes.

use pe_c::{Error, Pdb, PdbModule};

/// `S_LPROC32`, `S_GPROC32`, and those of objects.
const PROCEDURES: [u16; 4] = [0x110F, 0x1110, 0x1146, 0x1147];
/// `S_INLINESITE` and `S_INLINESITE2`, each with where its annotations start in the record.
const SITES: [(u16, usize); 2] = [(0x114D, 16), (0x115D, 20)];
/// What the stream of a module has before its symbols.
const SIGNATURE: usize = 4;

/// The sites of a procedure.
#[derive(Debug, Default)]
pub struct Sites {
    /// From the start of the procedure, in no order.
    pub offsets: Vec<u32>,
    /// The bytes of its records, which each question about it reads.
    pub size: usize,
}

/// Those of each procedure of a module, in the order of their records: none of one that nothing is inlined in.
pub fn of_module(pdb: &Pdb<'_>, module: &PdbModule) -> Result<Vec<Sites>, Error> {
    let Some(stream) = module.stream else { return Ok(Vec::new()) };
    let bytes = pdb.stream(stream.into())?;
    let end = SIGNATURE.saturating_add(module.symbols_size as usize);
    Ok(of_records(bytes.get(SIGNATURE..end).unwrap_or_default()))
}

fn of_records(mut records: &[u8]) -> Vec<Sites> {
    let mut found: Vec<Sites> = Vec::new();
    while let Some((record, rest)) = first_record(records) {
        let kind = u16::from_le_bytes([record[2], record[3]]);
        if PROCEDURES.contains(&kind) {
            found.push(Sites::default());
        }
        if let Some(last) = found.last_mut() {
            last.size += record.len();
            let site = SITES.iter().find(|it| it.0 == kind).and_then(|it| record.get(it.1..));
            put_offsets(site.unwrap_or_default(), &mut last.offsets);
        }
        records = rest;
    }
    found
}

/// The first record, with its length and its kind, and what follows it.
fn first_record(records: &[u8]) -> Option<(&[u8], &[u8])> {
    let length = 2 + usize::from(u16::from_le_bytes([*records.first()?, *records.get(1)?]));
    (length >= 4 && length <= records.len()).then(|| records.split_at(length))
}

/// Adds where rows start and end by these annotations.
fn put_offsets(mut annotations: &[u8], to: &mut Vec<u32>) {
    let (mut offset, mut row) = (0u32, 0u32);
    while let Some(operation) = number(&mut annotations).filter(|it| *it != 0) {
        let Some(first) = number(&mut annotations) else { return };
        // How far the offset moves; operation 12 says how long its row is before that.
        let moved = match operation {
            3 | 4 => Some(first),
            11 => Some(first & 15),
            12 => number(&mut annotations),
            _ => Some(0),
        };
        let Some(moved) = moved else { return };
        offset = if operation == 1 { first } else { offset.wrapping_add(moved) };
        if [3, 11, 12].contains(&operation) {
            row = offset;
            to.push(row);
        }
        // The length of the last row.
        if [4, 12].contains(&operation) {
            to.push(row.wrapping_add(first));
        }
    }
}

/// A number, which is taken off the bytes: how many bytes it has the highest bits of the first one say.
fn number(bytes: &mut &[u8]) -> Option<u32> {
    let (size, mask) = match bytes.first()? {
        0..=0x7F => (1, 0x7F),
        0x80..=0xBF => (2, 0x3F),
        0xC0..=0xDF => (4, 0x1F),
        _ => return None,
    };
    let (own, rest) = bytes.split_at_checked(size)?;
    *bytes = rest;
    Some(own[1..].iter().fold(u32::from(own[0] & mask), |value, it| value << 8 | u32::from(*it)))
}

#[cfg(test)]
mod tests {
    use super::*;

    fn offsets_of(annotations: &[u8]) -> Vec<u32> {
        let mut found = Vec::new();
        put_offsets(annotations, &mut found);
        found
    }

    /// As LLVM's pages have them, the first as llvm-pdbutil prints it: code 0x6, line 1, and code end 0x11.
    #[test]
    fn annotations_have_offsets() {
        assert_eq!(offsets_of(&[0x0B, 0x26, 4, 0x0B, 0, 0]), [6, 0x11]);
        // A row of three bytes after five; one after two bytes of a number; one from another start.
        assert_eq!(offsets_of(&[12, 3, 5, 3, 0x81, 0, 1, 0xC0, 0, 0x12, 0x34, 3, 0]), [5, 8, 0x105, 0x1234]);
        for truncated in [&[3][..], &[3, 0xE0], &[12, 3], &[3, 0x80], &[0]] {
            assert_eq!(offsets_of(truncated), [0; 0]);
        }
    }

    /// Any bytes have sites or none.
    #[test]
    fn damaged_records_end() {
        let site = [22, 0, 0x4D, 0x11, 0, 0, 0, 0, 0, 0, 0, 0, 0, 0x10, 0, 0, 0x0B, 0x26, 4, 0x0B, 3, 4, 0, 0];
        let whole = [&[6, 0, 0x10, 0x11, 0, 0, 0, 0][..], &site, &site].concat();
        let [sites] = &of_records(&whole)[..] else { panic!() };
        assert_eq!((&sites.offsets[..], sites.size), (&[6, 0x11, 0x15, 6, 0x11, 0x15][..], whole.len()));
        let mut seed = 83u64;
        for _ in 0..20_000 {
            let mut bytes = whole.clone();
            seed = seed.wrapping_mul(6364136223846793005).wrapping_add(1442695040888963407);
            let at = (seed >> 33) as usize % bytes.len();
            bytes[at] = (seed >> 24) as u8;
            bytes.truncate(whole.len() - (seed >> 60) as usize);
            assert!(of_records(&bytes).iter().all(|it| it.size <= bytes.len() && it.offsets.len() <= bytes.len()));
        }
    }
}
