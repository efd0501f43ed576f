//! The tables of a load configuration: which is which, where each starts, its entries one a step.

use super::made::*;
use super::steps::pe_c_next_guard_entry;
use crate::directories::pe_c_guard_table;
use calls_directories::directories::guard_tables::{GuardEntries, GuardEntry};

/// What `out` is before each call.
const NO_WALK: GuardEntries = GuardEntries {
    entries: Range {
        offset: 1,
        length: 2,
    },
    count: 3,
    flag_size: 4,
    spare: 5,
};

const NO_ENTRY: GuardEntry = GuardEntry {
    flag_bytes: Range {
        offset: 1,
        length: 2,
    },
    rva: 3,
    flags: 4,
};

/// `IMAGE_LOAD_CONFIG_DIRECTORY64` of 280 bytes at RVA 0x1000, whose entries have `flag_size` bytes of flags, and 20 bytes of
/// entries after it. The tables, by the offsets of winnt.h, are at RVAs 0x1118 to 0x111C and have 1 to 5 entries.
fn with_tables(alloc: Global, flag_size: u32) -> Result<Vec<u8>, AllocError> {
    let mut numbers = [0; 75];
    numbers[0] = 280;
    numbers[144 / 4] = flag_size << 28 | 0x500;
    let mut i = 0;
    for offset in [96, 128, 160, 176, 264] {
        numbers[offset / 4] = 0x4000_1118 + i;
        numbers[offset / 4 + 1] = 1;
        numbers[offset / 4 + 2] = i + 1;
        i += 1;
    }
    for j in 0..5 {
        numbers[70 + j] = 0x0403_0201 + 0x0404_0404 * j as u32;
    }
    words(alloc, &numbers)
}

fn of_config(image: Image) -> Image {
    having(image, 10, directory(0x1000, 280))
}

fn start(bytes: &[u8], image: &Image, table: u32) -> (u32, GuardEntries) {
    let mut out = NO_WALK;
    let answer = pe_c_guard_table(&view(bytes, image, &sections()), table, &mut out);
    (answer, out)
}

fn fields(walk: &GuardEntries) -> ([u64; 2], u64, u32, u32) {
    (
        of_range(walk.entries),
        walk.count,
        walk.flag_size,
        walk.spare,
    )
}

fn of_entry(entry: &GuardEntry) -> ([u64; 2], u32, u32) {
    (of_range(entry.flag_bytes), entry.rva, entry.flags)
}

/// Each table by its number: exception handlers have no flags.
#[test]
fn tables_start_where_the_structure_says(rt: HostRuntime) -> Result<(), Fail> {
    let image = of_config(image(X64));
    let bytes = with_tables(rt.alloc(), 3)?;
    for (table, flag_size) in [(0, 0), (1, 3), (2, 3), (3, 3), (4, 3)] {
        let (answer, walk) = start(&bytes, &image, table);
        let offset = 280 + u64::from(table);
        let want = ([offset, 300 - offset], u64::from(table) + 1, flag_size, 0);
        assert_eq!(rt; (answer, fields(&walk)), (DONE, want));
    }
    let (answer, walk) = start(&bytes, &image, 5);
    assert_eq!(rt; (answer, fields(&walk)), (NOTHING, fields(&NO_WALK)));
    Ok(())
}

/// No table without its address, its number of entries, or a structure that has both.
#[test]
fn absent_tables_and_refusals(rt: HostRuntime) -> Result<(), Fail> {
    let there = of_config(image(X64));
    let mut bytes = with_tables(rt.alloc(), 0)?;
    assert_eq!(rt; start(&bytes[..280], &there, 4).0, DONE);
    assert_eq!(rt; start(&bytes[..279], &there, 4).0, NOTHING);
    assert_eq!(rt; start(&bytes[..3], &there, 4).0, SHORT);
    for (word, number, want) in [
        (264, 0x4000_3000, UNMAPPED),
        (264, 0x3FFF_FFFF, DIRECTORY_VA_BELOW_BASE),
        (272, 0_u32, NOTHING),
    ] {
        bytes[word..word + 4].copy_from_slice(&number.to_le_bytes());
        let (answer, walk) = start(&bytes, &there, 4);
        assert_eq!(rt; (answer, fields(&walk)), (want, fields(&NO_WALK)));
    }
    Ok(())
}

/// Entries follow one another, each an RVA and then its flags.
#[test]
fn entries_one_a_step(rt: HostRuntime) -> Result<(), Fail> {
    let bytes = with_tables(rt.alloc(), 0)?;
    let mut walk = GuardEntries {
        entries: range(280, 20),
        count: 3,
        flag_size: 3,
        spare: 9,
    };
    let mut out = NO_ENTRY;
    for (want, left) in [
        (([284, 3], 0x0403_0201, 5), ([287, 13], 2, 3, 9)),
        (([291, 3], 0x0B0A_0908, 12), ([294, 6], 1, 3, 9)),
    ] {
        assert_eq!(rt; pe_c_next_guard_entry(&bytes, &mut walk, &mut out), DONE);
        assert_eq!(rt; (of_entry(&out), fields(&walk)), (want, left));
    }
    // the third needs 7 bytes, and 6 are left
    assert_eq!(rt; pe_c_next_guard_entry(&bytes, &mut walk, &mut out), SHORT);
    assert_eq!(rt; (out.rva, fields(&walk)), (0x0B0A_0908, ([0, 0], 0, 0, 0)));
    assert_eq!(rt; pe_c_next_guard_entry(&bytes, &mut walk, &mut out), NOTHING);
    Ok(())
}
