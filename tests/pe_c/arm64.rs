//! The functions of ARM64 images, their unwind records and epilog scopes.

use super::made::*;
use super::steps::{pe_c_arm64_function_at, pe_c_arm64_table};
use crate::arm64::{
    pe_c_arm64_packed_fields, pe_c_arm64_unwind_record, pe_c_find_arm64_function,
    pe_c_next_arm64_scope,
};
use calls_unwind::arm64::functions::Arm64Packed;
use calls_unwind::arm64::records::{Arm64Record, Arm64Scope};
use pe_unwind::Arm64RuntimeFunction;

/// An image for ARM64 with its exception directory there.
pub(crate) fn with_table(virtual_address: u32, size: u32) -> Image {
    having(image(ARM64), 3, directory(virtual_address, size))
}

fn table_of(bytes: &[u8], image: &Image) -> (u32, [u64; 2]) {
    let mut out = untouched();
    let answer = pe_c_arm64_table(&view(bytes, image, &sections()), &mut out);
    (answer, of_range(out))
}

/// The directory's address 0x1010 is the offset 0x10, and its entries have 8 bytes.
#[test]
fn function_tables(rt: HostRuntime) {
    let bytes = [0; 0x40];
    let whole = with_table(0x1010, 0x28);
    assert_eq!(rt; table_of(&bytes, &whole), (DONE, [0x10, 0x28]));
    let (other, odd) = (
        Image {
            machine: X64,
            ..whole
        },
        with_table(0x1010, 0x2C),
    );
    assert_eq!(rt; table_of(&bytes, &other), (NOTHING, UNTOUCHED));
    assert_eq!(rt; table_of(&bytes, &odd), (EXCEPTION_SIZE, UNTOUCHED));
}

fn function(begin_address: u32, unwind_data: u32) -> Arm64RuntimeFunction {
    Arm64RuntimeFunction {
        begin_address,
        unwind_data,
    }
}

/// What a function is before a call that hands out another.
const OTHER: Arm64RuntimeFunction = Arm64RuntimeFunction {
    begin_address: 7,
    unwind_data: 8,
};

/// Functions of 4 and of 8 words, which are packed, and between them one of 6 words, whose record starts after the table. Its
/// version, 3, is not asked.
#[test]
fn functions_of_addresses(rt: HostRuntime) -> Result<(), Fail> {
    let bytes = words(
        rt.alloc(),
        &[
            0xFFFF_FFFF,
            0x1000,
            0x11,
            0x1020,
            0x101C,
            0x1040,
            0x21,
            0x000C_0006,
        ],
    )?;
    let whole = image(ARM64);
    let find = |bytes: &[u8], image: &Image, table: &Range, rva| {
        let mut out = OTHER;
        let answer = pe_c_find_arm64_function(
            &view(bytes, image, &sections()),
            table,
            rva,
            &mut out,
        );
        (answer, out)
    };
    let table = range(4, 24);
    let first = function(0x1000, 0x11);
    let second = function(0x1020, 0x101C);
    let last = function(0x1040, 0x21);
    for (rva, want) in [
        (0x0FFF, (NOTHING, OTHER)),
        (0x1000, (DONE, first)),
        (0x100F, (DONE, first)),
        (0x1010, (NOTHING, OTHER)),
        (0x1020, (DONE, second)),
        (0x1037, (DONE, second)),
        (0x1038, (NOTHING, OTHER)),
        (0x1040, (DONE, last)),
        (0x105F, (DONE, last)),
        (0x1060, (NOTHING, OTHER)),
    ] {
        assert_eq!(rt; find(&bytes, &whole, &table, rva), want, "of {rva:#x}");
    }
    // The record alone is refused, and where it is not the one to read, it is not read.
    let cut = &bytes[..0x1F];
    assert_eq!(rt; find(cut, &whole, &table, 0x1020), (SHORT, OTHER));
    assert_eq!(rt; find(cut, &whole, &table, 0x100F), (DONE, first));
    Ok(())
}

/// A table that is truncated has no last entry.
#[test]
fn functions_by_index(rt: HostRuntime) -> Result<(), Fail> {
    let numbers = [0xFFFF_FFFF, 0x1000, 0x0062_0021, 0x1020, 0x1040];
    let bytes = words(rt.alloc(), &numbers)?;
    let at = |table: &Range, index| {
        let mut out = OTHER;
        let answer = pe_c_arm64_function_at(&bytes, table, index, &mut out);
        (answer, out)
    };
    let table = range(4, 16);
    assert_eq!(rt; at(&table, 1), (DONE, function(0x1020, 0x1040)));
    assert_eq!(rt; at(&table, 2), (FUNCTION_INDEX, OTHER));
    assert_eq!(rt; at(&range(4, 15), 1), (FUNCTION_INDEX, OTHER));
    Ok(())
}

/// Bits 0 and 1 are the flag; 2 to 12 the length by 4; 13 to 15 RegF; 16 to 19 RegI; 20 H; 21 and 22 CR; 23 to 31 the frame
/// size by 16.
#[test]
fn packed_unwind_data(rt: HostRuntime) -> Result<(), Fail> {
    // Flag, length of the function, frame size, RegF, RegI, H, CR, and whether the data are packed.
    for (data, want) in [
        (0, [0; 8]),
        (3, [3, 0, 0, 0, 0, 0, 0, 1]),
        (0x0000_1FFC, [0, 4 * 0x7FF, 0, 0, 0, 0, 0, 0]),
        (0x0000_E001, [1, 0, 0, 7, 0, 0, 0, 1]),
        (0x000F_0001, [1, 0, 0, 0, 15, 0, 0, 1]),
        (0x0010_0001, [1, 0, 0, 0, 0, 1, 0, 1]),
        (0x0060_0001, [1, 0, 0, 0, 0, 0, 3, 1]),
        (0xFF80_0001, [1, 0, 16 * 0x1FF, 0, 0, 0, 0, 1]),
        (0x0332_2011, [1, 16, 96, 1, 2, 1, 1, 1]),
    ] {
        let mut out: Arm64Packed = filled();
        let answer = pe_c_arm64_packed_fields(&function(0x1000, data), &mut out);
        assert_eq!(rt; answer, DONE);
        assert_eq!(rt;
            raw(&out),
            words(rt.alloc(), &want)?.as_slice(),
            "of {data:#x}"
        );
    }
    Ok(())
}

// ---- unwind records

/// A record by its scopes, its codes, its handler's data, and the other numbers.
fn record(ranges: [[u64; 2]; 3], numbers: [u32; 6]) -> Arm64Record {
    let [scopes, codes, handler_data] = ranges.map(|[offset, length]| range(offset, length));
    let [
        handler,
        has_handler,
        function_length,
        epilog_in_header,
        epilog_start,
        version,
    ] = numbers;
    Arm64Record {
        scopes,
        codes,
        handler_data,
        handler,
        has_handler,
        function_length,
        epilog_in_header,
        epilog_start,
        version,
    }
}

fn record_of(bytes: &[u8], image: &Image, unwind_data: u32) -> (u32, Arm64Record) {
    let mut out = filled();
    let function = function(0x5000, unwind_data);
    let answer = pe_c_arm64_unwind_record(&view(bytes, image, &sections()), &function, &mut out);
    (answer, out)
}

/// Records of 16 bytes each from offset 0x10 on. A header has the length of the function by 4 in bits 0 to 17, the
/// version in 18 and 19, whether there is a handler in 20, whether the epilog is in the header in 21, the count of
/// epilogs or the epilog's first code in 22 to 26 and the code words in 27 to 31; an extension, where both counts are 0,
/// has the count of epilogs in bits 0 to 15 and the code words in 16 to 23.
pub(crate) fn with_records(alloc: Global) -> Result<Vec<u8>, Fail> {
    Ok(words(
        alloc,
        &[
            0x5000,
            0x1010,
            0,
            0, //
            0x0850_0010,
            0x0140_000C,
            0xE4E4_E4E4,
            0x0000_1100, // at 0x10 a scope, a word of codes and a handler
            0x1160_0003,
            0xE4E4_E4E4,
            0xE4E4_E4E4,
            0, // at 0x20 an epilog in the header, whose first code is 5
            0x0000_0004,
            0x0001_0002,
            0x0000_0001,
            0x0000_0002, // at 0x30 an extension: two scopes, a word of codes
            0xE4E4_E4E4,
            0,
            0x0020_0000,
            0x0003_0007, // at 0x48 an extension: the epilog's first code is 7
            0xE4E4_E4E4,
            0xE4E4_E4E4,
            0xE4E4_E4E4,
            0, //
            0x0804_0000,
            0,
            0x0800_0000,
            0, // at 0x60 version 1, at 0x68 a word of codes alone
            0,
            0x0100_0000,
            0,
            0xF800_0000, // at 0x70 an extension of no scopes and no codes; at 0x7C too many words
        ],
    )?)
}

#[test]
fn records_are_read(rt: HostRuntime) -> Result<(), Fail> {
    let bytes = with_records(rt.alloc())?;
    let image = with_table(0x1000, 8);
    // Another version, and packed data, which have no record.
    for (unwind_data, number) in [(0x1060, ARM64_VERSION), (0x1011, NOTHING)] {
        let (answer, found) = record_of(&bytes, &image, unwind_data);
        assert_eq!(rt; (answer, is_filled(&found)), (number, true));
    }
    for (unwind_data, ranges, numbers) in [
        (
            0x1010,
            [[0x14, 4], [0x18, 4], [0x20, 0x60]],
            [0x1100, 1, 64, 0, 0, 0],
        ),
        (0x1020, [[0x24, 0], [0x24, 8], OVER], [0, 0, 12, 1, 5, 0]),
        (0x1030, [[0x38, 8], [0x40, 4], OVER], [0, 0, 16, 0, 0, 0]),
        (0x1048, [[0x50, 0], [0x50, 12], OVER], [0, 0, 0, 1, 7, 0]),
        (0x1068, [[0x6C, 0], [0x6C, 4], OVER], [0, 0, 0, 0, 0, 0]),
        (0x1070, [[0x78, 0], [0x78, 0], OVER], [0, 0, 0, 0, 0, 0]),
    ] {
        let (answer, found) = record_of(&bytes, &image, unwind_data);
        assert_eq!(rt; answer, DONE, "at {unwind_data:#x}");
        let want = record(ranges, numbers);
        assert_eq!(rt; raw(&found), raw(&want), "at {unwind_data:#x}");
    }
    Ok(())
}

// ---- epilog scopes

/// One step: the answer, the scope, and the walk.
fn step(bytes: &[u8], walk: &mut Range) -> (u32, Arm64Scope, [u64; 2]) {
    let mut out = filled();
    let answer = pe_c_next_arm64_scope(bytes, walk, &mut out);
    (answer, out, of_range(*walk))
}

/// Bits 0 to 17 are the offset by 4, 18 to 21 are reserved, and 22 to 31 are the index.
#[test]
fn scopes_in_turn(rt: HostRuntime) -> Result<(), Fail> {
    let bytes = words(
        rt.alloc(),
        &[
            0xFFFF_FFFF,
            0x0140_000C,
            0x0003_FFFF,
            0x003C_0000,
            0xFFC0_0000,
        ],
    )?;
    let mut walk = range(4, 16);
    // Start, index, reserved bits and word.
    for (scope, after) in [
        ([48, 5, 0, 0x0140_000C], [8, 12]),
        ([4 * 0x3_FFFF, 0, 0, 0x0003_FFFF], [12, 8]),
        ([0, 0, 15, 0x003C_0000], [16, 4]),
        ([0, 0x3FF, 0, 0xFFC0_0000], [20, 0]),
    ] {
        let (answer, found, left) = step(&bytes, &mut walk);
        assert_eq!(rt; (answer, left), (DONE, after));
        assert_eq!(rt; raw(&found), words(rt.alloc(), &scope)?.as_slice());
    }
    for (mut walk, number, after) in [(walk, NOTHING, [20, 0]), (range(4, 3), SHORT, OVER)] {
        let (answer, found, left) = step(&bytes, &mut walk);
        assert_eq!(rt; (answer, is_filled(&found), left), (number, true, after));
    }
    Ok(())
}
