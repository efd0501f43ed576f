//! Why a step of a walk is refused, or an item that is read by its key: the result of the call, and the numbers of its error. The
//! bytes are those of the tests of each walk; every number is worked out by hand.

use super::arm64::{with_records as with_arm64_records, with_table};
use super::bound_imports::BYTES as BOUND;
use super::coff::{STRINGS, SYMBOLS, object};
use super::delay_imports::{bytes_of as with_delay_imports, functions};
use super::directory_tables::two_blocks;
use super::imports::with_imports;
use super::made::*;
use super::resource_leaves::{NO_LEAF, of_size, start, with_tree};
use super::signing::three_certificates;
use super::steps::pe_c_next_resource_leaf;
use super::unwinding::with_records;
use crate::failures::{
    FAILED_ARM64_RECORD, FAILED_BOUND_IMPORT, FAILED_CERTIFICATE, FAILED_DELAY_IMPORT,
    FAILED_DELAYED_FUNCTION, FAILED_IMPORT, FAILED_LIBRARY, FAILED_RELOCATION,
    FAILED_RELOCATION_BLOCK, FAILED_RESOURCE_LEAF, FAILED_SYMBOL_NAME, FailedItem,
    pe_c_arm64_code_failure, pe_c_code_failure, pe_c_image_item_failure, pe_c_item_failure,
    pe_c_unwind_record_failure,
};
use crate::unwinding::pe_c_unwind_record;
use calls_directories::names::imports::{Imports, Libraries};
use calls_unwind::arm64::codes::Arm64CodeWalk;
use calls_unwind::unwinding::CodeWalk;
use pe_unwind::Arm64RuntimeFunction;

/// The answer; the error, its offset, needed bytes and value; and the last field.
type Said = (u32, u32, [u64; 3], u32);

/// What is said where nothing is wrong.
const NONE: Said = (NOTHING, 94, [91, 92, 93], 95);

/// What is said of an error.
fn error(number: u32, numbers: [u64; 3]) -> Said {
    (DONE, number, numbers, 0)
}

fn said(call: impl FnOnce(&mut Failure) -> u32) -> Said {
    let mut out = NO_FAILURE;
    said_with(call(&mut out), &out)
}

/// The same of a call that takes an image.
fn said_of(bytes: &[u8], image: &Image, call: impl FnOnce(&View, &mut Failure) -> u32) -> Said {
    let mut out = NO_FAILURE;
    said_with(call(&view(bytes, image, &sections()), &mut out), &out)
}

/// What is said of an item that is a range, in the page at 0x5000.
fn by_range(bytes: &[u8], kind: u32, range: Range) -> Said {
    let item = FailedItem {
        range,
        number: 0x5000,
        ..filled()
    };
    said(|out| pe_c_item_failure(bytes, kind, &item, out))
}

/// What is said of an item of an image.
fn item_of(bytes: &[u8], image: &Image, kind: u32, item: FailedItem) -> Said {
    said_of(
        bytes,
        image,
        |view, out| pe_c_image_item_failure(view, kind, &item, out),
    )
}

fn said_with(answer: u32, out: &Failure) -> Said {
    let numbers = [out.offset, out.needed, out.value];
    (answer, out.result, numbers, out.spare)
}

/// The second record of a directory, at 0x24: the RVA of its name is at 0x30, that of its list at 0x34.
#[test]
fn libraries(rt: HostRuntime) -> Result<(), Fail> {
    let changes: [(usize, &[u8], Said); 4] = [
        (0x30, &[0xA2], NONE),
        (0x30, &[0x68, 0x45], error(UNMAPPED, [0, 0, 0x4568])),
        (0xA2, &[0xFF], error(IMPORT_NAME, [0, 0, 0x10A2])),
        // Of the last seven bytes no number is zero.
        (0x34, &[0xB9], error(SHORT, [0xB9, 8, 0])),
    ];
    for (offset, change, wanted) in changes {
        let mut bytes = with_imports(rt.alloc())?;
        put(&mut bytes, &[(offset, change)]);
        let walk = libraries_at(0x24, 0);
        assert_eq!(rt; library(&bytes, &walk), wanted, "{change:?} at {offset}");
    }
    let bytes = with_imports(rt.alloc())?;
    let cut = library(&bytes, &libraries_at(0xAD, 0));
    assert_eq!(rt; cut, error(SHORT, [0xAD, 20, 0]));
    Ok(())
}

fn libraries_at(next: u64, is_over: u32) -> Libraries {
    Libraries {
        next,
        is_over,
        spare: 0,
    }
}

fn library(bytes: &[u8], walk: &Libraries) -> Said {
    let libraries = *walk;
    item_of(
        bytes,
        &image(X64),
        FAILED_LIBRARY,
        FailedItem {
            libraries,
            ..filled()
        },
    )
}

fn import(bytes: &[u8], image: &Image, left: Range) -> Said {
    let imports = Imports { left, rva: 7 };
    item_of(
        bytes,
        image,
        FAILED_IMPORT,
        FailedItem {
            imports,
            ..filled()
        },
    )
}

fn image_of_pe32() -> Image {
    Image {
        width: 32,
        ..image(X64)
    }
}

/// The second entry of a list, at 0x68, which is an ordinal.
#[test]
fn imports(rt: HostRuntime) -> Result<(), Fail> {
    let changes: [(&[u8; 8], Said); 4] = [
        (&[17, 0, 0, 0, 0, 0, 0, 0x80], NONE),
        // Bits 31 to 62 are no part of the RVA.
        (
            b"\x69\x45\0\x80\x01\0\0\x40",
            error(UNMAPPED, [0, 0, 0x4569]),
        ),
        (b"\xBE\x10\0\0\0\0\0\0", error(IMPORT_NAME, [0, 0, 0x10BE])),
        (b"\xBF\x10\0\0\0\0\0\0", error(SHORT, [0xBF, 2, 0])),
    ];
    for (change, wanted) in changes {
        let mut bytes = with_imports(rt.alloc())?;
        put(&mut bytes, &[(0x68, &change[..])]);
        let found = import(&bytes, &image(X64), range(0x68, 16));
        assert_eq!(rt; found, wanted, "{change:?}");
    }
    Ok(())
}

#[test]
fn unwind_records(rt: HostRuntime) -> Result<(), Fail> {
    let bytes = with_records(rt.alloc())?;
    for (unwind, wanted) in [
        (0x1030, NONE),
        // Of a link the RVA is one less.
        (0x4569, error(UNMAPPED, [0, 0, 0x4568])),
        (0x100F, error(FUNCTION_LINK, [0, 0, 0x100F])),
        (0x1019, error(FUNCTION_CYCLE, [0, 0, 0x1019])),
        (0x1078, error(UNWIND_VERSION, [0, 0, 3])),
        // The function to which a record is chained has 12 bytes.
        (0x1084, error(SHORT, [0x88, 12, 0])),
    ] {
        let table = range(0, 0x30);
        let found = said_of(&bytes, &image(X64), |view, out| {
            pe_c_unwind_record_failure(view, &table, unwind, out)
        });
        assert_eq!(rt; found, wanted, "at {unwind:#x}");
    }
    Ok(())
}

/// 20,000 entries at RVA 1000h, each a link to the first, which is one to itself, after 20,000 sections that cover nothing. To follow
/// as many links as there are entries would take minutes here.
#[test]
fn links_that_never_end_are_told_early(rt: HostRuntime) -> Result<(), Fail> {
    let mut bytes = Vec::new(rt.alloc());
    bytes.resize(20_000 * 12, 0)?;
    for entry in 0..20_000 {
        bytes[12 * entry + 8..12 * entry + 12].copy_from_slice(&0x1001_u32.to_le_bytes());
    }
    let mut many = Vec::new(rt.alloc());
    many.resize(20_000, section(0x8000_0000, 1, 0, 0))?;
    many.push(section(0x1000, 0x4_0000, 0, 0x4_0000))?;
    let (mut out, image, table) = (NO_FAILURE, image(X64), range(0, 240_000));
    // By an index the last section has all RVAs.
    let last = [RangeEntry {
        start: 0,
        number: 20_001,
    }];
    for (unwind, index) in [(0x100D, &[][..]), (0x100D, &last)] {
        let view = View {
            index,
            ..view(&bytes, &image, &many)
        };
        let mut record = filled();
        let found = pe_c_unwind_record(&view, &table, unwind, &mut record);
        assert_eq!(rt; found, FUNCTION_CYCLE);
        let answer = pe_c_unwind_record_failure(&view, &table, unwind, &mut out);
        let wanted = error(FUNCTION_CYCLE, [0, 0, u64::from(unwind)]);
        assert_eq!(rt; said_with(answer, &out), wanted);
    }
    Ok(())
}

/// A code after one that is read, at offset 2: its second byte has the operation, and what that takes above.
#[test]
fn codes(rt: HostRuntime) {
    let refused: [(u8, &[u8], Said); 4] = [
        (1, &[9, 0x50], NONE),
        (1, &[9, 0x2A], error(UNWIND_CODE, [0, 0, 0x2A])),
        (3, &[9, 0x16, 0, 0], error(UNWIND_CODE, [0, 0, 0x16])),
        (1, &[9, 0x11, 0, 0, 2], error(SHORT, [2, 6, 0])),
    ];
    for (version, code, wanted) in refused {
        let mut bytes = [0; 8];
        bytes[2..2 + code.len()].copy_from_slice(code);
        let walk = CodeWalk {
            left: range(2, code.len() as u64),
            version,
            frame_register: 5,
            spare: [1; 6],
        };
        let found = said(|out| pe_c_code_failure(&bytes, &walk, out));
        assert_eq!(rt; found, wanted, "{code:?}");
    }
}

/// The data of the directory are at 0x20: offsets from the first directory on are 0x20 less than those of the file.
#[test]
fn resource_leaves(rt: HostRuntime) -> Result<(), Fail> {
    let image = of_size(0x8E);
    for (change, leaves, wanted) in [
        ((0x76, 0), 0, NONE),
        // The second type leads to a data entry, and nothing follows it.
        ((0x76, 0), 2, error(TREE_NOT_DIRECTORY, [0x68, 0, 0])),
        // The second language leads to a directory.
        ((0x77, 0x80), 1, error(TREE_NOT_DATA, [0x68, 0, 0])),
        // Its data entry is truncated.
        ((0x74, 0x7F), 1, error(SHORT, [0x9F, 16, 0])),
        // The directory of languages is empty.
        ((0x66, 0), 0, error(TREE_NO_ENTRIES, [0x38, 0, 0])),
    ] {
        let mut bytes = with_tree(rt.alloc())?;
        let (offset, byte): (usize, u8) = change;
        bytes[offset] = byte;
        let (_, mut walk) = start(&bytes, &image);
        for _ in 0..leaves {
            let mut leaf = NO_LEAF;
            pe_c_next_resource_leaf(&view(&bytes, &image, &sections()), &mut walk, &mut leaf);
        }
        let leaves_left = FailedItem {
            leaves: walk.leaves,
            ..filled()
        };
        let found = item_of(&bytes, &image, FAILED_RESOURCE_LEAF, leaves_left);
        assert_eq!(rt; found, wanted, "of {offset} after {leaves}");
    }
    Ok(())
}

/// The second certificate, at 24.
#[test]
fn certificates(rt: HostRuntime) -> Result<(), Fail> {
    let changes: [(usize, &[u8], Said); 4] = [
        (24, &[8], NONE),
        (28, &[0, 3], error(CERTIFICATE_REVISION, [0, 0, 0x300])),
        (30, &[5], error(CERTIFICATE_TYPE, [0, 0, 5])),
        (24, &[33], error(CERTIFICATE_SIZE, [0, 33, 0])),
    ];
    for (offset, change, wanted) in changes {
        let mut bytes = three_certificates(rt.alloc())?;
        put(&mut bytes, &[(offset, change)]);
        let found = by_range(&bytes, FAILED_CERTIFICATE, range(24, 24));
        assert_eq!(rt; found, wanted, "{change:?} at {offset}");
    }
    let bytes = three_certificates(rt.alloc())?;
    for (walk, wanted) in [
        (range(49, 7), error(SHORT, [49, 8, 0])),
        (range(24, 33), error(CERTIFICATE_TABLE, [57, 0, 0])),
    ] {
        let found = by_range(&bytes, FAILED_CERTIFICATE, walk);
        assert_eq!(rt; found, wanted);
    }
    Ok(())
}

/// The second block, at 16: its size is at 20, and its last entry at 28.
#[test]
fn relocations(rt: HostRuntime) -> Result<(), Fail> {
    let mut bytes = two_blocks(rt.alloc())?;
    for (walk, wanted) in [
        (range(16, 14), NONE),
        (range(16, 7), error(SHORT, [16, 8, 0])),
        (range(16, 13), error(DIRECTORY_BLOCK_TRUNCATED, [0, 14, 13])),
    ] {
        let found = by_range(&bytes, FAILED_RELOCATION_BLOCK, walk);
        assert_eq!(rt; found, wanted);
    }
    for (walk, wanted) in [
        (range(24, 6), NONE),
        (range(28, 2), error(DIRECTORY_NO_ARGUMENT, [0, 0, 0x5020])),
        (range(28, 1), error(SHORT, [28, 2, 0])),
    ] {
        let found = by_range(&bytes, FAILED_RELOCATION, walk);
        assert_eq!(rt; found, wanted);
    }
    bytes[20] = 9;
    let found = by_range(&bytes, FAILED_RELOCATION_BLOCK, range(16, 14));
    assert_eq!(rt; found, error(DIRECTORY_BLOCK_SIZE, [0, 0, 9]));
    Ok(())
}

#[test]
fn arm64_records(rt: HostRuntime) -> Result<(), Fail> {
    let bytes = with_arm64_records(rt.alloc())?;
    for (size, unwind_data, wanted) in [
        (8, 0x1010, NONE),
        (8, 0x4568, error(UNMAPPED, [0, 0, 0x4568])),
        (8, 0x1060, error(ARM64_VERSION, [0, 0, 1])),
        (8, 0x1080, error(SHORT, [0x80, 4, 0])),
        (7, 0x1010, error(EXCEPTION_SIZE, [0, 0, 7])),
    ] {
        let function = Arm64RuntimeFunction {
            begin_address: 9,
            unwind_data,
        };
        let of_function = FailedItem {
            function,
            ..filled()
        };
        let image = with_table(0x1000, size);
        let found = item_of(&bytes, &image, FAILED_ARM64_RECORD, of_function);
        assert_eq!(rt; found, wanted, "at {unwind_data:#x}");
    }
    Ok(())
}

/// A stream of four bytes at offset 5, whose second byte starts a code of four bytes.
#[test]
fn arm64_codes(rt: HostRuntime) {
    let bytes = [0, 0, 0, 0, 0, 0xE4, 0xE0, 0, 0, 0];
    for (left, offset, wanted) in [
        (range(5, 4), 0, NONE),
        (range(6, 3), 1, error(ARM64_CUT, [1, 0, 0])),
        (range(6, 3), 0, error(ARM64_STREAM, [0, 0, 3])),
    ] {
        let walk = Arm64CodeWalk { left, offset };
        let found = said(|out| pe_c_arm64_code_failure(&bytes, &walk, out));
        assert_eq!(rt; found, wanted);
    }
}

/// A second entry, at 36, with these attributes and the RVAs of its name and of its table, which is that of the first.
fn with_second(alloc: Global, attributes: u32, name: u32, table: u32) -> Result<Vec<u8>, Fail> {
    let mut bytes = with_delay_imports(alloc)?;
    for (offset, number) in [(36, attributes), (40, name), (52, table)] {
        bytes[offset..offset + 4].copy_from_slice(&number.to_le_bytes());
    }
    Ok(bytes)
}

fn delay_import(bytes: &[u8], walk: Range) -> Said {
    let item = FailedItem {
        range: walk,
        ..filled()
    };
    item_of(bytes, &image(X64), FAILED_DELAY_IMPORT, item)
}

#[test]
fn delay_imports(rt: HostRuntime) -> Result<(), Fail> {
    for (attributes, name, table, wanted) in [
        (1, 0x1044, 0x1054, NONE),
        (1, 0x4568, 0x1054, error(UNMAPPED, [0, 0, 0x4568])),
        (1, 0x1044, 0x4569, error(UNMAPPED, [0, 0, 0x4569])),
        (
            0,
            0x1044,
            0x1054,
            error(DIRECTORY_VA_BELOW_BASE, [0, 0, 0x1044]),
        ),
    ] {
        let bytes = with_second(rt.alloc(), attributes, name, table)?;
        assert_eq!(rt; delay_import(&bytes, range(36, 32)), wanted);
    }
    // Of the name at 68 the second byte is in no text of UTF-8 as the first.
    let mut bytes = with_second(rt.alloc(), 1, 0x1045, 0x1054)?;
    bytes[69] = 0xBF;
    let found = delay_import(&bytes, range(36, 32));
    assert_eq!(rt; found, error(DIRECTORY_DELAY_IMPORT_NAME, [69, 0, 0]));
    Ok(())
}

fn delayed_function(bytes: &[u8], image: &Image, left: [u64; 2], attributes: u32) -> Said {
    let item = FailedItem {
        functions: functions(left, attributes),
        ..filled()
    };
    item_of(bytes, image, FAILED_DELAYED_FUNCTION, item)
}

#[test]
fn delayed_functions(rt: HostRuntime) -> Result<(), Fail> {
    let bytes = with_delay_imports(rt.alloc())?;
    let (pe32_plus, pe32) = (image(X64), image_of_pe32());
    for (image, left, attributes, wanted) in [
        (&pe32_plus, [84, 44], 1, NONE),
        (&pe32_plus, [120, 8], 1, error(UNMAPPED, [0, 0, 0x2000])),
        (&pe32, [108, 3], 1, error(SHORT, [108, 4, 0])),
        (
            &pe32_plus,
            [84, 44],
            0,
            error(DIRECTORY_VA_BELOW_BASE, [0, 0, 0x104C]),
        ),
    ] {
        let found = delayed_function(&bytes, image, left, attributes);
        assert_eq!(rt; found, wanted, "{left:?}");
    }
    Ok(())
}

/// The second DLL, at 20, whose name is at 0x38 of the directory and not NUL-terminated.
#[test]
fn bound_imports(rt: HostRuntime) {
    let table = range(4, 63);
    for (table, walk, wanted) in [
        (table, table, NONE),
        (
            table,
            range(20, 47),
            error(DIRECTORY_BOUND_IMPORT_NAME, [0x38, 0, 0]),
        ),
        // An entry and its forwarder have 16 bytes.
        (table, range(4, 15), error(SHORT, [4, 16, 0])),
    ] {
        let item = FailedItem {
            range: walk,
            table,
            ..filled()
        };
        let found = said(|out| pe_c_item_failure(BOUND, FAILED_BOUND_IMPORT, &item, out));
        assert_eq!(rt; found, wanted);
    }
}

/// Of the symbol in entry 2, whose name is at `string` of the string table; there are 17 bytes and a zero at 4.
fn symbol_name(
    alloc: Global,
    string: u8,
    [table, strings]: [Range; 2],
    index: u64,
) -> Result<Said, Fail> {
    let mut bytes = object(alloc)?;
    bytes[0xCE] = string;
    let item = FailedItem {
        table,
        strings,
        index,
        ..filled()
    };
    Ok(said(|out| pe_c_item_failure(&bytes, FAILED_SYMBOL_NAME, &item, out)))
}

#[test]
fn symbol_names(rt: HostRuntime) -> Result<(), Fail> {
    for (string, length, index, wanted) in [
        (4, 22, 2, NONE),
        (22, 22, 2, error(STRING_TABLE, [22, 0, 0])),
        (4, 23, 2, error(SHORT, [STRINGS, 23, 0])),
    ] {
        let tables = [range(SYMBOLS, 18 * 12), range(STRINGS, length)];
        let found = symbol_name(rt.alloc(), string, tables, index)?;
        assert_eq!(rt; found, wanted);
    }
    Ok(())
}
