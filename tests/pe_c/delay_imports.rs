//! The DLLs of the delay import directory, one a step, and what is imported of each.

use super::made::*;
use super::steps::{pe_c_next_delay_import, pe_c_next_delayed_function};
use crate::directories::pe_c_directory_table;
use calls_directories::directories::delay_imports::{
    DelayLibrary, DelayWalk, DelayedFunction, DelayedFunctionWalk, DelayedFunctions,
};
use pe_directories::DelayImport;

/// 128 bytes: at 4 an entry with RVAs and at 36 an entry of zeros; at 68 the name `a.dll`, at 76 a hint 0x201 and the name
/// `fn`, at 84 a table with the number of that hint, an ordinal 9 and zero, of 8 bytes each, at 108 one of PE32, and at 120 a
/// number of 8 bytes that is no RVA, up to the end.
pub(crate) fn bytes_of(alloc: Global) -> Result<Vec<u8>, AllocError> {
    words(
        alloc,
        &[
            0xDD, 1, 0x1044, 3, 4, 0x1054, 6, 7, 8, 0, 0, 0, 0, 0, 0, 0, 0, 0x6C642E61, 0x6C,
            0x6E660201, 0, 0x104C, 0, 0xFFFF0009, 0x80000000, 0, 0, 0x104C, 0x80000009, 0, 0x2000,
            0,
        ],
    )
}

const NO_ENTRY: DelayImport = DelayImport {
    attributes: 11,
    name: 12,
    module_handle: 13,
    import_address_table: 14,
    import_name_table: 15,
    bound_import_address_table: 16,
    unload_information_table: 17,
    time_date_stamp: 18,
};

/// What `out` is before each call.
pub(crate) const NO_LIBRARY: DelayLibrary = DelayLibrary {
    name: NO_RANGE,
    functions: DelayedFunctions {
        left: NO_RANGE,
        attributes: 7,
        spare: 0,
    },
    descriptor: NO_ENTRY,
};

pub(crate) const NO_FUNCTION: DelayedFunction = DelayedFunction {
    name: NO_RANGE,
    ordinal: 7,
    has_name: 8,
};

const ENTRY: DelayImport = DelayImport {
    attributes: 1,
    name: 0x1044,
    module_handle: 3,
    import_address_table: 4,
    import_name_table: 0x1054,
    bound_import_address_table: 6,
    unload_information_table: 7,
    time_date_stamp: 8,
};

#[test]
fn tables_of_entries(rt: HostRuntime) -> Result<(), Fail> {
    let bytes = bytes_of(rt.alloc())?;
    for (address, size, want) in [
        (0x1004, 64, (DONE, [4, 64])),
        (0x1004, 125, (SHORT, UNTOUCHED)),
        (0, 0, (NOTHING, UNTOUCHED)),
    ] {
        let image = having(image(X64), 13, directory(address, size));
        let mut out = untouched();
        let answer = pe_c_directory_table(&view(&bytes, &image, &sections()), 13, &mut out);
        assert_eq!(rt; (answer, of_range(out)), want);
    }
    Ok(())
}

/// A walk by steps, which starts here.
pub(crate) fn from(entries: Range) -> DelayWalk {
    DelayWalk {
        entries,
        kept: NO_SECTIONS,
    }
}

/// The same over what is imported of a DLL.
pub(crate) fn from_function(functions: DelayedFunctions) -> DelayedFunctionWalk {
    DelayedFunctionWalk {
        functions,
        kept: NO_SECTIONS,
    }
}

/// The result of a step, the name, the table and the attributes of its walk, the entry, and what is left.
fn next(
    bytes: &[u8],
    image: &Image,
    walk: [u64; 2],
) -> (u32, [[u64; 2]; 2], u32, DelayImport, [u64; 2]) {
    let mut walk = from(range(walk[0], walk[1]));
    let mut out = NO_LIBRARY;
    let answer = pe_c_next_delay_import(&view(bytes, image, &sections()), &mut walk, &mut out);
    (
        answer,
        [of_range(out.name), of_range(out.functions.left)],
        out.functions.attributes,
        out.descriptor,
        of_range(walk.entries),
    )
}

pub(crate) fn functions(left: [u64; 2], attributes: u32) -> DelayedFunctions {
    DelayedFunctions {
        left: range(left[0], left[1]),
        attributes,
        spare: 0,
    }
}

#[test]
fn entries_in_turn(rt: HostRuntime) -> Result<(), Fail> {
    let bytes = bytes_of(rt.alloc())?;
    let image = image(X64);
    let found = |left| (DONE, [[68, 5], [84, 44]], 1, ENTRY, left);
    // shows: calls_directories/src/directories/delay_imports.rt name_range DelayImportName
    assert_eq!(rt; next(&bytes, &image, [4, 64]), found([36, 32]));
    let nothing = |answer, left| (answer, [OVER; 2], 7, NO_ENTRY, left);
    let end = [36, 32];
    assert_eq!(rt; next(&bytes, &image, end), nothing(NOTHING, end));
    assert_eq!(rt; next(&bytes, &image, [4, 31]), nothing(SHORT, OVER));
    // The image as loaded: its addresses are offsets.
    let said = next(&bytes, &in_mode(&image, 2), [4, 64]);
    assert_eq!(rt; said, nothing(DIRECTORY_DELAY_IMPORT_NAME, OVER));
    Ok(())
}

/// The entry with other numbers: attributes, name and table.
fn entry_of(alloc: Global, attributes: u32, name: u32, table: u32) -> Result<Vec<u8>, AllocError> {
    let mut bytes = bytes_of(alloc)?;
    bytes[4..8].copy_from_slice(&attributes.to_le_bytes());
    bytes[8..12].copy_from_slice(&name.to_le_bytes());
    bytes[20..24].copy_from_slice(&table.to_le_bytes());
    Ok(bytes)
}

#[test]
fn names_and_tables(rt: HostRuntime) -> Result<(), Fail> {
    let wide = image(X64);
    let low = Image {
        base: 0x40_0000,
        ..wide
    };
    // shows: calls_directories/src/directories/delay_imports.rt rva_of VaBelowBase
    for (image, attributes, name, table, want) in [
        // shows: calls_directories/src/directories/delay_imports.rt address_offset Unmapped
        (&wide, 1, 0x2000, 0x1054, UNMAPPED),
        (&wide, 1, 0x1080, 0x2000, DIRECTORY_DELAY_IMPORT_NAME),
        (&low, 0, 0x3F_FFFF, 0x40_1054, DIRECTORY_VA_BELOW_BASE),
    ] {
        let bytes = entry_of(rt.alloc(), attributes, name, table)?;
        let (answer, _, _, _, left) = next(&bytes, image, [4, 64]);
        assert_eq!(rt; (answer, left), (want, OVER));
    }
    let bytes = entry_of(rt.alloc(), 2, 0x40_1044, 0x40_1054)?;
    let (answer, ranges, attributes, _, left) = next(&bytes, &low, [4, 64]);
    let found = (answer, ranges, attributes, left);
    assert_eq!(rt; found, (DONE, [[68, 5], [84, 44]], 2, [36, 32]));
    Ok(())
}

/// The result of a step, the name, the ordinal and whether there is a name, and what is left.
fn step(
    bytes: &[u8],
    image: &Image,
    left: [u64; 2],
    attributes: u32,
) -> (u32, [u64; 2], [u32; 2], [u64; 2]) {
    let mut walk = from_function(functions(left, attributes));
    let mut out = NO_FUNCTION;
    let answer = pe_c_next_delayed_function(&view(bytes, image, &sections()), &mut walk, &mut out);
    let numbers = [out.ordinal, out.has_name];
    let left = of_range(walk.functions.left);
    (answer, of_range(out.name), numbers, left)
}

#[test]
fn functions_in_turn(rt: HostRuntime) -> Result<(), Fail> {
    let bytes = bytes_of(rt.alloc())?;
    let wide = image(X64);
    let narrow = Image { width: 32, ..wide };
    for (image, left, want) in [
        (&wide, [84, 44], (DONE, [78, 2], [0x201, 1], [92, 36])),
        (&wide, [92, 36], (DONE, OVER, [9, 0], [100, 28])),
        (&wide, [100, 28], (NOTHING, OVER, [7, 8], [100, 28])),
        (&narrow, [108, 20], (DONE, [78, 2], [0x201, 1], [112, 16])),
        (&narrow, [112, 16], (DONE, OVER, [9, 0], [116, 12])),
        (&narrow, [116, 12], (NOTHING, OVER, [7, 8], [116, 12])),
        (&wide, [120, 8], (UNMAPPED, OVER, [7, 8], OVER)),
        (&wide, [84, 7], (SHORT, OVER, [7, 8], OVER)),
        // Of PE32 the high half of a number of 8 bytes is the next number.
        (&narrow, [92, 36], (DONE, OVER, [9, 0], [96, 32])),
    ] {
        assert_eq!(rt; step(&bytes, image, left, 1), want);
    }
    let found = step(&bytes, &wide, [84, 44], 0);
    assert_eq!(rt; found, (DIRECTORY_VA_BELOW_BASE, OVER, [7, 8], OVER));
    Ok(())
}
