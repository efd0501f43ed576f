//! Names of functions without a PDB, of tables that are made by hand. What is wanted is worked out by hand, by what the comment above
//! `pe_c_function_names` says.

use super::made::*;
use crate::stack::{pe_c_function_names, pe_c_name_tables};
use calls_directories::names::exports::Exports;
use calls_stacks::stack::function_names::{CodeAddress, FunctionName, NameSources};
use pe_images::image as bytes_of;

/// Three x64 functions at 0: [0x2000, 0x2040), [0x2040, 0x2060), [0x2080, 0x2090); one of ARM64 at 0x28, packed, of 0x40 bytes. Names,
/// ordinals and addresses of exports at 0x40, 0x54, 0x60, texts after these. Nine entries of symbols at 0xB0, and their strings.
fn bytes(alloc: Global) -> Result<Vec<u8>, AllocError> {
    bytes_of(
        alloc,
        0x200,
        &[
            (0x00, b"\0\x20\0\0\x40\x20\0\0\0\0\0\0"),
            (0x0C, b"\x40\x20\0\0\x60\x20\0\0\0\0\0\0"),
            (0x18, b"\x80\x20\0\0\x90\x20\0\0\0\0\0\0"),
            (0x28, b"\0\x20\0\0\x41\0\0\0"),
            (
                0x40,
                b"\x80\x10\0\0\x86\x10\0\0\x8B\x10\0\0\x91\x10\0\0\x97\x10\0\0",
            ),
            (0x54, b"\x01\0\x01\0\x02\0\x03\0\0\0"),
            (0x60, b"\0\0\0\0\x40\x20\0\0\x75\x10\0\0\x82\x20\0\0"),
            (0x80, b"alpha\0beta\0gamma\0omega\0zero\0"),
            // A static function, one with an auxiliary record that looks like a symbol at 0x2018, and a label.
            (0xB0, b"static_f\0\x10\0\0\x01\0\x20\0\x03\0"),
            (0xC2, b"\0\0\0\0\x04\0\0\0\x10\x10\0\0\x01\0\x20\0\x02\x01"),
            (0xD4, b"not_one\0\x18\x10\0\0\x01\0\x20\0\x02\0"),
            (0xE6, b"label\0\0\0\x14\x10\0\0\x01\0\0\0\x02\0"),
            // A second one at 0x2010; one whose name is past the strings, at 0x2084.
            (0xF8, b"second\0\0\x10\x10\0\0\x01\0\x20\0\x02\0"),
            (0x10A, b"\0\0\0\0\x99\0\0\0\x84\x10\0\0\x01\0\x20\0\x02\0"),
            // In no section: undefined, absolute, past the last; one of another class.
            (0x11C, b"outside\0\x12\x10\0\0\0\0\x20\0\x02\0"),
            (0x12E, b"absolute\x12\x10\0\0\xFF\xFF\x20\0\x02\0"),
            (0x140, b"past\0\0\0\0\x12\x10\0\0\x02\0\x20\0\x02\0"),
            (0x152, b"weak\0\0\0\0\x12\x10\0\0\x01\0\x20\0\x69\0"),
            (0x164, b"\x12\0\0\0the_long_name\0"),
        ],
    )
}

fn exports() -> Exports {
    Exports {
        names: range(0x40, 20),
        ordinals: range(0x54, 10),
        addresses: range(0x60, 16),
        next: 0,
        directory: directory(0x1040, 0x60),
    }
}

fn tables() -> NameSources {
    NameSources {
        functions: range(0, 36),
        symbols: range(0xB0, 180),
        strings: range(0x164, 18),
        exports: exports(),
        room: 15,
        functions_result: DONE,
        symbols_result: DONE,
        strings_result: DONE,
        exports_result: DONE,
    }
}

/// The range of a name, its RVA, how far after it the address is, what names it, and whether it is only the nearest.
type Name = ([u64; 2], u32, u32, u32, u32);

fn plain(name: FunctionName) -> Name {
    let FunctionName {
        name,
        start,
        offset,
        source,
        is_nearest,
    } = name;
    (of_range(name), start, offset, source, is_nearest)
}

fn untouched() -> FunctionName {
    FunctionName {
        name: range(1, 2),
        start: 3,
        offset: 4,
        source: 5,
        is_nearest: 6,
    }
}

const LEFT: Name = ([1, 2], 3, 4, 5, 6);

const NONE: Name = ([0, 0], 0, 0, 0, 0);

/// What the call returns and what names an address, by these tables, and the entry after its name, which stays.
fn names_of(
    alloc: Global,
    machine: u16,
    tables: &NameSources,
    rva: u32,
    is_return: u32,
) -> Result<(u32, Name, Name), Fail> {
    let (bytes, image, sections) = (bytes(alloc)?, image(machine), sections());
    let (mut room, mut names) = ([9; 15], [untouched(), untouched()]);
    let address = CodeAddress { rva, is_return };
    let view = view(&bytes, &image, &sections);
    let number = pe_c_function_names(&view, tables, &[address], &mut room, &mut names);
    Ok((number, plain(names[0]), plain(names[1])))
}

#[test]
fn names_in_functions(rt: HostRuntime) -> Result<(), Fail> {
    let static_f = |offset| ([0xB0, 8], 0x2000, offset, 1, 0);
    let long = |offset| ([0x168, 13], 0x2010, offset, 1, 0);
    let alpha = |offset| ([0x80, 5], 0x2040, offset, 2, 0);
    for (rva, is_return, wanted) in [
        (0x2000, 0, static_f(0)),
        (0x200F, 0, static_f(15)),
        (0x2010, 0, long(0)),
        (0x2010, 1, static_f(16)),
        (0x203F, 0, long(0x2F)),
        // A return to the end of a function is one to that function.
        (0x2040, 7, long(0x30)),
        (0x2040, 0, alpha(0)),
        (0x2060, 0, NONE),
        // No symbol is before it in its function, and the export that is before it does not start the function.
        (0x2083, 0, NONE),
        (0x2085, 0, ([0, 0], 0x2084, 1, 1, 0)),
        (0x1FFF, 0, NONE),
    ] {
        let found = names_of(rt.alloc(), X64, &tables(), rva, is_return)?;
        assert_eq!(rt; found, (DONE, wanted, LEFT));
    }
    Ok(())
}

#[test]
fn names_by_a_table_of_arm64(rt: HostRuntime) -> Result<(), Fail> {
    let tables = NameSources {
        functions: range(0x28, 8),
        ..tables()
    };
    let found = names_of(rt.alloc(), ARM64, &tables, 0x203C, 0)?;
    assert_eq!(rt; found, (DONE, ([0x168, 13], 0x2010, 0x2C, 1, 0), LEFT));
    // A table that is refused says of no address that a function has it.
    let refused = NameSources {
        functions: range(0, 0),
        functions_result: BAD_MAGIC,
        ..tables
    };
    let found = names_of(rt.alloc(), ARM64, &refused, 0x203C, 0)?;
    assert_eq!(rt; found, (DONE, NONE, LEFT));
    Ok(())
}

/// Of bytes without headers the symbols are refused, and what the directories lead to is there.
#[test]
fn tables_each_by_itself(rt: HostRuntime) -> Result<(), Fail> {
    let bytes = bytes(rt.alloc())?;
    let (image, sections) = (having(image(X64), 3, directory(0x1000, 36)), sections());
    let view = view(&bytes, &image, &sections);
    let mut out = NameSources {
        functions: range(1, 2),
        symbols: range(3, 4),
        strings: range(5, 6),
        room: 7,
        functions_result: 8,
        symbols_result: 9,
        strings_result: 10,
        exports_result: 11,
        ..tables()
    };
    assert_eq!(rt; pe_c_name_tables(&view, &mut out), DONE);
    assert_eq!(rt; of_range(out.functions), [0, 36]);
    assert_eq!(rt; of_range(out.symbols), [0, 0]);
    assert_eq!(rt; of_range(out.strings), [0, 0]);
    assert_eq!(rt; of_range(out.exports.names), [0, 0]);
    assert_eq!(rt; out.room, 0);
    let found = [
        out.functions_result,
        out.symbols_result,
        out.strings_result,
        out.exports_result,
    ];
    assert_eq!(rt; found, [DONE, BAD_MAGIC, BAD_MAGIC, NOTHING]);
    Ok(())
}
