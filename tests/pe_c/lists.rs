//! Lists in one call: the entries of a walk, so many a call as there is room for, errors after the entries before them, and what
//! is left as it was. The entries are those that the tests of the steps expect.

use super::exports::from as from_exports;
use super::imports::{NO_IMPORT, from_import, with_imports};
use super::made::*;
use crate::headers::{pe_c_list_long_section_names, pe_c_list_symbols};
use crate::names::{pe_c_list_exports, pe_c_list_imports};
use crate::unwinding::{pe_c_all_codes, pe_c_list_codes, pe_c_list_functions};
use calls_directories::names::exports::{Export, Exports};
use calls_directories::names::imports::Imports;
use calls_headers::coff::{NamedSymbol, NamedSymbolWalk, Symbol, SymbolWalk};
use calls_unwind::lists::x64::CodeForm;
use calls_unwind::unwinding::{Code, CodeWalk};
use pe_images::image as bytes_of;
use pe_unwind::RuntimeFunction;

/// What `written` is before a call.
const UNWRITTEN: u64 = 77;

/// Three entries of x64 at offset 1: begins 10h, 20h and 30h, ends 11h, 21h and 31h, unwind RVAs 1, 2 and 3.
const FUNCTIONS: [u8; 38] = [
    0xFF, 0x10, 0, 0, 0, 0x11, 0, 0, 0, 1, 0, 0, 0, 0x20, 0, 0, 0, 0x21, 0, 0, 0, 2, 0, 0, 0, 0x30,
    0, 0, 0, 0x31, 0, 0, 0, 3, 0, 0, 0, 0xFF,
];

const NO_FUNCTION: RuntimeFunction = RuntimeFunction {
    begin_address: 7,
    end_address: 8,
    unwind_info_address: 9,
};

/// The result, how many are written, the next index, and the begins of the entries.
fn functions(bytes: &[u8], table: [u64; 2], next: u64, room: usize) -> (u32, u64, u64, [u32; 4]) {
    let mut entries = [NO_FUNCTION; 4];
    let (mut next, mut written) = (next, UNWRITTEN);
    let table = range(table[0], table[1]);
    let lent = &mut entries[..room.min(4)];
    let answer = pe_c_list_functions(bytes, &table, &mut next, lent, &mut written);
    (
        answer,
        written,
        next,
        entries.map(|entry| entry.begin_address),
    )
}

#[test]
fn functions_in_lists(rt: HostRuntime) {
    for (next, room, want) in [
        (0, 2, (DONE, 2, 2, [0x10, 0x20, 7, 7])),
        (2, 2, (DONE, 1, 3, [0x30, 7, 7, 7])),
        (3, 2, (DONE, 0, 3, [7; 4])),
        (1, 0, (ROOM, UNWRITTEN, 1, [7; 4])),
    ] {
        assert_eq!(rt; functions(&FUNCTIONS, [1, 36], next, room), want);
    }
    let want = (SHORT, UNWRITTEN, 1, [7; 4]);
    assert_eq!(rt; functions(&FUNCTIONS, [3, 36], 1, 4), want);
}

const NO_CODE: Code = Code {
    code_offset: 7,
    operation: 7,
    operand: 7,
    from_frame: 7,
    value: 7,
};

fn walk_of_codes(left: Range, version: u8) -> CodeWalk {
    CodeWalk {
        left,
        version,
        frame_register: 0,
        spare: [0; 6],
    }
}

/// Two codes of x64, and then one with an operation that no version has: `sub rsp, 40` at 4 and `push rbp` at 1.
#[test]
fn codes_in_lists(rt: HostRuntime) {
    let bytes = [0xFF, 4, 0x42, 1, 0x50, 0, 0x0F];
    let mut walk = walk_of_codes(range(1, 6), 1);
    for (room, answer, count, first, left) in [
        (0, ROOM, UNWRITTEN, [7; 4], [1, 6]),
        (1, DONE, 1, [4, 1, 0, 40], [3, 4]),
        (3, DONE, 1, [1, 0, 5, 0], [5, 2]),
        (3, UNWIND_CODE, UNWRITTEN, [7; 4], [7, 0]),
    ] {
        let mut entries = [NO_CODE; 3];
        let mut written = UNWRITTEN;
        let number = pe_c_list_codes(&bytes, &mut walk, &mut entries[..room], &mut written);
        let found = (number, written, of_range(walk.left));
        assert_eq!(rt; found, (answer, count, left));
        let code = entries[0];
        let fields = [
            u32::from(code.code_offset),
            u32::from(code.operation),
            u32::from(code.operand),
            code.value,
        ];
        assert_eq!(rt; fields, first);
        assert_eq!(rt; (entries[1].value, entries[2].value), (7, 7));
    }
}

/// All codes in these bytes, in this room: the result, how many are written, and the values of the first three entries.
fn all_codes(codes: &[u8], version: u8, room: usize) -> (u32, u64, [u32; 3]) {
    let mut entries = [NO_CODE; 3];
    let mut written = UNWRITTEN;
    let form = CodeForm {
        version,
        frame_register: 0,
    };
    let number = pe_c_all_codes(codes, &form, &mut entries[..room.min(3)], &mut written);
    (
        number,
        written,
        [entries[0].value, entries[1].value, entries[2].value],
    )
}

/// `sub rsp, 40`, `sub rsp, 8` and then a code with an operation that no version has; and none.
#[test]
fn all_codes_of_a_record(rt: HostRuntime) {
    let bytes = [4, 0x42, 1, 0x02, 0, 0x0F];
    for (room, want) in [
        (1, (ROOM, 1, [40, 7, 7])),
        (3, (UNWIND_CODE, 2, [40, 8, 7])),
    ] {
        assert_eq!(rt; all_codes(&bytes, 1, room), want);
    }
    assert_eq!(rt; all_codes(&bytes[..4], 1, 3), (DONE, 2, [40, 8, 7]));
    assert_eq!(rt; all_codes(&bytes[..3], 1, 3), (SHORT, 1, [40, 7, 7]));
}

#[test]
fn imports_in_lists(rt: HostRuntime) -> Result<(), Fail> {
    let mut bytes = with_imports(rt.alloc())?;
    let image = having(image(X64), 1, directory(0x1010, 60));
    let sections = sections();
    // The second import becomes one by a name at 0xA0, after its hint, that is not UTF-8.
    put(
        &mut bytes,
        &[
            (0x68, &[0xA0, 0x10, 0, 0, 0, 0, 0, 0]),
            (0xA0, b"\0\0\xFF\0"),
        ],
    );
    let mut walk = from_import(Imports {
        left: range(0x60, 16),
        rva: 0x2000,
    });
    let mut entries = [NO_IMPORT; 2];
    let mut written = UNWRITTEN;
    for (answer, count, rvas, left) in [
        (DONE, 1, [0x2000, 1], [0x68, 8]),
        // shows: calls_directories/src/names/near_imports.rt named_near ImportName
        (IMPORT_NAME, 1, [0x2000, 1], OVER),
    ] {
        let view = view(&bytes, &image, &sections);
        let number = pe_c_list_imports(&view, &mut walk, &mut [], &mut entries, &mut written);
        let after = (number, written, of_range(walk.imports.left));
        assert_eq!(rt; after, (answer, count, left));
        assert_eq!(rt; entries.map(|entry| entry.rva), rvas);
    }
    // The only import is by a name at an RVA that no section maps.
    put(&mut bytes, &[(0x60, &[0, 0x50, 0, 0, 0, 0, 0, 0])]);
    walk.imports.left = range(0x60, 8);
    let view = view(&bytes, &image, &sections);
    let number = pe_c_list_imports(&view, &mut walk, &mut [], &mut entries, &mut written);
    // shows: calls_directories/src/names/near_imports.rt require_near Unmapped
    assert_eq!(rt; (number, of_range(walk.imports.left)), (UNMAPPED, OVER));
    Ok(())
}

// ---- lists whose names are read together in a room of the caller: when the room is filled, which the cost hangs on and no con

/// Three long texts: at 100h 82 bytes of UTF-8, with a character of two bytes at 146h; at 160h 20 bytes before one that is none of
/// UTF-8, and 60 after it; at 1B8h 72 bytes up to the end, without a zero.
fn with_texts(alloc: Global, parts: &[(usize, &[u8])]) -> Result<Vec<u8>, Fail> {
    let mut bytes = bytes_of(alloc, 0x200, parts)?;
    bytes[0x100..0x146].fill(b'a');
    bytes[0x146..0x148].copy_from_slice(&[0xC3, 0xA9]);
    bytes[0x148..0x152].fill(b'b');
    bytes[0x160..0x174].fill(b'c');
    bytes[0x174] = 0xFF;
    bytes[0x175..0x1B1].fill(b'd');
    bytes[0x1B8..].fill(b'e');
    Ok(bytes)
}

const NO_EXPORT: Export = Export {
    name: NO_RANGE,
    forwarder: NO_RANGE,
    offset: 3,
    rva: 4,
    has_offset: 5,
    index: 6,
    is_forwarder: 7,
};

fn exports() -> Exports {
    Exports {
        names: range(0x20, 36),
        ordinals: range(0x50, 18),
        addresses: range(0x68, 4),
        next: 0,
        directory: directory(0x1008, 1),
    }
}

/// The same ten times: a name at 100h, of 83 bytes with its zero; a name at 152h, a zero, with a forwarder's text at 100h; or both
/// at 100h. That is more than the image has in all, so they are read together.
#[test]
fn exports_that_share_much(rt: HostRuntime) -> Result<(), Fail> {
    for (name, rva, texts) in [
        (0x1100_u32, 0x1008_u32, [[0x100, 82], [8, 0]]),
        (0x1152, 0x1100, [[0x152, 0], [0x100, 82]]),
        (0x1100, 0x1100, [[0x100, 82], [0x100, 82]]),
    ] {
        let mut bytes = with_texts(rt.alloc(), &[(0x68, &rva.to_le_bytes())])?;
        for i in 0..10 {
            bytes[0x20 + 4 * i..0x24 + 4 * i].copy_from_slice(&name.to_le_bytes());
        }
        let (image, sections) = (image(X64), sections());
        let view = view(&bytes, &image, &sections);
        for room in [0, 7, 8, 21] {
            let mut walk = from_exports(Exports {
                names: range(0x20, 40),
                ordinals: range(0x80, 20),
                directory: directory(rva, 1),
                ..exports()
            });
            let mut runs = [RUN; 22];
            let mut entries = [NO_EXPORT; 11];
            let mut written = 77;
            let lent = &mut runs[..room];
            let answer = pe_c_list_exports(&view, &mut walk, lent, &mut entries, &mut written);
            assert_eq!(rt; (answer, written, walk.exports.next), (DONE, 10, 10));
            for entry in &entries[..10] {
                assert_eq!(rt; [of_range(entry.name), of_range(entry.forwarder)], texts);
                assert_eq!(rt; (entry.rva, entry.is_forwarder), (rva, 1));
            }
            // The first starts after a zero and is not counted, six have 498 bytes of 512, and the eighth is too much.
            let start = if room < 8 { 0x7777 } else { 0x100 };
            assert_eq!(rt; runs[0].start, start, "{room}");
        }
    }
    Ok(())
}

/// Seven entries of 18 bytes from 20h on: a symbol `abc` with an auxiliary record, and five with names in the string table.
const SYMBOLS: [(usize, &[u8]); 7] = [
    (0x20, b"abc"),
    (0x30, &[2, 1]),
    (0x48, &[0x10]),
    (0x5A, &[0x58]),
    (0x6C, &[0x57]),
    (0x7E, &[2]),
    (0x90, &[0x86]),
];

const NO_SYMBOL: NamedSymbol = NamedSymbol {
    symbol: Symbol {
        auxiliary: NO_RANGE,
        index: 9,
        name: [0; 8],
        value: 0,
        string_offset: 0,
        section_number: 0,
        typ: 0,
        storage_class: 0,
        number_of_aux_symbols: 0,
        spare: 0,
    },
    name: NO_RANGE,
    name_result: 7,
    spare: 0,
};

/// A walk over the symbols, with a string table.
fn symbols(table: Range, strings: Range) -> NamedSymbolWalk {
    NamedSymbolWalk {
        symbols: SymbolWalk { table, next: 0 },
        strings,
    }
}

#[test]
fn symbols_with_their_names(rt: HostRuntime) -> Result<(), Fail> {
    let bytes = with_texts(rt.alloc(), &SYMBOLS)?;
    let (table, strings) = (range(0x20, 126), range(0xF0, 0x110));
    // shows: calls_headers/src/coff.rt name_by StringTable
    let want = [
        (0, [0x20, 3], DONE),
        (2, [0x100, 82], DONE),
        (3, [0x148, 10], DONE),
        (4, [0, 0], STRING_TABLE),
        (5, [0, 0], STRING_TABLE),
        (6, [0x176, 59], DONE),
        (9, [0, 0], 7),
    ];
    let (mut runs, mut walk) = ([RUN; 8], symbols(table, strings));
    let (mut entries, mut written) = ([NO_SYMBOL; 7], 77);
    let answer = pe_c_list_symbols(&bytes, &mut walk, &mut runs, &mut entries, &mut written);
    assert_eq!(rt; (answer, written, walk.symbols.next), (DONE, 6, 7));
    assert_eq!(rt; of_range(walk.strings), [0xF0, 0x110]);
    let found = entries.map(|it| (it.symbol.index, of_range(it.name), it.name_result));
    assert_eq!(rt; found, want);
    let first = &entries[0].symbol;
    let found = (of_range(first.auxiliary), first.storage_class);
    assert_eq!(rt; found, ([0x32, 18], 2));
    assert_eq!(rt; first.string_offset, 0);
    assert_eq!(rt; entries[1].symbol.string_offset, 0x10);
    Ok(())
}

/// The string table from FCh on: offset 4 leads to 100h, and 76, 75 and 121 to 148h, 147h and 175h.
#[test]
fn long_section_names_together(rt: HostRuntime) -> Result<(), Fail> {
    let bytes = with_texts(rt.alloc(), &[])?;
    let [section] = sections();
    let named = |name: [u8; 8]| SectionTable { name, ..section };
    let sections = [
        named(*b"/4\0\0\0\0\0\0"),
        named(*b".text\0\0\0"),
        named(*b"/76\0\0\0\0\0"),
        named(*b"/75\0\0\0\0\0"),
        named(*b"//AAAAB5"),
    ];
    let (image, table) = (image(X64), range(0xFC, 0x104));
    let view = view(&bytes, &image, &sections);
    let (mut runs, mut names) = ([RUN; 5], [untouched(); 5]);
    let (mut next, mut written) = (1, 77);
    let answer = pe_c_list_long_section_names(
        &view,
        &table,
        &mut next,
        &mut runs,
        &mut names,
        &mut written,
    );
    assert_eq!(rt; (answer, written, next), (DONE, 4, 5));
    let found = names.map(of_range);
    assert_eq!(rt;
        found,
        [[0, 0], [0x148, 10], [0, 0], [0x175, 60], UNTOUCHED]
    );
    Ok(())
}
