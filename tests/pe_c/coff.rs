//! COFF objects and their symbols. The object is what `x86_64-w64-mingw32-as` (GNU binutils 2.40) makes of
//!
//!     .file "b.s"
//!     .def longer_than_eight; .scl 2; .type 32; .endef
//!     .globl longer_than_eight
//!     .text
//!     nop
//!     longer_than_eight: call outside
//!     ret
//!     .globl five
//!     .set five, 5
//!
//! and what is wanted of it is what `llvm-readobj --file-headers --sections --symbols` (14.0.6) prints.

use super::made::*;
use super::steps::pe_c_symbol;
use crate::headers::{
    pe_c_coff, pe_c_coff_strings, pe_c_coff_symbols, pe_c_next_symbol, pe_c_sections,
    pe_c_symbol_name,
};
use calls_headers::coff::{Symbol, SymbolWalk};
use calls_headers::headers::CoffFields;
use pe_images::image as bytes_of;

/// Offset and entries of the symbols, offset and size of the string table after them.
pub(crate) const SYMBOLS: u64 = 0xA6;

const ENTRIES: u64 = 12;

pub(crate) const STRINGS: u64 = 0x17E;

const SIZE_OF_STRINGS: u64 = 22;

const SIZE: usize = 404;

pub(crate) fn object(alloc: Global) -> Result<Vec<u8>, AllocError> {
    bytes_of(
        alloc,
        SIZE,
        &[
            (0x00, b"\x64\x86\x03"),
            (0x08, b"\xA6\0\0\0\x0C"),
            (0x12, b"\x04\0.text"),
            (0x24, b"\x10\0\0\0\x8C\0\0\0\x9C\0\0\0\0\0\0\0\x01"),
            (0x38, b"\x20\0\x50\x60.data"),
            (0x60, b"\x40\0\x50\xC0.bss"),
            (0x88, b"\x80\0\x50\xC0\x90\xE8\0\0\0\0\xC3"),
            (0x93, &[0x90; 9]),
            (0x9C, b"\x02\0\0\0\x0B\0\0\0\x04\0"),
            (0xA6, b".file\0\0\0\0\0\0\0\xFE\xFF\0\0\x67\x01b.s"),
            (0xCE, b"\x04\0\0\0\x01\0\0\0\x01\0\x20\0\x02\x01"),
            (0xEE, b".text\0\0\0\0\0\0\0\x01\0\0\0\x03\x01\x07\0\0\0\x01"),
            (0x112, b".data\0\0\0\0\0\0\0\x02\0\0\0\x03\x01"),
            (0x136, b".bss\0\0\0\0\0\0\0\0\x03\0\0\0\x03\x01"),
            (0x15A, b"five\0\0\0\0\x05\0\0\0\xFF\xFF\0\0\x02\0"),
            (0x16C, b"outside\0\0\0\0\0\0\0\0\0\x02\0"),
            (0x17E, b"\x16\0\0\0longer_than_eight"),
        ],
    )
}

pub(crate) fn header_of(bytes: &[u8]) -> (u32, [u32; 7], CoffFields) {
    let mut out: CoffFields = filled();
    let answer = pe_c_coff(bytes, &mut out);
    let numbers = [
        u32::from(out.machine),
        u32::from(out.number_of_sections),
        out.time_date_stamp,
        out.pointer_to_symbol_table,
        out.number_of_symbol_table,
        u32::from(out.size_of_optional_header),
        u32::from(out.characteristics),
    ];
    (answer, numbers, out)
}

#[test]
fn header_of_an_object(rt: HostRuntime) -> Result<(), Fail> {
    let mut bytes = object(rt.alloc())?;
    let (answer, numbers, _) = header_of(&bytes);
    assert_eq!(rt; (answer, numbers), (DONE, [0x8664, 3, 0, 0xA6, 12, 0, 4]));
    put(&mut bytes, &[(4, &[1, 2, 3, 4]), (16, &[5, 6])]);
    let (answer, numbers, _) = header_of(&bytes[..20]);
    let found = (answer, numbers);
    assert_eq!(rt;
        found,
        (DONE, [0x8664, 3, 0x0403_0201, 0xA6, 12, 0x0605, 4])
    );
    Ok(())
}

/// Where the section headers of an object are.
pub(crate) fn section_headers(coff: &CoffFields) -> Image {
    Image {
        sections_offset: 20 + u64::from(coff.size_of_optional_header),
        number_of_sections: coff.number_of_sections,
        ..image(X64)
    }
}

#[test]
fn sections_of_an_object(rt: HostRuntime) -> Result<(), Fail> {
    let mut bytes = object(rt.alloc())?;
    let (_, _, coff) = header_of(&bytes);
    let [other] = sections();
    let mut room = [other; 4];
    let found = pe_c_sections(&bytes, &section_headers(&coff), &mut room);
    assert_eq!(rt; found, DONE);
    let text = SectionTable {
        name: *b".text\0\0\0",
        virtual_size: 0,
        virtual_address: 0,
        size_of_raw_data: 16,
        pointer_to_raw_data: 0x8C,
        pointer_to_relocations: 0x9C,
        pointer_to_linenumbers: 0,
        number_of_relocations: 1,
        number_of_linenumbers: 0,
        characteristics: 0x6050_0020,
    };
    let [first, second, third, last] = room;
    assert_eq!(rt; first, text);
    let found = (second.name, second.characteristics);
    assert_eq!(rt; found, (*b".data\0\0\0", 0xC050_0040));
    let found = (third.name, third.characteristics);
    assert_eq!(rt; found, (*b".bss\0\0\0\0", 0xC050_0080));
    assert_eq!(rt; last, other);
    // An optional header moves them.
    put(&mut bytes, &[(0x10, &[40])]);
    let (_, _, moved) = header_of(&bytes);
    let two = CoffFields {
        number_of_sections: 2,
        ..moved
    };
    let found = pe_c_sections(&bytes, &section_headers(&two), &mut room);
    assert_eq!(rt; found, DONE);
    let [first, second, third, _] = room;
    let found = (first.name, second.name, third.name);
    assert_eq!(rt;
        found,
        (*b".data\0\0\0", *b".bss\0\0\0\0", *b".bss\0\0\0\0")
    );
    let mut room = [other; 2];
    let found = pe_c_sections(&bytes, &section_headers(&coff), &mut room);
    assert_eq!(rt; found, ROOM);
    assert_eq!(rt; room, [other; 2]);
    Ok(())
}

/// The walk over the symbols, and the string table.
fn tables_of(bytes: &[u8], coff: &CoffFields) -> (u32, [u64; 3], u32, [u64; 2]) {
    let mut walk = SymbolWalk {
        table: untouched(),
        next: 9,
    };
    let mut strings = untouched();
    let first = pe_c_coff_symbols(bytes, coff, &mut walk);
    let second = pe_c_coff_strings(bytes, coff, &mut strings);
    let SymbolWalk { table, next } = walk;
    let [offset, length] = of_range(table);
    (first, [offset, length, next], second, of_range(strings))
}

#[test]
fn tables_of_an_object(rt: HostRuntime) -> Result<(), Fail> {
    let bytes = object(rt.alloc())?;
    let (_, _, coff) = header_of(&bytes);
    let walk = [SYMBOLS, 18 * ENTRIES, 0];
    let [offset, length] = UNTOUCHED;
    let no_walk = [offset, length, 9];
    let both = (DONE, walk, DONE, [STRINGS, SIZE_OF_STRINGS]);
    assert_eq!(rt; tables_of(&bytes, &coff), both);
    let found = tables_of(&bytes[..0x193], &coff);
    assert_eq!(rt; found, (DONE, walk, STRING_TABLE, UNTOUCHED));
    let found = tables_of(&bytes[..0x17E], &coff);
    assert_eq!(rt; found, (DONE, walk, NOTHING, UNTOUCHED));
    let found = tables_of(&bytes[..0x17D], &coff);
    assert_eq!(rt; found, (SHORT, no_walk, SHORT, UNTOUCHED));
    let none = CoffFields {
        pointer_to_symbol_table: 0,
        ..coff
    };
    let found = tables_of(&bytes, &none);
    assert_eq!(rt; found, (NOTHING, no_walk, NOTHING, UNTOUCHED));
    Ok(())
}

/// A symbol as its name and its other fields.
fn parts(symbol: Symbol) -> ([u8; 8], [u64; 9], i16) {
    let [offset, length] = of_range(symbol.auxiliary);
    let numbers = [
        offset,
        length,
        symbol.index,
        u64::from(symbol.value),
        u64::from(symbol.string_offset),
        u64::from(symbol.typ),
        u64::from(symbol.storage_class),
        u64::from(symbol.number_of_aux_symbols),
        u64::from(symbol.spare),
    ];
    (symbol.name, numbers, symbol.section_number)
}

fn symbol_of(bytes: &[u8], table: &Range, index: u64) -> (u32, ([u8; 8], [u64; 9], i16)) {
    let mut out: Symbol = filled();
    let answer = pe_c_symbol(bytes, table, index, &mut out);
    (answer, parts(out))
}

/// What llvm-readobj prints of each, by the index that objdump prints.
const WANTED: [([u8; 8], [u64; 9], i16); 7] = [
    (*b".file\0\0\0", [0xB8, 18, 0, 0, 0, 0, 103, 1, 0], -2),
    (
        *b"\0\0\0\0\x04\0\0\0",
        [0xDC, 18, 2, 1, 4, 0x20, 2, 1, 0],
        1,
    ),
    (*b".text\0\0\0", [0x100, 18, 4, 0, 0, 0, 3, 1, 0], 1),
    (*b".data\0\0\0", [0x124, 18, 6, 0, 0, 0, 3, 1, 0], 2),
    (*b".bss\0\0\0\0", [0x148, 18, 8, 0, 0, 0, 3, 1, 0], 3),
    (*b"five\0\0\0\0", [0x16C, 0, 10, 5, 0, 0, 2, 0, 0], -1),
    (*b"outside\0", [0x17E, 0, 11, 0, 0, 0, 2, 0, 0], 0),
];

#[test]
fn symbols_of_an_object(rt: HostRuntime) -> Result<(), Fail> {
    let bytes = object(rt.alloc())?;
    let table = range(SYMBOLS, 18 * ENTRIES);
    let mut walk = SymbolWalk { table, next: 0 };
    for (name, numbers, section) in WANTED {
        let mut out: Symbol = filled();
        assert_eq!(rt; pe_c_next_symbol(&bytes, &mut walk, &mut out), DONE);
        assert_eq!(rt; parts(out), (name, numbers, section));
        let [_, _, index, ..] = numbers;
        let found = symbol_of(&bytes, &table, index);
        assert_eq!(rt; found, (DONE, (name, numbers, section)));
    }
    let mut out: Symbol = filled();
    assert_eq!(rt; pe_c_next_symbol(&bytes, &mut walk, &mut out), NOTHING);
    assert_eq!(rt; (is_filled(&out), walk.next), (true, 12));
    assert_eq!(rt; symbol_of(&bytes, &table, 12), (NOTHING, parts(filled())));
    Ok(())
}

fn name_of(bytes: &[u8], table: &Range, strings: &Range, index: u64) -> (u32, [u64; 2]) {
    let mut out = untouched();
    let answer = pe_c_symbol_name(bytes, table, strings, index, &mut out);
    (answer, of_range(out))
}

#[test]
fn names_of_symbols(rt: HostRuntime) -> Result<(), Fail> {
    let mut bytes = object(rt.alloc())?;
    let table = range(SYMBOLS, 18 * ENTRIES);
    let strings = range(STRINGS, SIZE_OF_STRINGS);
    assert_eq!(rt; name_of(&bytes, &table, &strings, 0), (DONE, [0xA6, 5]));
    assert_eq!(rt; name_of(&bytes, &table, &strings, 2), (DONE, [0x182, 17]));
    assert_eq!(rt; name_of(&bytes, &table, &strings, 11), (DONE, [0x16C, 7]));
    assert_eq!(rt; name_of(&bytes, &table, &strings, 12), (NOTHING, UNTOUCHED));
    // Not terminated, and inside the size field.
    let found = name_of(&bytes, &table, &range(STRINGS, 21), 2);
    assert_eq!(rt; found, (STRING_TABLE, UNTOUCHED));
    put(&mut bytes, &[(0xCE, &[3])]);
    let found = name_of(&bytes, &table, &strings, 2);
    assert_eq!(rt; found, (STRING_TABLE, UNTOUCHED));
    // The end of another string, and the empty one.
    put(&mut bytes, &[(0xCE, &[16])]);
    assert_eq!(rt; name_of(&bytes, &table, &strings, 2), (DONE, [0x18E, 5]));
    // Eight bytes without a zero; a byte that no UTF-8 has; the same after a zero.
    put(&mut bytes, &[(0x15A, b"fivefive")]);
    assert_eq!(rt; name_of(&bytes, &table, &strings, 10), (DONE, [0x15A, 8]));
    put(&mut bytes, &[(0x15A, b"five\xFFive")]);
    let found = name_of(&bytes, &table, &strings, 10);
    assert_eq!(rt; found, (STRING_TABLE, UNTOUCHED));
    put(&mut bytes, &[(0x15A, b"fiv\0\xFFive")]);
    assert_eq!(rt; name_of(&bytes, &table, &strings, 10), (DONE, [0x15A, 3]));
    Ok(())
}
