//! COFF symbols and the string table.

use crate::images::{image, object, short_in};
use crate::refusing::Refusing;
use pe_core::{CoffHeader, Error, Reason, Strtab, Symbol, SymbolTable};
use std::alloc::{AllocError, Global};
use std::test::Fail;

/// A symbol whose name stands at this offset of the string table.
fn symbol_at(offset: u32) -> Symbol {
    let [a, b, c, d] = offset.to_le_bytes();
    Symbol {
        name: [0, 0, 0, 0, a, b, c, d],
        value: 0,
        section_number: 0,
        typ: 0,
        storage_class: 0,
        number_of_aux_symbols: 0,
    }
}

#[test]
fn refuses_names_that_are_no_text(rt: HostRuntime) -> Result<(), Fail> {
    let strings = Strtab {
        bytes: b"\x0E\0\0\0one\0\xFF\0two",
    };
    assert_eq!(rt; symbol_at(4).name(&strings)?, "one");
    assert_eq!(rt; symbol_at(6).name(&strings)?, "e");
    assert_eq!(rt; symbol_at(7).name(&strings)?, "");
    // shows: pe_core/src/symbol.rt name StringTable
    for offset in [0, 3, 8, 10, 13, 0xFFFF_FFFF] {
        match symbol_at(offset).name(&strings) {
            Err(Error::Malformed(reason)) => {
                assert_eq!(rt; reason, Reason::StringTable(offset));
            }
            _ => return Err(Fail::new("a name that is no text is given")),
        }
    }
    let mut inline = symbol_at(0);
    inline.name = *b"a\xFF\0\0\0\0\0\0";
    assert!(rt; inline.name(&strings).is_err());
    inline.name = *b"eight is";
    assert_eq!(rt; inline.name(&strings)?, "eight is");
    Ok(())
}

#[test]
fn cuts_the_string_table_at_zeros(rt: HostRuntime) -> Result<(), Fail> {
    let none: [&str; 0] = [];
    let some: [(&[u8], &[&str]); 6] = [
        (b"\x04\0\0\0", &none),
        (b"\x05\0\0\0\0", &[""]),
        (b"\x08\0\0\0a\0\0b", &["a", "", "b"]),
        (b"\x08\0\0\0a\0b\0", &["a", "b"]),
        (b"\0", &none),
        (b"\x07\0\0\0\xC3\xA9", &["\u{E9}"]),
    ];
    for (bytes, wanted) in some {
        let strings = Strtab { bytes }.to_vec(rt.alloc())?;
        assert_eq!(rt; strings.len(), wanted.len());
        for (string, want) in strings.iter().zip(wanted.iter()) {
            assert_eq!(rt; *string, *want);
        }
    }
    match (Strtab {
        bytes: b"\x08\0\0\0a\0\xFF\0",
    })
    .to_vec(rt.alloc())
    {
        Err(Error::Malformed(reason)) => assert_eq!(rt; reason, Reason::StringTable(6)),
        _ => return Err(Fail::new("a string that is no text is given")),
    }
    Ok(())
}

/// A table of symbols with these 8 bytes as names, without auxiliary records.
fn table_of(alloc: Global, names: &[[u8; 8]]) -> Result<Vec<u8>, AllocError> {
    let mut bytes = Vec::new(alloc);
    for name in names {
        bytes.extend_from_slice(name)?;
        bytes.extend_from_slice(&[0; 10])?;
    }
    Ok(bytes)
}

/// The first symbol without a name is reported, whatever follows it.
#[test]
fn refuses_the_first_name(rt: HostRuntime) -> Result<(), Fail> {
    let strings = Strtab {
        bytes: b"\x0E\0\0\0one\0\xFF\0two",
    };
    let good = [
        *b"inline\0\0",
        [0, 0, 0, 0, 4, 0, 0, 0],
        [0, 0, 0, 0, 7, 0, 0, 0],
    ];
    let table = table_of(rt.alloc(), &good)?;
    let names = SymbolTable { bytes: &table }.names(rt.alloc(), &strings)?;
    assert_eq!(rt; names.len(), 3);
    for (name, want) in names.iter().zip(["inline", "one", ""]) {
        assert_eq!(rt; *name, want);
    }
    // shows: pe_core/src/symbol_names.rt name_in StringTable
    for (bad, offset) in [
        ([0, 0, 0, 0, 3, 0, 0, 0], 3),
        ([0, 0, 0, 0, 8, 0, 0, 0], 8),
        ([0, 0, 0, 0, 10, 0, 0, 0], 10),
        (*b"a\xFF\0\0\x01\x02\x03\x04", 0x0403_0201),
        ([0, 0, 0, 0, 0xFF, 0xFF, 0xFF, 0xFF], 0xFFFF_FFFF),
    ] {
        let table = table_of(rt.alloc(), &[good[0], good[1], bad, [0; 8]])?;
        match (SymbolTable { bytes: &table }).names(rt.alloc(), &strings) {
            Err(Error::Malformed(reason)) => {
                assert_eq!(rt; reason, Reason::StringTable(offset));
            }
            _ => return Err(Fail::new("a name that is no text is given")),
        }
    }
    Ok(())
}

/// Symbols whose names start in one string of 1 MiB, each at a byte of its own, and every second with its name in itself.
/// Name by name, this would take minutes.
#[test]
fn many_names_in_one_string(rt: HostRuntime) -> Result<(), Fail> {
    let alloc = rt.alloc();
    let length: u32 = 1 << 20;
    let mut strings = vec![in alloc; b'a'; length as usize]?;
    strings.push(0)?;
    let count: u32 = 100_000;
    let mut table = Vec::new(alloc);
    for i in 0..count {
        if i % 2 == 0 {
            table.extend_from_slice(b"short\0\0\0")?;
        } else {
            table.extend_from_slice(&[0; 4])?;
            table.extend_from_slice(&u32::to_le_bytes(4 + (i * 7) % (length - 4)))?;
        }
        table.extend_from_slice(&[0; 10])?;
    }
    let names = SymbolTable { bytes: &table }.names(alloc, &Strtab { bytes: &strings })?;
    assert_eq!(rt; names.len(), count as usize);
    assert_eq!(rt; names[0], "short");
    assert_eq!(rt; names[1].len(), (length - 11) as usize);
    assert_eq!(rt; names[3].len(), (length - 25) as usize);
    Ok(())
}

/// Each request for memory of the list of names refused in turn.
#[test]
fn names_refused(rt: HostRuntime) -> Result<(), Fail> {
    let strings = Strtab {
        bytes: b"\x08\0\0\0one\0",
    };
    let table = table_of(rt.alloc(), &[[0, 0, 0, 0, 4, 0, 0, 0]; 3])?;
    let mut refused = 0u32;
    loop {
        let refusing = Refusing::new(rt.alloc(), refused);
        let names = SymbolTable { bytes: &table }.names(&refusing, &strings);
        if !refusing.has_refused() {
            assert_eq!(rt; names?.len(), 3);
            break;
        }
        assert!(rt; matches!(names, Err(Error::Memory(_))));
        refused = refused.wrapping_add(1);
    }
    assert!(rt; refused > 2);
    Ok(())
}

/// The first bytes, so many.
fn front(bytes: &[u8], len: usize) -> Result<&[u8], Fail> {
    Ok(bytes.get(..len).ok_or("fewer bytes")?)
}

#[test]
fn finds_the_tables_of_a_header(rt: HostRuntime) -> Result<(), Fail> {
    let bytes = object(rt.alloc())?;
    let header = CoffHeader::parse(&bytes, 0)?;
    let none = CoffHeader {
        pointer_to_symbol_table: 0,
        ..header
    };
    assert!(rt; none.symbols(&bytes)?.is_none());
    assert!(rt; none.strings(&bytes)?.is_none());
    let found = short_in(header.symbols(front(&bytes, 203)?));
    assert_eq!(rt; found, Some((78, 126)));
    assert_matches!(rt; header.strings(front(&bytes, 203)?) => Err(Error::Short { .. }));
    assert!(rt; header.symbols(front(&bytes, 204)?)?.is_some());
    assert!(rt; header.strings(front(&bytes, 204)?)?.is_none());
    // shows: pe_core/src/strtab.rt no_text_at StringTable
    for (len, offset) in [(205, 1), (207, 3), (208, 4), (219, 15)] {
        match header.strings(front(&bytes, len)?) {
            Err(Error::Malformed(reason)) => {
                assert_eq!(rt; reason, Reason::StringTable(offset), "of {len} bytes");
            }
            _ => return Err(Fail::new("a cut string table is given")),
        }
    }
    let no_rows = CoffHeader {
        number_of_symbol_table: 0,
        ..header
    };
    assert!(rt; no_rows.symbols(front(&bytes, 78)?)?.is_some());
    let found = short_in(no_rows.symbols(front(&bytes, 77)?));
    assert_eq!(rt; found, Some((78, 0)));
    assert_matches!(rt; no_rows.strings(front(&bytes, 77)?) => Err(Error::Short { .. }));
    let small = image(rt.alloc(), 208, &[(8, &[78]), (12, &[7]), (204, &[3])])?;
    let strings = CoffHeader::parse(&small, 0)?.strings(&small)?;
    let table = strings.ok_or("no string table")?;
    assert_eq!(rt; table.bytes.len(), 4);
    Ok(())
}

/// Rows that an auxiliary count skips may end after the table.
#[test]
fn passes_over_auxiliary_rows(rt: HostRuntime) -> Result<(), Fail> {
    let bytes = image(
        rt.alloc(),
        3 * 18 + 17,
        &[(17, &[1]), (2 * 18 + 17, &[255])],
    )?;
    let mut rows = [9; 3];
    let table = SymbolTable { bytes: &bytes };
    for ((row, name, _), slot) in table.iter().zip(rows.iter_mut()) {
        assert!(rt; name.is_none());
        *slot = row;
    }
    assert_eq!(rt; rows, [0, 2, 9]);
    Ok(())
}
