//! Sections and the map from RVAs to file offsets.

use crate::images::{directory_at, image};
use crate::shared::{SECTION, section};
use pe_core::{CoffHeader, Error, ParseOptions, Reason, RelocationData, SectionTable};
use std::test::Fail;

/// The example of a section header in the format's description of `.rdata`.
const RDATA: [u8; 40] = [
    0x2E, 0x72, 0x64, 0x61, 0x74, 0x61, 0, 0, 0, 1, 0, 0, 0, 0x10, 0, 0, 0, 2, 0, 0, 0, 4, 0, 0, 5,
    0, 0, 0, 6, 0, 0, 0, 7, 0, 8, 0, 0x40, 0, 0, 0x40,
];

/// Its fields.
fn rdata() -> SectionTable {
    SectionTable {
        name: *b".rdata\0\0",
        virtual_size: 0x100,
        virtual_address: 0x1000,
        size_of_raw_data: 0x200,
        pointer_to_raw_data: 0x400,
        pointer_to_relocations: 5,
        pointer_to_linenumbers: 6,
        number_of_relocations: 7,
        number_of_linenumbers: 8,
        characteristics: 0x4000_0040,
    }
}

#[test]
fn names(rt: HostRuntime) {
    for (name, want) in [
        (*b".rdata\0\0", Some(".rdata")),
        (*b".textbss", Some(".textbss")),
        (*b"\0text\0\0\0", Some("")),
        (*b"a\0b\0\0\0\0\0", Some("a")),
        ([0xC3, 0xA9, 0, 0xFF, 0, 0, 0, 0], Some("é")),
        ([0xC3, 0, 0, 0, 0, 0, 0, 0], None),
        ([0xFF, 0, 0, 0, 0, 0, 0, 0], None),
    ] {
        let named = SectionTable {
            name,
            ..section(0, 0, 0, 0)
        };
        assert_eq!(rt; named.name(), want);
    }
}

#[test]
fn raw_data(rt: HostRuntime) -> Result<(), Fail> {
    let bytes = image(rt.alloc(), 0x20, &[(0x10, &[1, 2, 3, 4])])?;
    let data = section(0x1000, 1, 0x11, 2).data(&bytes).ok_or("not there")?;
    assert_eq!(rt; data, [2, 3].as_slice());
    assert!(rt; section(0, 0, 0x20, 0).data(&bytes).is_some());
    assert!(rt; section(0, 0, 0x1F, 2).data(&bytes).is_none());
    assert!(rt; section(0, 0, u32::MAX, u32::MAX).data(&bytes).is_none());
    Ok(())
}

#[test]
fn overlaps(rt: HostRuntime) {
    let middle = section(0, 0, 0x200, 0x200);
    for (pointer, size, want) in [
        (0x000, 0x200, false),
        (0x000, 0x201, true),
        (0x200, 0x200, true),
        (0x300, 0x001, true),
        (0x300, 0x000, false),
        (0x3FF, 0x200, true),
        (0x400, 0x200, false),
        (0x100, u32::MAX, true),
    ] {
        let other = section(0, 0, pointer, size);
        let found = middle.overlaps_with(&other);
        assert_eq!(rt; found, want, "{pointer:#x} {size:#x}");
        let found = other.overlaps_with(&middle);
        assert_eq!(rt; found, want, "{pointer:#x} {size:#x}");
    }
}

pub(crate) fn counting(number_of_sections: u16) -> CoffHeader {
    CoffHeader {
        machine: 0,
        number_of_sections,
        time_date_stamp: 0,
        pointer_to_symbol_table: 0,
        number_of_symbol_table: 0,
        size_of_optional_header: 0,
        characteristics: 0,
    }
}

#[test]
fn reads_section_headers(rt: HostRuntime) -> Result<(), Fail> {
    let bytes = image(rt.alloc(), 85, &[(5, &RDATA), (45, &RDATA)])?;
    let sections = counting(2).sections(rt.alloc(), &bytes, 5)?;
    assert_eq!(rt; sections.len(), 2);
    for read in &sections {
        assert_eq!(rt; *read, rdata());
    }
    let short = counting(2)
        .sections(rt.alloc(), &bytes, 6)
        .err()
        .ok_or("given")?;
    assert!(rt; matches!(short, Error::Short { at: 6, needed: 80 }));
    assert!(rt; counting(0).sections(rt.alloc(), &bytes, 86)?.is_empty());
    Ok(())
}

// ---- base relocations

#[test]
fn gives_the_bytes_of_the_directory(rt: HostRuntime) -> Result<(), Fail> {
    let bytes = b"\0\x10\0\0\x0C\0\0\0\x08\x30\0\0";
    let directory = directory_at(0x1000, 12);
    let data = RelocationData::parse(bytes, directory, &[SECTION], 0x200)?;
    assert_eq!(rt; data.bytes, bytes.as_slice());
    let after = directory_at(0x1004, 8);
    let data = RelocationData::parse(bytes, after, &[SECTION], 0x200)?;
    assert_eq!(rt; data.bytes, &bytes[4..]);
    let flat = ParseOptions::te();
    let directory = directory_at(11, 1);
    let data = RelocationData::parse_with_opts(bytes, directory, &[], 0, &flat)?;
    assert_eq!(rt; data.bytes, &bytes[11..]);
    Ok(())
}

#[test]
fn refuses_relocations(rt: HostRuntime) -> Result<(), Fail> {
    let bytes = [0; 12];
    let unmapped = directory_at(0x3000, 8);
    match RelocationData::parse(&bytes, unmapped, &[SECTION], 0x200) {
        Err(Error::Malformed(reason)) => assert_eq!(rt; reason, Reason::Unmapped(0x3000)),
        _ => return Err(Fail::new("an address without a place is read")),
    }
    let cut = directory_at(0x1004, 9);
    let found = RelocationData::parse(&bytes, cut, &[SECTION], 0x200);
    assert!(rt; matches!(found, Err(Error::Short { at: 4, needed: 9 })));
    Ok(())
}
