//! Imports: the directory, its records and libraries, and the list of what is imported.

use crate::exports::{ALIGNMENT, one_section};
use crate::images::{directory_at, flat, image, reason_in, short, short_in, with_byte};
use pe_core::{
    DataDirectory, Error, Import, ImportData, MappedBytes, ParseOptions, Reason, Result,
    SectionIndex,
};
use std::alloc::{AllocError, Allocator, Global};
use std::process::Abort;
use std::test::Fail;

const DIRECTORY: DataDirectory = DataDirectory {
    virtual_address: 0x1060,
    size: 0x28,
};

/// One library with two imports, one by the ordinal 5 and one by the name `f` with the hint 7.
fn importing(alloc: Global, len: usize) -> std::result::Result<Vec<u8>, AllocError> {
    image(
        alloc,
        len,
        &[
            (0x260, &[0xA0, 0x10]),
            (0x26C, &[0x90, 0x10, 0, 0, 0xC0, 0x10]),
            (0x290, b"a.dll\0"),
            (0x2A0, &[5, 0, 0, 0, 0, 0, 0, 0x80, 0xD0, 0x10]),
            (0x2D0, b"\x07\0f\0"),
        ],
    )
}

/// An image whose RVAs are mapped by an index.
pub(crate) fn image_by<'a, 's, A: Allocator>(
    bytes: &'a [u8],
    index: &'s SectionIndex<'_, A>,
) -> MappedBytes<'a, 's> {
    MappedBytes {
        bytes,
        map: index.map(),
    }
}

/// The image of one section, with 8 bytes an entry.
fn directory_of<A: Allocator + Copy + Drop>(alloc: A, bytes: &[u8]) -> Result<ImportData<'_, A>> {
    ImportData::parse(alloc, bytes, DIRECTORY, &one_section(), ALIGNMENT, true)
}

fn imports_of<A: Allocator + Copy + Drop>(alloc: A, bytes: &[u8]) -> Result<Vec<Import<'_>, A>> {
    let data = directory_of(alloc, bytes)?;
    let opts = ParseOptions::default();
    Import::parse_with_opts(alloc, bytes, &data, &one_section(), ALIGNMENT, &opts, true)
}

/// An import as it is wanted: its name, its library, its ordinal or hint, and its slot.
type Wanted<'a> = (Option<&'a str>, &'a str, u16, u64);

pub(crate) fn check_imports(rt: &impl Abort, imports: &[Import<'_>], want: &[Wanted<'_>]) {
    assert_eq!(rt; imports.len(), want.len());
    for (import, (name, dll, ordinal, rva)) in imports.iter().zip(want) {
        assert_eq!(rt; import.name, *name);
        assert_eq!(rt; import.dll, *dll);
        assert_eq!(rt; import.ordinal, *ordinal);
        assert_eq!(rt; import.rva, *rva);
    }
}

#[test]
fn lists_imports(rt: HostRuntime) -> std::result::Result<(), Fail> {
    let bytes = importing(rt.alloc(), 0x410)?;
    let imports = imports_of(rt.alloc(), &bytes)?;
    let want = [(None, "a.dll", 5, 0x10C0), (Some("f"), "a.dll", 7, 0x10C8)];
    check_imports(&rt, &imports, &want);
    let data = directory_of(rt.alloc(), &bytes)?;
    assert_eq!(rt; data.import_data.len(), 1);
    let libraries = data.libraries(rt.alloc())?;
    assert_eq!(rt; libraries.len(), 1);
    assert_eq!(rt; *libraries.first().ok_or("none")?, "a.dll");
    Ok(())
}

/// Four bytes an entry, from the address table, since the record has no lookup table.
#[test]
fn lists_pe32_imports(rt: HostRuntime) -> std::result::Result<(), Fail> {
    let alloc = rt.alloc();
    let bytes = image(
        alloc,
        0x410,
        &[
            (0x26C, &[0x90, 0x10, 0, 0, 0xC0, 0x10]),
            (0x290, b"a.dll\0"),
            (0x2C0, &[0xD0, 0x10, 0, 0, 0x34, 0x12, 1, 0x80]),
            (0x2D0, b"\x07\0f\0"),
        ],
    )?;
    let sections = one_section();
    let opts = ParseOptions::default();
    let data = ImportData::parse_with_opts(
        alloc, &bytes, DIRECTORY, &sections, ALIGNMENT, &opts, false,
    )?;
    let record = data.import_data.first().ok_or("none")?;
    assert_eq!(rt; record.lookups.len(), 8);
    let imports = Import::parse_with_opts(
        alloc, &bytes, &data, &sections, ALIGNMENT, &opts, false,
    )?;
    check_imports(
        &rt,
        &imports,
        &[
            (Some("f"), "a.dll", 7, 0x10C0),
            (None, "a.dll", 0x1234, 0x10C4),
        ],
    );
    Ok(())
}

/// A directory of libraries with these names, whose lists are all the zero entry after the records.
fn naming(alloc: Global, names: &[&str]) -> std::result::Result<Vec<u8>, AllocError> {
    let count = u32::try_from(names.len()).unwrap_or(0);
    let end = count.wrapping_mul(20).wrapping_add(20);
    let mut bytes = Vec::new(alloc);
    let mut texts: Vec<u8> = Vec::new(alloc);
    for name in names {
        let before = u32::try_from(texts.len()).unwrap_or(0);
        let offset = end.wrapping_add(8).wrapping_add(before);
        for number in [0, 0, 0, offset, end] {
            bytes.extend_from_slice(&u32::to_le_bytes(number))?;
        }
        texts.extend_from_slice(name.as_bytes())?;
        texts.push(0)?;
    }
    bytes.extend_from_slice(&[0; 28])?;
    bytes.extend_from_slice(&texts)?;
    Ok(bytes)
}

#[test]
fn lists_libraries(rt: HostRuntime) -> std::result::Result<(), Fail> {
    let alloc = rt.alloc();
    let bytes = naming(alloc, &["b.dll", "a.dll", "b.dll", "B.dll", "a", "a.dll"])?;
    let directory = directory_at(0, 0);
    let data = ImportData::parse_with_opts(alloc, &bytes, directory, &[], 0, &flat(), true)?;
    assert_eq!(rt; data.import_data.len(), 6);
    let libraries = data.libraries(alloc)?;
    let want = ["B.dll", "a", "a.dll", "b.dll"];
    assert_eq!(rt; libraries.len(), want.len());
    for (library, name) in libraries.iter().zip(want) {
        assert_eq!(rt; *library, name);
    }
    Ok(())
}

/// Names that are read again at the records' RVAs are the libraries, and names that are not there are skipped.
#[test]
fn lists_libraries_by_offset(rt: HostRuntime) -> std::result::Result<(), Fail> {
    let alloc = rt.alloc();
    let bytes = naming(alloc, &["b.dll", "a.dll", "b.dll", "B.dll", "a", "a.dll"])?;
    let directory = directory_at(0, 0);
    let opts = flat();
    let data = ImportData::parse_with_opts(alloc, &bytes, directory, &[], 0, &opts, true)?;
    let index = SectionIndex::new(alloc, &[], 0, &opts)?;
    let libraries = data.libraries_with_map(alloc, &image_by(&bytes, &index))?;
    let want = ["B.dll", "a", "a.dll", "b.dll"];
    assert_eq!(rt; libraries.len(), want.len());
    for (library, name) in libraries.iter().zip(want) {
        assert_eq!(rt; *library, name);
    }
    let last = bytes.len() - 1;
    let front = bytes.get(..last).ok_or("fewer bytes")?;
    let libraries = data.libraries_with_map(alloc, &image_by(front, &index))?;
    assert_eq!(rt; libraries.len(), 4);
    let front = bytes.get(..last - 6).ok_or("fewer bytes")?;
    let libraries = data.libraries_with_map(alloc, &image_by(front, &index))?;
    assert_eq!(rt; libraries.len(), 3);
    Ok(())
}

/// A directory of `count` records, each with the name at `name` and the lookup entries at `list`, both counted from the end
/// of the records and moved by as many bytes for each record as `steps` says.
pub(crate) fn sharing(
    alloc: Global,
    count: u32,
    after: &[u8],
    places: (u32, u32),
    steps: (u32, u32),
) -> std::result::Result<Vec<u8>, AllocError> {
    let end = count * 20 + 20;
    let mut bytes = vec![in alloc; 0; end as usize - 20]?;
    for (i, record) in bytes.chunks_exact_mut(20).enumerate() {
        let name = end + places.0 + i as u32 * steps.0;
        let list = end + places.1 + i as u32 * steps.1;
        record[..4].copy_from_slice(&u32::to_le_bytes(list));
        record[12..16].copy_from_slice(&u32::to_le_bytes(name));
        record[16] = 0x10;
    }
    bytes.extend_from_slice(&[0; 20])?;
    bytes.extend_from_slice(after)?;
    Ok(bytes)
}

/// The data of such a directory, where an RVA is a file offset.
fn shared_data(alloc: Global, bytes: &[u8]) -> Result<ImportData<'_>> {
    let directory = directory_at(0, 0);
    ImportData::parse_with_opts(alloc, bytes, directory, &[], 0, &flat(), true)
}

/// A name of 1 MiB that 50,000 records share. Record by record, this would compare and read 50 GiB.
#[test]
fn many_records_of_one_name(rt: HostRuntime) -> std::result::Result<(), Fail> {
    let alloc = rt.alloc();
    let mut after = vec![in alloc; b'a'; 1 << 20]?;
    after.extend_from_slice(&[0; 9])?;
    let bytes = sharing(alloc, 50_000, &after, (0, (1 << 20) + 1), (0, 0))?;
    let data = shared_data(alloc, &bytes)?;
    let index = SectionIndex::new(alloc, &[], 0, &flat())?;
    let libraries = data.libraries_with_map(alloc, &image_by(&bytes, &index))?;
    assert_eq!(rt; libraries.len(), 1);
    assert_eq!(rt; libraries[0].len(), 1 << 20);
    Ok(())
}

/// Lists that start inside of one list of 65,536 entries. Record by record, the 512 KiB would be read 50,000 times.
#[test]
fn many_records_of_one_list(rt: HostRuntime) -> std::result::Result<(), Fail> {
    let alloc = rt.alloc();
    let entries: u32 = 1 << 16;
    let mut after = Vec::new(alloc);
    after.extend_from_slice(b"a.dll\0\0\0")?;
    for _ in 0..entries {
        after.extend_from_slice(&[1, 0, 0, 0, 0, 0, 0, 0x80])?;
    }
    after.extend_from_slice(&[0; 8])?;
    for (count, step) in [(50_000, 0), (30_000, 8)] {
        let bytes = sharing(alloc, count, &after, (0, 8), (0, step))?;
        let data = shared_data(alloc, &bytes)?;
        let size = entries as usize;
        let total = if step == 0 {
            50_000 * size
        } else {
            30_000 * size - 29_999 * 30_000 / 2
        };
        assert_eq!(rt; data.import_count(true), total);
        let index = SectionIndex::new(alloc, &[], 0, &flat())?;
        let imports = Import::parse_at_most(
            alloc,
            &image_by(&bytes, &index),
            &data,
            true,
            100_000,
        )?;
        assert_eq!(rt; imports.len(), 100_000);
        assert_eq!(rt; imports[size - 1].rva, 0x10 + 8 * u64::from(entries - 1));
        assert_eq!(rt; imports[size].rva, 0x10);
    }
    Ok(())
}

/// Two lists: the second starts at an entry of the first, or in the middle of one, which is another list. And two that no
/// zero entry ends.
#[test]
fn lists_inside_of_lists(rt: HostRuntime) -> std::result::Result<(), Fail> {
    let alloc = rt.alloc();
    // Entries 1, 2, 3 and the zero one; from 4 bytes later 2 << 32, 3 << 32 and the zero one.
    let mut after = Vec::new(alloc);
    for number in [1, 2, 3, 0] {
        after.extend_from_slice(&u64::to_le_bytes(number))?;
    }
    after.extend_from_slice(b"\0\0\0\0a.dll\0")?;
    for (start, wanted) in [
        (0, 3),
        (8, 2),
        (16, 1),
        (24, 0),
        (4, 2),
        (12, 1),
        (20, 0),
        (28, 0),
    ] {
        let bytes = sharing(alloc, 2, &after, (36, 0), (0, start))?;
        let data = shared_data(alloc, &bytes)?;
        let records = &data.import_data;
        assert_eq!(rt; records.len(), 2);
        assert_eq!(rt; records[0].lookups.len(), 24, "at {start}");
        assert_eq!(rt; records[1].lookups.len(), 8 * wanted, "at {start}");
    }
    let after = b"a.dll\0\x01\x01\x01\x01\x01\x01\x01\x01\x01\x01";
    let endless = sharing(alloc, 2, after, (0, 6), (0, 0))?;
    let found = shared_data(alloc, &endless);
    assert!(rt; matches!(found, Err(Error::Short { at: 74, needed: 8 })));
    Ok(())
}

/// The first imports, as many as are asked for, and errors of these alone.
#[test]
fn lists_at_most(rt: HostRuntime) -> std::result::Result<(), Fail> {
    let alloc = rt.alloc();
    let bytes = importing(alloc, 0x410)?;
    let data = directory_of(alloc, &bytes)?;
    assert_eq!(rt; data.import_count(true), 2);
    let opts = ParseOptions::default();
    let sections = one_section();
    let index = SectionIndex::new(alloc, &sections, ALIGNMENT, &opts)?;
    let want: [Wanted<'_>; 2] = [(None, "a.dll", 5, 0x10C0), (Some("f"), "a.dll", 7, 0x10C8)];
    for (most, count) in [(0, 0), (1, 1), (2, 2), (3, 2), (usize::MAX, 2)] {
        let imports = Import::parse_at_most(alloc, &image_by(&bytes, &index), &data, true, most)?;
        check_imports(&rt, &imports, want.get(..count).ok_or("fewer")?);
    }
    // The name of the second import is no text.
    let bytes = with_byte(importing(alloc, 0x410)?, 0x2D2, 0xFF);
    let data = directory_of(alloc, &bytes)?;
    let imports = Import::parse_at_most(alloc, &image_by(&bytes, &index), &data, true, 1)?;
    check_imports(&rt, &imports, want.get(..1).ok_or("fewer")?);
    let found = reason_in(Import::parse_at_most(alloc, &image_by(&bytes, &index), &data, true, 2));
    assert_eq!(rt; found, Some(Reason::ImportName(0x10D0)));
    Ok(())
}

/// What refuses the image's directory or its list, with these bytes at these offsets.
fn refusal(alloc: Global, len: usize, parts: &[(usize, u8)]) -> std::result::Result<Error, Fail> {
    let mut bytes = importing(alloc, len)?;
    for (offset, byte) in parts {
        bytes = with_byte(bytes, *offset, *byte);
    }
    Ok(imports_of(alloc, &bytes).err().ok_or("given")?)
}

#[test]
fn refuses_records(rt: HostRuntime) -> std::result::Result<(), Fail> {
    let alloc = rt.alloc();
    let opts = ParseOptions::default();
    let sections = one_section();
    let outside = directory_at(0x3000, 0x28);
    let unmapped = ImportData::parse_with_opts(
        alloc,
        &[],
        outside,
        &sections,
        ALIGNMENT,
        &opts,
        true,
    );
    let found = reason_in(unmapped.err().ok_or("given")?);
    assert_eq!(rt; found, Some(Reason::Unmapped(0x3000)));
    assert_eq!(rt; short_in(refusal(alloc, 0x270, &[])?), short(0x260, 20));
    let found = reason_in(refusal(alloc, 0x410, &[(0x26C, 0), (0x26D, 0x30)])?);
    assert_eq!(rt; found, Some(Reason::Unmapped(0x3000)));
    // shows: pe_core/src/import.rt import_record ImportName
    let found = reason_in(refusal(alloc, 0x410, &[(0x290, 0xFF)])?);
    assert_eq!(rt; found, Some(Reason::ImportName(0x1090)));
    assert_eq!(rt; short_in(refusal(alloc, 0x2B4, &[])?), short(0x2B0, 8));
    Ok(())
}

/// The errors of two records: the first record's list comes before the second record's name.
#[test]
fn refuses_in_order(rt: HostRuntime) -> std::result::Result<(), Fail> {
    let second = [(0x281, 0x30), (0x285, 0x10)];
    let named = refusal(rt.alloc(), 0x410, &second)?;
    assert!(rt; matches!(named, Error::Malformed(Reason::Unmapped(0x3000))));
    let list = refusal(rt.alloc(), 0x2B4, &second)?;
    let found = list;
    assert_eq!(rt; short_in(found), short(0x2B0, 8));
    Ok(())
}

#[test]
fn refuses_entries(rt: HostRuntime) -> std::result::Result<(), Fail> {
    let alloc = rt.alloc();
    // shows: pe_core/src/import_list.rt import_of Unmapped
    let found = reason_in(refusal(alloc, 0x410, &[(0x2A9, 0x30)])?);
    assert_eq!(rt; found, Some(Reason::Unmapped(0x30D0)));
    assert_eq!(rt; short_in(refusal(alloc, 0x2D1, &[])?), short(0x2D0, 2));
    // shows: pe_core/src/import_list.rt import_of ImportName
    let found = reason_in(refusal(alloc, 0x2D3, &[])?);
    assert_eq!(rt; found, Some(Reason::ImportName(0x10D0)));
    let found = reason_in(refusal(alloc, 0x410, &[(0x2D2, 0xFF)])?);
    assert_eq!(rt; found, Some(Reason::ImportName(0x10D0)));
    Ok(())
}

/// A list whose address is unmapped is empty.
#[test]
fn lists_without_offset(rt: HostRuntime) -> std::result::Result<(), Fail> {
    let bytes = with_byte(importing(rt.alloc(), 0x410)?, 0x261, 0x30);
    let data = directory_of(rt.alloc(), &bytes)?;
    assert_eq!(rt; data.import_data.len(), 1);
    let record = data.import_data.first().ok_or("none")?;
    assert!(rt; record.lookups.is_empty());
    assert!(rt; imports_of(rt.alloc(), &bytes)?.is_empty());
    Ok(())
}
