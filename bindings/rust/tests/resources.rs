//! Resources one by one, the Rich header, bound imports and long section names, of images made by hand. Expected values come
//! from how the images are made.

use crate::facts::as_loaded;
use crate::made::*;
use pe_c::{
    Error, Image, Layout, LibraryForwarder, Mode, ResourceDirectory, ResourceName, RichEntry, Text, VersionName,
};

fn strict(bytes: &[u8]) -> Image<'_> {
    Image::parse(bytes, Mode::Strict).unwrap()
}

/// The bytes with others at an offset.
fn changed(mut bytes: Vec<u8>, offset: usize, part: &[u8]) -> Vec<u8> {
    bytes[offset..offset + part.len()].copy_from_slice(part);
    bytes
}

#[test]
fn leaves_are_read() {
    let bytes = with_named_resources();
    let image = strict(&bytes);
    let mut leaves = image.resource_leaves().unwrap().unwrap();
    let first = leaves.next().unwrap().unwrap();
    let name = ResourceName::Name(Text(b"A\0B\0"));
    assert_eq!((first.resource_type, first.name, first.language), (name, ResourceName::Id(1), ResourceName::Id(0x409)));
    assert_eq!((first.rva, first.size, first.code_page), (ADDRESS, 5, 1252));
    assert_eq!(first.content(), Ok(b"abcde".as_slice()));
    assert_eq!((first.version(), first.version_text(VersionName::Comments)), (Ok(None), Ok(None)));
    let second = leaves.next().unwrap().unwrap();
    assert_eq!((second.resource_type, second.language), (name, ResourceName::Id(0x407)));
    assert_eq!((second.rva, second.size, second.code_page), (0x99_0000, 6, 0));
    assert_eq!(second.content(), Err(Error::UNMAPPED));
    assert_eq!(leaves.next().unwrap().unwrap_err(), Error::TREE_NOT_DIRECTORY);
    assert_eq!(Error::TREE_NOT_DIRECTORY.number(), 401);
    assert!(leaves.next().is_none() && leaves.next().is_none());
    assert!(strict(&with_debug()).resource_leaves().unwrap().is_none());
}

#[test]
fn versions_of_leaves_are_those_of_the_image() {
    let bytes = with_resources();
    let file = strict(&bytes);
    let memory = as_loaded(&file);
    let module = Image::parse_as(&memory, Mode::Strict, Layout::Mapped).unwrap();
    for image in [&file, &module] {
        let leaves: Vec<_> = image.resource_leaves().unwrap().unwrap().map(Result::unwrap).collect();
        let types: Vec<_> = leaves.iter().map(|it| (it.resource_type, it.name, it.language)).collect();
        let [one, language] = [ResourceName::Id(1), ResourceName::Id(1033)];
        assert_eq!(types, [(ResourceName::Id(16), one, language), (ResourceName::Id(24), one, language)]);
        assert_eq!(leaves[0].version().unwrap(), image.version().unwrap());
        assert_eq!(leaves[0].version().unwrap().unwrap().file_version(), [3, 11, 3150, 1013]);
        for name in VersionName::ALL {
            assert_eq!(leaves[0].version_text(name), image.version_text(name), "{name:?}");
        }
        assert_eq!(leaves[1].content(), Ok(MANIFEST));
        assert_eq!((leaves[1].version(), leaves[1].version_text(VersionName::ProductName)), (Ok(None), Ok(None)));
    }
}

#[test]
fn damaged_trees_are_refused() {
    // the tree follows the content of five bytes, at a multiple of four
    let root = OFFSET as usize + 8;
    let found = |offset: usize, part: &[u8]| {
        let bytes = changed(with_named_resources(), root + offset, part);
        let image = strict(&bytes);
        let mut leaves = image.resource_leaves().unwrap().unwrap();
        let items: Vec<_> = leaves.by_ref().map(|it| it.map(|it| it.size)).collect();
        assert!(leaves.next().is_none());
        items
    };
    let last = Err(Error::TREE_NOT_DIRECTORY);
    assert_eq!(found(0x57, &[0x80]), [Ok(5), Err(Error::TREE_NOT_DATA)]);
    assert_eq!(found(0x54, &[0x7F]), [Ok(5), Err(Error::SHORT)]);
    assert_eq!(found(0x46, &[0]), [Err(Error::TREE_NO_ENTRIES)]);
    assert_eq!(found(0x46, &[11]), [Err(Error::SHORT)]);
    assert_eq!(found(0x88, &[3]), [Err(Error::SHORT)]);
    assert_eq!(found(0x68, &[0]), [Ok(5), Ok(6), last]);
    assert_eq!((Error::TREE_NOT_DATA.number(), Error::TREE_NO_ENTRIES.number()), (402, 403));
    // a content that passes the end of the file
    let bytes = changed(with_named_resources(), root + 0x5C, &[0, 2, 0, 0]);
    let image = strict(&bytes);
    let leaf = image.resource_leaves().unwrap().unwrap().next().unwrap().unwrap();
    assert_eq!((leaf.size, leaf.content()), (0x200, Ok(&bytes[OFFSET as usize..])));
    let bytes = changed(with_named_resources(), root + 0x5C, &[1, 2, 0, 0]);
    let image = strict(&bytes);
    let leaf = image.resource_leaves().unwrap().unwrap().next().unwrap().unwrap();
    assert_eq!((leaf.size, leaf.content()), (0x201, Err(Error::RESOURCE_BOUNDS)));
    // a directory whose data passes the end of the file: its size is in the third data directory
    let bytes = changed(with_named_resources(), 0xC8 + 8 * RESOURCES + 4, &[0, 4]);
    assert_eq!(strict(&bytes).resource_leaves().unwrap_err(), Error::RESOURCE_BOUNDS);
    let bytes = changed(with_named_resources(), 0xC8 + 8 * RESOURCES + 4, &[15]);
    assert_eq!(strict(&bytes).resource_leaves().unwrap_err(), Error::RESOURCE_BOUNDS);
    assert!(Image::parse(&bytes, Mode::Permissive).unwrap().resource_leaves().unwrap().is_none());
}

/// The fields of the first directory, each another number.
#[test]
fn the_root_has_fields_and_items() {
    let root = OFFSET as usize + 8;
    let bytes = changed(with_named_resources(), root, &[4, 3, 2, 1, 8, 7, 6, 5, 10, 9, 12, 11]);
    let memory = as_loaded(&strict(&bytes));
    for image in [strict(&bytes), Image::parse_as(&memory, Mode::Permissive, Layout::Mapped).unwrap()] {
        let found = image.resource_root().unwrap().unwrap();
        let fields = |it: ResourceDirectory| {
            (it.characteristics, it.time_date_stamp, it.major_version, it.minor_version, it.number_of_named_entries)
        };
        assert_eq!(fields(found), (0x0102_0304, 0x0506_0708, 0x090A, 0x0B0C, 1));
        assert_eq!(found.number_of_id_entries, 1);
        let [first, second] = [ResourceName::Name(Text(b"A\0B\0")), ResourceName::Id(3)];
        let items: Vec<_> = found.items().map(Result::unwrap).map(|it| (it.name, it.offset, it.is_directory)).collect();
        assert_eq!(items, [(first, 0x20, true), (second, 0x68, false)]);
        let leaves = image.resource_leaves().unwrap().unwrap();
        let same = leaves.directory(0).unwrap();
        assert_eq!((fields(same), same.number_of_id_entries), (fields(found), 1));
        assert_eq!(format!("{same:?}"), format!("{found:?}"));
    }
    assert!(strict(&with_debug()).resource_root().unwrap().is_none());
}

#[test]
fn a_root_that_is_truncated_has_no_items() {
    let permissive = |bytes: &'_ [u8]| Image::parse(bytes, Mode::Permissive).map(|it| it.resource_root().map(|_| ()));
    // More entries than the data has room for: 0x8E bytes have room for 15.
    for (ids, is_whole) in [(14, true), (15, false), (0xFFFF, false)] {
        let number = u16::to_le_bytes(ids);
        let bytes = changed(with_named_resources(), OFFSET as usize + 8 + 14, &number);
        let image = Image::parse(&bytes, Mode::Permissive).unwrap();
        let found = image.resource_root().unwrap().unwrap();
        assert_eq!((found.number_of_named_entries, found.number_of_id_entries), (1, ids));
        assert_eq!(found.items().count() > 0, is_whole);
        let leaves = image.resource_leaves().unwrap().unwrap();
        assert_eq!(leaves.directory(0).err(), (!is_whole).then_some(Error::SHORT));
        let refused = strict(&bytes).resource_root().err();
        assert_eq!(refused, (!is_whole).then_some(Error::RESOURCE_BOUNDS));
    }
    let size = 0xC8 + 8 * RESOURCES + 4;
    // Data that are shorter than a directory, and data that end past the end of the file.
    let bytes = changed(with_named_resources(), size, &[15]);
    assert_eq!(strict(&bytes).resource_root().err(), Some(Error::RESOURCE_BOUNDS));
    assert!(Image::parse(&bytes, Mode::Permissive).unwrap().resource_root().unwrap().is_none());
    let bytes = changed(with_named_resources(), size, &[0, 4]);
    assert_eq!(strict(&bytes).resource_root().err(), Some(Error::RESOURCE_BOUNDS));
    assert_eq!(permissive(&bytes).unwrap(), Err(Error::RESOURCE_BOUNDS));
    // An RVA that no section covers.
    let bytes = changed(with_named_resources(), size - 4, &[0, 0, 0x99, 0]);
    assert_eq!(strict(&bytes).resource_root().err(), Some(Error::UNMAPPED));
    assert_eq!(permissive(&bytes).unwrap(), Err(Error::UNMAPPED));
}

/// The entries are those that pefile prints.
#[test]
fn rich_headers_are_read() {
    let bytes = with_rich_header();
    let image = strict(&bytes);
    let header = image.rich_header().unwrap().unwrap();
    assert_eq!((header.key, header.checksum, header.count), (0x25A3_10C8, 0x25A3_10C8, 9));
    assert!(header.key_is_checksum());
    let entries: Vec<_> = header.entries().map(Result::unwrap).collect();
    let one = |product, build, count| RichEntry { build, product, count };
    assert_eq!(entries.len(), 9);
    assert_eq!(entries[..3], [one(152, 20115, 1), one(171, 40219, 33), one(158, 40219, 15)]);
    let changed = changed(bytes, 80, b"t");
    let header = strict(&changed).rich_header().unwrap().unwrap();
    assert!(!header.key_is_checksum());
    assert_eq!((header.key, header.entries().count()), (0x25A3_10C8, 9));
    assert!(strict(SMALL).rich_header().unwrap().is_none());
}

#[test]
fn bound_imports_are_read() {
    let bytes = with_bound_imports();
    let image = strict(&bytes);
    let imports: Vec<_> = image.bound_imports().unwrap().map(Result::unwrap).collect();
    let names: Vec<_> = imports.iter().map(|it| (it.name, it.time_date_stamp)).collect();
    assert_eq!(names, [("one.dll", 0x3F00_0001), ("six.dll", 0x3F00_0003)]);
    let forwarders: Vec<_> = imports[0].forwarders().map(Result::unwrap).collect();
    let [forwarder] = forwarders[..] else { panic!("one forwarder") };
    assert_eq!((forwarder.name, forwarder.time_date_stamp), ("two.dll", 0x3F00_0002));
    assert!(imports[1].forwarders().next().is_none());
    assert!(strict(SMALL).bound_imports().unwrap().next().is_none());
    let all: Vec<_> = image.bound_forwarders().unwrap().map(Result::unwrap).collect();
    let [one] = all[..] else { panic!("one forwarder") };
    assert_eq!((one.library, one.index, one.forwarder), ("one.dll", 0, forwarder));
    assert!(strict(SMALL).bound_forwarders().unwrap().next().is_none());
}

/// Each DLL by itself has what the list of all has.
fn forwarders_one_by_one<'a>(image: &Image<'a>) -> Vec<Result<LibraryForwarder<'a>, Error>> {
    let mut items = Vec::new();
    for (index, import) in (0..).zip(image.bound_imports().unwrap()) {
        match import {
            Ok(import) => items.extend(
                import
                    .forwarders()
                    .map(|it| it.map(|forwarder| record!(LibraryForwarder::default(); library: import.name, index: index, forwarder: forwarder))),
            ),
            Err(error) => items.push(Err(error)),
        }
    }
    let end = items.iter().position(Result::is_err).map_or(items.len(), |at| at + 1);
    items.truncate(end);
    items
}

/// 100 DLLs: every third has none, the others up to 9 forwarders, and all names stand in one text.
#[test]
fn forwarders_of_many_bound_imports_are_in_one_list() {
    let counts = (0..100).map(|i: u16| if i % 3 == 0 { 0 } else { i % 10 });
    let entries = counts.clone().map(|count| 1 + usize::from(count)).sum::<usize>();
    let text = 8 * (entries + 1);
    let mut table = Vec::new();
    for count in counts {
        for i in 0..=count {
            let name = text + table.len() / 8;
            table.extend(u32::from(i).to_le_bytes());
            table.extend((name as u16).to_le_bytes());
            table.extend((if i == 0 { count } else { 0 }).to_le_bytes());
        }
    }
    table.extend([0; 8]);
    table.extend([b"a".repeat(entries + 5), vec![0]].concat());
    let mut made = Made::new(X64);
    made.directory(BOUND_IMPORTS, OFFSET, table.len() as u32);
    made.put(&table);
    let bytes = made.image();
    let image = strict(&bytes);
    let all: Vec<_> = image.bound_forwarders().unwrap().collect();
    assert_eq!((all.len(), entries), (297, 397));
    assert_eq!(all, forwarders_one_by_one(&image));
    let last = all[296].unwrap();
    assert_eq!((last.index, last.library.len(), last.forwarder.name.len()), (98, 15, 7));
    assert_eq!((all[0].unwrap().index, last.forwarder.time_date_stamp), (1, 8));
    // a name after the directory is an error of a DLL or of a forwarder, and a DLL without a name ends the directory
    for name in [0, table.len() as u16] {
        for entry in [0, 1, 2, 3, 100, entries - 1] {
            let bytes = changed(bytes.clone(), OFFSET as usize + 8 * entry + 4, &name.to_le_bytes());
            let image = strict(&bytes);
            let all: Vec<_> = image.bound_forwarders().unwrap().collect();
            assert_eq!(all, forwarders_one_by_one(&image), "{name} {entry}");
        }
    }
}

#[test]
fn damaged_bound_imports_are_refused() {
    let start = OFFSET as usize;
    let found = |offset: usize, part: &[u8]| {
        let bytes = changed(with_bound_imports(), start + offset, part);
        let image = strict(&bytes);
        let mut imports = image.bound_imports().unwrap();
        let items: Vec<_> = imports.by_ref().map(|it| it.map(|it| it.forwarders().collect::<Vec<_>>().len())).collect();
        assert!(imports.next().is_none());
        items
    };
    let name = Err(Error::DIRECTORY_BOUND_IMPORT_NAME);
    assert_eq!(found(0x3F, b"!"), [Ok(1), name]);
    assert_eq!(found(0x28, &[0xFF]), [name]);
    assert_eq!(found(6, &[8]), [Err(Error::SHORT)]);
    assert_eq!(found(4, &[0]), []);
    // a forwarder's name after the directory
    let bytes = changed(with_bound_imports(), start + 12, &[0x40]);
    let import = strict(&bytes).bound_imports().unwrap().next().unwrap().unwrap();
    let mut forwarders = import.forwarders();
    assert_eq!((forwarders.next(), forwarders.next()), (Some(Err(Error::DIRECTORY_BOUND_IMPORT_NAME)), None));
    let bytes = changed(with_bound_imports(), 0xC8 + 8 * BOUND_IMPORTS + 4, &[1, 2]);
    assert_eq!(strict(&bytes).bound_imports().unwrap_err(), Error::SHORT);
}

#[test]
fn overlays_follow_the_sections() {
    // A COFF symbol, and the string table.
    let symbols = [&[0; 18], b"\x1C\0\0\0.debug_info\0.debug_line\0".as_slice()].concat();
    assert_eq!(strict(&with_long_section_name()).overlay(), symbols);
    let dll = x86_dll();
    assert_eq!(strict(&dll).overlay(), b"");
    let appended = [dll.as_slice(), b"appended"].concat();
    assert_eq!(strict(&appended).overlay(), b"appended");
    let module = Image::parse_as(&appended, Mode::Strict, Layout::Mapped).unwrap();
    assert_eq!(module.overlay(), b"");
}

#[test]
fn long_section_names_are_read() {
    let name_of = |bytes: &[u8]| {
        let image = strict(bytes);
        image.long_section_name(&image.sections()[0]).map(|it| it.map(str::to_owned))
    };
    let bytes = with_long_section_name();
    assert_eq!(strict(&bytes).sections()[0].name(), b"/4");
    assert_eq!(strict(&bytes).string_table(), Ok(Some(b"\x1C\0\0\0.debug_info\0.debug_line\0".as_slice())));
    assert_eq!(name_of(&bytes), Ok(Some(".debug_info".to_owned())));
    for (name, want) in [
        (b"/16\0\0\0\0\0", Some(".debug_line")),
        (b"//AAAAAE", Some(".debug_info")),
        (b"/28\0\0\0\0\0", None),
        (b".text\0\0\0", None),
    ] {
        let bytes = changed(with_long_section_name(), 0x148, name);
        assert_eq!(name_of(&bytes), Ok(want.map(str::to_owned)), "{name:?}");
    }
    assert_eq!((name_of(SMALL), strict(SMALL).string_table()), (Ok(None), Ok(None)));
    // a table that passes the end of the file, and symbols that do
    assert_eq!(name_of(&bytes[..bytes.len() - 1]), Err(Error::STRING_TABLE));
    assert_eq!(name_of(&bytes[..OFFSET as usize + 0x200 + 17]), Err(Error::SHORT));
    let module = Image::parse_as(&bytes, Mode::Strict, Layout::Mapped).unwrap();
    assert_eq!(module.long_section_name(&module.sections()[0]), Ok(None));
}
