//! The tables of exports, the exports that have a name, one a step, and all exports by their index.

use super::made::*;
use super::steps::{pe_c_export_at, pe_c_next_export};
use crate::names::{pe_c_export_addresses, pe_c_export_tables, pe_c_list_exports};
use calls_directories::names::export_addresses::{AddressTable, Exported};
use calls_directories::names::exports::{Export, ExportWalk, Exports};
use pe_images::image as bytes_of;

/// An export directory of 40 bytes at 0x10: in it at 0x24 the count of addresses, at 0x28 that of names, and after these
/// the addresses of the three tables: addresses at 0x50, names at 0x60, ordinals at 0x80. The first name is that of the
/// second address, which is unmapped. The second is unmapped, the third an ordinal after the table, the fourth is not
/// UTF-8, the fifth is that of the first address, and the last has no end.
pub(crate) fn with_exports(alloc: Global) -> Result<Vec<u8>, Fail> {
    Ok(bytes_of(
        alloc,
        0xB0,
        &[
            (0x20, &[1, 0, 0, 0, 3, 0, 0, 0, 6, 0, 0, 0]),
            (0x2C, &[0x50, 0x10, 0, 0, 0x60, 0x10, 0, 0, 0x80, 0x10]),
            (
                0x50,
                &[0x08, 0x10, 0, 0, 0, 0x90, 0, 0, 0xFF, 0xFF, 0xFF, 0xFF],
            ),
            (0x60, &[0x90, 0x10, 0, 0, 0, 0, 0, 0, 0x96, 0x10, 0, 0]),
            (0x6C, &[0x9A, 0x10, 0, 0, 0xA0, 0x10, 0, 0, 0xAE, 0x10]),
            (0x80, &[1, 0, 0, 0, 3, 0, 0, 0, 0, 0, 2, 0]),
            (0x90, b"first\0the\0\xFF\xFE\0\0\0\0g"),
            (0xAE, b"no"),
        ],
    )?)
}

/// An image with its export directory there.
fn with_directory(virtual_address: u32) -> Image {
    having(image(X64), 0, directory(virtual_address, 1))
}

/// The ranges of names, ordinals and addresses, the next index, and the RVA and size of the directory.
type Walk = ([u64; 2], [u64; 2], [u64; 2], u64, [u32; 2]);

fn of_walk(walk: Exports) -> Walk {
    let Exports {
        names,
        ordinals,
        addresses,
        next,
        directory,
    } = walk;
    (
        of_range(names),
        of_range(ordinals),
        of_range(addresses),
        next,
        [directory.virtual_address, directory.size],
    )
}

/// The directory of the image.
const DIRECTORY: [u32; 2] = [0x1010, 1];

pub(crate) fn walk_over(next: u64) -> Exports {
    Exports {
        names: range(0x60, 24),
        ordinals: range(0x80, 12),
        addresses: range(0x50, 12),
        next,
        directory: directory(0x1010, 1),
    }
}

const UNTOUCHED_WALK: Walk = ([1, 2], [3, 4], [5, 6], 7, [8, 9]);

fn tables_of(bytes: &[u8], image: &Image) -> (u32, Walk) {
    let mut out = Exports {
        names: range(1, 2),
        ordinals: range(3, 4),
        addresses: range(5, 6),
        next: 7,
        directory: directory(8, 9),
    };
    let answer = pe_c_export_tables(&view(bytes, image, &sections()), &mut out);
    (answer, of_walk(out))
}

#[test]
fn tables_of_exports(rt: HostRuntime) -> Result<(), Fail> {
    let mut bytes = with_exports(rt.alloc())?;
    let image = with_directory(0x1010);
    let whole = (DONE, of_walk(walk_over(0)));
    assert_eq!(rt; tables_of(&bytes, &image), whole);
    let absent = having(image, 0, directory(0, 0));
    assert_eq!(rt; tables_of(&bytes, &absent), (NOTHING, UNTOUCHED_WALK));
    let far = with_directory(0x3000);
    assert_eq!(rt; tables_of(&bytes, &far), (UNMAPPED, UNTOUCHED_WALK));
    // tables without entries are unmapped, whatever their addresses are
    put(&mut bytes, &[(0x24, &[0]), (0x28, &[0]), (0x2F, &[0xFF])]);
    let found = tables_of(&bytes, &image);
    assert_eq!(rt; found, (DONE, (OVER, OVER, OVER, 0, DIRECTORY)));
    Ok(())
}

/// Name, offset, address and whether there is an offset.
type Fields = ([u64; 2], u64, u32, u32);

const NO_EXPORT: Fields = ([1, 2], 3, 4, 5);

/// A walk by steps, which starts here.
pub(crate) fn from(exports: Exports) -> ExportWalk {
    ExportWalk {
        exports,
        kept: NO_SECTIONS,
    }
}

fn step(bytes: &[u8], walk: &mut ExportWalk) -> (u32, Fields, Walk) {
    let mut out = UNTOUCHED;
    let answer = pe_c_next_export(&view(bytes, &image(X64), &sections()), walk, &mut out);
    let Export {
        name,
        offset,
        rva,
        has_offset,
        ..
    } = out;
    (
        answer,
        (of_range(name), offset, rva, has_offset),
        of_walk(walk.exports),
    )
}

/// Entries that have no name or no address are passed by.
#[test]
fn exports_in_turn(rt: HostRuntime) -> Result<(), Fail> {
    let bytes = with_exports(rt.alloc())?;
    let mut walk = from(walk_over(0));
    for (answer, export, next) in [
        (DONE, ([0x90, 5], 0, 0x9000, 0), 1),
        (DONE, ([0xA0, 1], 8, 0x1008, 1), 5),
        (NOTHING, NO_EXPORT, 6),
    ] {
        let want = (answer, export, of_walk(walk_over(next)));
        assert_eq!(rt; step(&bytes, &mut walk), want);
    }
    // A range that lies is refused while entries are left.
    let mut lie = from(Exports {
        names: range(0x60, 0x51),
        ..walk_over(0)
    });
    assert_eq!(rt; step(&bytes, &mut lie).0, SHORT);
    assert_eq!(rt; of_range(lie.exports.names), OVER);
    Ok(())
}

pub(crate) const UNTOUCHED: Export = Export {
    name: Range {
        offset: 1,
        length: 2,
    },
    forwarder: Range {
        offset: 8,
        length: 9,
    },
    offset: 3,
    rva: 4,
    has_offset: 5,
    index: 6,
    is_forwarder: 7,
};

/// Name, forwarder's text, offset, RVA, whether it is a forwarder.
type Named = ([u64; 2], [u64; 2], u64, u32, u32);

fn of_export(export: &Export) -> Named {
    (
        of_range(export.name),
        of_range(export.forwarder),
        export.offset,
        export.rva,
        export.is_forwarder,
    )
}

/// The export from an entry of the name table on, by a walk and by a list, with the walks after them.
fn export_from(bytes: &[u8], directory: DataDirectory, next: u64) -> [(u32, Named, Walk); 2] {
    let (image, sections) = (image(X64), sections());
    let view = view(bytes, &image, &sections);
    let start = Exports {
        directory,
        ..walk_over(next)
    };
    let mut step = UNTOUCHED;
    let mut walk = from(start);
    let answer = pe_c_next_export(&view, &mut walk, &mut step);
    let (mut one, mut listed, mut written) = (from(start), [UNTOUCHED; 1], 77);
    let first = pe_c_list_exports(&view, &mut one, &mut [], &mut listed, &mut written);
    [
        (answer, of_export(&step), of_walk(walk.exports)),
        (first, of_export(&listed[0]), of_walk(one.exports)),
    ]
}

/// An export by its name is a forwarder from the directory's first byte to its last, also in a directory that passes the end of
/// all RVAs, and has the text that it has by its index.
#[test]
fn forwarders_by_name(rt: HostRuntime) -> Result<(), Fail> {
    let mut bytes = with_exports(rt.alloc())?;
    put(&mut bytes, &[(8, b"A.#7\0")]);
    for (virtual_address, size, is_forwarder) in [
        // Before the directory, at its start, at its last byte and after it.
        (0x1009, 0x20, 0),
        (0x1008, 0x20, 1),
        (0x1000, 9, 1),
        (0x1000, 8, 0),
        (0x1000, u32::MAX, 1),
    ] {
        let directory = directory(virtual_address, size);
        let after = Exports {
            directory,
            ..walk_over(5)
        };
        let text = if is_forwarder == 1 { [8, 4] } else { OVER };
        let export = ([0xA0, 1], text, 8, 0x1008, is_forwarder);
        assert_eq!(rt;
            export_from(&bytes, directory, 1),
            [(DONE, export, of_walk(after)); 2],
            "{virtual_address:#x} {size:#x}"
        );
        let (_, table) = table_at(&bytes, &with_directory(0x1010));
        let table = AddressTable { directory, ..table };
        let found = exported(&bytes, &table, 0);
        assert_eq!(rt; found, (DONE, text, [1, 0x1008, u64::from(is_forwarder)]));
    }
    Ok(())
}

/// The address table of an image whose directory ends at 0x50, before its address table, and so has no forwarder.
fn table_at(bytes: &[u8], image: &Image) -> (u32, AddressTable) {
    let mut out = AddressTable {
        name: range(1, 2),
        addresses: range(3, 4),
        directory: directory(5, 6),
        ordinal_base: 7,
        has_name: 8,
    };
    let answer = pe_c_export_addresses(&view(bytes, image, &sections()), &mut out);
    (answer, out)
}

/// Forwarder, ordinal, RVA, whether it is a forwarder.
fn exported(bytes: &[u8], table: &AddressTable, index: u64) -> (u32, [u64; 2], [u64; 3]) {
    let mut out = Exported {
        forwarder: range(1, 2),
        ordinal: 3,
        rva: 4,
        is_forwarder: 5,
    };
    let answer = pe_c_export_at(
        &view(bytes, &image(X64), &sections()),
        table,
        index,
        &mut out,
    );
    let numbers = [out.ordinal, u64::from(out.rva), u64::from(out.is_forwarder)];
    (answer, of_range(out.forwarder), numbers)
}

/// The ordinal base is 1. The directory is made to reach up to 0x1009: of the three addresses the first is inside of it then.
#[test]
fn exports_by_their_index(rt: HostRuntime) -> Result<(), Fail> {
    let mut bytes = with_exports(rt.alloc())?;
    put(
        &mut bytes,
        &[(0x1C, &[0xA0, 0x10, 0, 0]), (0xA0, b"m.dll\0")],
    );
    let image = with_directory(0x1010);
    let (answer, table) = table_at(&bytes, &image);
    let found = (answer, of_range(table.name), table.has_name);
    assert_eq!(rt; found, (DONE, [0xA0, 5], 1));
    let found = (of_range(table.addresses), table.ordinal_base);
    assert_eq!(rt; found, ([0x50, 12], 1));
    assert_eq!(rt; exported(&bytes, &table, 0), (DONE, OVER, [1, 0x1008, 0]));
    assert_eq!(rt; exported(&bytes, &table, 1), (DONE, OVER, [2, 0x9000, 0]));
    let found = exported(&bytes, &table, 2);
    assert_eq!(rt; found, (DONE, OVER, [3, 0xFFFF_FFFF, 0]));
    let found = exported(&bytes, &table, 3);
    assert_eq!(rt; found, (NOTHING, [1, 2], [3, 4, 5]));
    let inside = AddressTable {
        directory: directory(0x1000, 9),
        ordinal_base: u32::MAX,
        ..table
    };
    put(&mut bytes, &[(8, b"A.#7\0")]);
    let found = exported(&bytes, &inside, 0);
    assert_eq!(rt; found, (DONE, [8, 4], [0xFFFF_FFFF, 0x1008, 1]));
    Ok(())
}

/// The directory may be absent, and its name too; a table that lies is refused.
#[test]
fn address_tables_that_are_refused(rt: HostRuntime) -> Result<(), Fail> {
    let bytes = with_exports(rt.alloc())?;
    let image = with_directory(0x1010);
    let (_, table) = table_at(&bytes, &image);
    assert_eq!(rt; (of_range(table.name), table.has_name), (OVER, 0));
    let absent = having(image, 0, directory(0, 0));
    assert_eq!(rt; table_at(&bytes, &absent).0, NOTHING);
    let (number, kept) = table_at(&bytes, &with_directory(0x10A0));
    let found = (number, of_range(kept.name), kept.has_name);
    assert_eq!(rt; found, (SHORT, [1, 2], 8));
    let lie = AddressTable {
        addresses: range(0x50, 0x61),
        ..table
    };
    assert_eq!(rt; exported(&bytes, &lie, 0), (SHORT, [1, 2], [3, 4, 5]));
    Ok(())
}
