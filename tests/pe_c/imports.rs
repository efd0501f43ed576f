//! The libraries of an import directory, and the imports of each, one a step.

use super::made::*;
use super::steps::{pe_c_next_import, pe_c_next_library};
use crate::names::pe_c_import_libraries;
use calls_directories::names::imports::{
    Import, ImportWalk, Imports, Libraries, Library, LibraryWalk,
};
use pe_images::image as bytes_of;

/// How many bytes the file has.
const LENGTH: u64 = 0xC0;

/// An import directory at 0x10: the record of the library `a`, with a list at 0x60 of an import by the name `f`, whose hint
/// is 7, and one by the ordinal 17; at 0x24 the record of the library `bc`, whose list is its address table at 0x88, of an
/// import by the ordinal 5; at 0x38 the record that ends the directory.
pub(crate) fn with_imports(alloc: Global) -> Result<Vec<u8>, Fail> {
    Ok(bytes_of(
        alloc,
        0xC0,
        &[
            (0x10, &[0x60, 0x10, 0, 0, 1, 2, 3, 4, 5, 6, 7, 8]),
            (0x1C, &[0xA0, 0x10, 0, 0, 0, 0x20]),
            (0x30, &[0xA2, 0x10, 0, 0, 0x88, 0x10]),
            (0x60, &[0xB0, 0x10, 0, 0, 0, 0, 0, 0, 17, 0, 0, 0, 0, 0, 0]),
            (0x6F, &[0x80]),
            (0x88, &[5, 0, 0, 0, 0, 0, 0, 0x80]),
            (0xA0, b"a\0bc\0"),
            (0xB0, b"\x07\0f\0"),
        ],
    )?)
}

/// An image with its import directory there.
fn with_directory(virtual_address: u32, size: u32) -> Image {
    having(image(X64), 1, directory(virtual_address, size))
}

fn libraries(next: u64, is_over: u32) -> Libraries {
    Libraries {
        next,
        is_over,
        spare: 0,
    }
}

/// A walk by steps, which starts here.
pub(crate) fn from_library(libraries: Libraries) -> LibraryWalk {
    LibraryWalk {
        libraries,
        kept: NO_SECTIONS,
    }
}

/// The same over the imports of a library.
pub(crate) fn from_import(imports: Imports) -> ImportWalk {
    ImportWalk {
        imports,
        kept: NO_SECTIONS,
    }
}

/// The next record, whether the walk is over, and the spare number.
fn of_libraries(walk: Libraries) -> (u64, u32, u32) {
    let Libraries {
        next,
        is_over,
        spare,
    } = walk;
    (next, is_over, spare)
}

/// What a library is before a call that hands out another.
pub(crate) const NO_LIBRARY: Library = Library {
    name: Range {
        offset: 1,
        length: 1,
    },
    imports: Imports {
        left: Range {
            offset: 1,
            length: 1,
        },
        rva: 1,
    },
    lookup_table_rva: 1,
    time_date_stamp: 1,
    forwarder_chain: 1,
    name_rva: 1,
    address_table_rva: 1,
    spare: 1,
};

/// The range of the name, that of the list, the first slot, and the other numbers.
type Fields = ([u64; 2], [u64; 2], u64, [u32; 6]);

fn of_library(library: Library) -> Fields {
    let Library {
        name,
        imports: Imports { left, rva },
        lookup_table_rva,
        time_date_stamp,
        forwarder_chain,
        name_rva,
        address_table_rva,
        spare,
    } = library;
    (
        of_range(name),
        of_range(left),
        rva,
        [
            lookup_table_rva,
            time_date_stamp,
            forwarder_chain,
            name_rva,
            address_table_rva,
            spare,
        ],
    )
}

const UNTOUCHED_LIBRARY: Fields = ([1, 1], [1, 1], 1, [1; 6]);

/// What an import is before a call that hands out another.
pub(crate) const NO_IMPORT: Import = Import {
    name: Range {
        offset: 1,
        length: 1,
    },
    rva: 1,
    ordinal: 1,
    has_name: 1,
};

/// The range of the name, the slot, the ordinal or hint, and whether there is a name.
fn of_import(import: Import) -> ([u64; 2], u64, u32, u32) {
    let Import {
        name,
        rva,
        ordinal,
        has_name,
    } = import;
    (of_range(name), rva, ordinal, has_name)
}

/// A step over libraries: the answer, what went out, and the walk after it.
fn next_library(
    bytes: &[u8],
    image: &Image,
    walk: &mut LibraryWalk,
) -> (u32, Fields, (u64, u32, u32)) {
    let mut out = NO_LIBRARY;
    let answer = pe_c_next_library(&view(bytes, image, &sections()), walk, &mut out);
    (answer, of_library(out), of_libraries(walk.libraries))
}

/// The answer, what went out, and the entries that are left and the next slot after it.
type Step = (u32, ([u64; 2], u64, u32, u32), [u64; 2], u64);

fn next_import(bytes: &[u8], image: &Image, walk: &mut ImportWalk) -> Step {
    let mut out = NO_IMPORT;
    let answer = pe_c_next_import(&view(bytes, image, &sections()), walk, &mut out);
    (
        answer,
        of_import(out),
        of_range(walk.imports.left),
        walk.imports.rva,
    )
}

#[test]
fn directories(rt: HostRuntime) -> Result<(), Fail> {
    let bytes = with_imports(rt.alloc())?;
    for (image, want) in [
        (with_directory(0x1010, 60), (DONE, (0x10, 0, 0))),
        (with_directory(0, 0), (NOTHING, (9, 9, 0))),
        (with_directory(0x3000, 60), (UNMAPPED, (9, 9, 0))),
    ] {
        let mut walk = libraries(9, 9);
        let answer = pe_c_import_libraries(&view(&bytes, &image, &sections()), &mut walk);
        assert_eq!(rt; (answer, of_libraries(walk)), want);
    }
    Ok(())
}

#[test]
fn libraries_in_their_order(rt: HostRuntime) -> Result<(), Fail> {
    let bytes = with_imports(rt.alloc())?;
    let image = with_directory(0x1010, 60);
    let first = [0x1060, 0x0403_0201, 0x0807_0605, 0x10A0, 0x2000, 0];
    let second = [0, 0, 0, 0x10A2, 0x1088, 0];
    let mut walk = from_library(libraries(0x10, 0));
    assert_eq!(rt;
        next_library(&bytes, &image, &mut walk),
        (DONE, ([0xA0, 1], [0x60, 16], 0x2000, first), (0x24, 0, 0))
    );
    assert_eq!(rt;
        next_library(&bytes, &image, &mut walk),
        (DONE, ([0xA2, 2], [0x88, 8], 0x1088, second), (0x38, 0, 0))
    );
    let found = next_library(&bytes, &image, &mut walk);
    assert_eq!(rt; found, (NOTHING, UNTOUCHED_LIBRARY, (0, 1, 0)));
    // A walk that a caller says is over stays as it is.
    let mut walk = from_library(libraries(0x10, 7));
    let found = next_library(&bytes, &image, &mut walk);
    assert_eq!(rt; found, (NOTHING, UNTOUCHED_LIBRARY, (0x10, 7, 0)));
    Ok(())
}

#[test]
fn refused_libraries(rt: HostRuntime) -> Result<(), Fail> {
    let image = with_directory(0x1010, 60);
    let damages: [(usize, &[u8], u64, u32); 4] = [
        // shows: calls_base/src/kept_sections.rt require_kept Unmapped
        // The name's address is unmapped, or its first byte is not UTF-8.
        (0x1D, &[0x30], 0x10, UNMAPPED),
        (0xA0, &[0xFF], 0x10, IMPORT_NAME),
        // The list has no end.
        (0x10, &[0xB8, 0x10], 0x10, SHORT),
        // The record is truncated.
        (0, &[], LENGTH - 19, SHORT),
    ];
    for (offset, part, next, number) in damages {
        let mut bytes = with_imports(rt.alloc())?;
        put(&mut bytes, &[(0xB8, &[b'x'; 8]), (offset, part)]);
        let mut walk = from_library(libraries(next, 0));
        assert_eq!(rt;
            next_library(&bytes, &image, &mut walk),
            (number, UNTOUCHED_LIBRARY, (0, 1, 0)),
            "{offset:#x}, {next:#x}"
        );
        let (answer, ..) = next_library(&bytes, &image, &mut walk);
        assert_eq!(rt; answer, NOTHING);
    }
    // A list whose address is unmapped is empty, and the walk goes on.
    let mut bytes = with_imports(rt.alloc())?;
    put(&mut bytes, &[(0x11, &[0x90])]);
    let (answer, (_, list, ..), walk) = next_library(
        &bytes,
        &image,
        &mut from_library(libraries(0x10, 0)),
    );
    assert_eq!(rt; (answer, list, walk), (DONE, OVER, (0x24, 0, 0)));
    Ok(())
}

#[test]
fn imports_of_a_library(rt: HostRuntime) -> Result<(), Fail> {
    let bytes = with_imports(rt.alloc())?;
    let pe32_plus = with_directory(0x1010, 60);
    let mut walk = from_import(Imports {
        left: range(0x60, 16),
        rva: 0x2000,
    });
    let found = next_import(&bytes, &pe32_plus, &mut walk);
    assert_eq!(rt; found, (DONE, ([0xB2, 1], 0x2000, 7, 1), [0x68, 8], 0x2008));
    let found = next_import(&bytes, &pe32_plus, &mut walk);
    assert_eq!(rt; found, (DONE, (OVER, 0x2008, 17, 0), [0x70, 0], 0x2010));
    let found = next_import(&bytes, &pe32_plus, &mut walk);
    assert_eq!(rt; found, (NOTHING, ([1, 1], 1, 1, 1), [0x70, 0], 0x2010));
    Ok(())
}

#[test]
fn refused_imports(rt: HostRuntime) -> Result<(), Fail> {
    let image = with_directory(0x1010, 60);
    // shows: calls_directories/src/names/imports.rt name_at ImportName
    let damages: [(usize, &[u8], u32); 3] = [
        // The address is unmapped, the hint is truncated, or the name is not UTF-8.
        (0x61, &[0x30], UNMAPPED),
        (0x60, &[0xBF, 0x10], SHORT),
        (0xB2, &[0xFF], IMPORT_NAME),
    ];
    for (offset, part, number) in damages {
        let mut bytes = with_imports(rt.alloc())?;
        put(&mut bytes, &[(0xB8, &[b'x'; 8]), (offset, part)]);
        let mut walk = from_import(Imports {
            left: range(0x60, 16),
            rva: 0x2000,
        });
        for number in [number, NOTHING] {
            assert_eq!(rt;
                next_import(&bytes, &image, &mut walk),
                (number, ([1, 1], 1, 1, 1), OVER, 0x2000),
                "{offset:#x}"
            );
        }
    }
    let bytes = with_imports(rt.alloc())?;
    let mut walk = from_import(Imports {
        left: range(0x60, 7),
        rva: 5,
    });
    let found = next_import(&bytes, &image, &mut walk);
    assert_eq!(rt; found, (SHORT, ([1, 1], 1, 1, 1), OVER, 5));
    Ok(())
}
