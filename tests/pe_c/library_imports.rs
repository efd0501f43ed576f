//! The list of the imports of all libraries, whose names are read together in a room of the caller.

use super::imports::{NO_IMPORT as ONLY_ONES, with_imports};
use super::made::*;
use crate::names::pe_c_list_all_imports;
use calls_directories::names::all_imports::{LibraryImport, LibraryImports};
use calls_directories::names::imports::{Import, Imports, Libraries};

/// What is in the array before a call.
const NO_IMPORT: LibraryImport = LibraryImport {
    import: ONLY_ONES,
    library_name: Range {
        offset: 1,
        length: 1,
    },
    library: 1,
    hint_rva: 1,
    spare: 1,
};

/// The range of the name, the slot, the ordinal or hint, and whether there is a name; the range of the library's name, its
/// index; the RVA of the hint.
type Fields = (([u64; 2], u64, u32, u32), ([u64; 2], u64), u32);

const UNTOUCHED: Fields = (([1, 1], 1, 1, 1), ([1, 1], 1), 1);

fn of_import(it: LibraryImport) -> Fields {
    let Import {
        name,
        rva,
        ordinal,
        has_name,
    } = it.import;
    (
        (of_range(name), rva, ordinal, has_name),
        (of_range(it.library_name), it.library),
        it.hint_rva,
    )
}

/// The next record, whether the libraries are over, the entries that are left and the next slot; the library's name, and how many
/// were begun.
type Walk = (u64, u32, [u64; 2], u64, [u64; 2], u64);

fn of_walk(walk: LibraryImports) -> Walk {
    let LibraryImports {
        libraries,
        imports,
        library_name,
        begun,
    } = walk;
    (
        libraries.next,
        libraries.is_over,
        of_range(imports.left),
        imports.rva,
        of_range(library_name),
        begun,
    )
}

/// A walk before the library whose record is at an offset.
fn walk_at(next: u64) -> LibraryImports {
    LibraryImports {
        libraries: Libraries {
            next,
            is_over: 0,
            spare: 0,
        },
        imports: Imports {
            left: range(0, 0),
            rva: 0,
        },
        library_name: range(0, 0),
        begun: 0,
    }
}

fn with_directory(virtual_address: u32) -> Image {
    having(image(X64), 1, directory(virtual_address, 60))
}

/// A list with room for so many names and entries: the result, how many were written, and the entries.
fn list(
    bytes: &[u8],
    image: &Image,
    walk: &mut LibraryImports,
    names: usize,
    entries: usize,
) -> (u32, u64, [Fields; 4]) {
    let (mut runs, mut room, mut written) = ([RUN; 6], [NO_IMPORT; 4], 77);
    let answer = pe_c_list_all_imports(
        &view(bytes, image, &sections()),
        walk,
        &mut runs[..names],
        &mut room[..entries],
        &mut written,
    );
    (answer, written, room.map(of_import))
}

/// What the image imports: of the library `a` the name `f`, whose hint is 7, and the ordinal 17, of the library `bc` the
/// ordinal 5, whose list is the address table.
const IMPORTS: [Fields; 3] = [
    (([0xB2, 1], 0x2000, 7, 1), ([0xA0, 1], 0), 0x10B0),
    ((OVER, 0x2008, 17, 0), ([0xA0, 1], 0), 0),
    ((OVER, 0x1088, 5, 0), ([0xA2, 2], 1), 0),
];

#[test]
fn all_imports_in_their_order(rt: HostRuntime) -> Result<(), Fail> {
    let bytes = with_imports(rt.alloc())?;
    let image = with_directory(0x1010);
    let [first, second, third] = IMPORTS;
    let mut walk = walk_at(0x10);
    let found = list(&bytes, &image, &mut walk, 6, 4);
    assert_eq!(rt; found, (DONE, 3, [first, second, third, UNTOUCHED]));
    assert_eq!(rt; of_walk(walk), (0, 1, [0x90, 0], 0x1090, [0xA2, 2], 2));
    // One a call: a library is left once the first import of the next is asked for.
    let mut walk = walk_at(0x10);
    for (import, after) in [
        (first, (0x24, 0, [0x68, 8], 0x2008, [0xA0, 1], 1)),
        (second, (0x24, 0, [0x70, 0], 0x2010, [0xA0, 1], 1)),
        (third, (0x38, 0, [0x90, 0], 0x1090, [0xA2, 2], 2)),
    ] {
        let (answer, written, [entry, ..]) = list(&bytes, &image, &mut walk, 0, 1);
        let found = (answer, written, entry, of_walk(walk));
        assert_eq!(rt; found, (DONE, 1, import, after));
    }
    Ok(())
}

/// What comes before an error is listed, and the walk is over after it.
#[test]
fn errors_of_a_library(rt: HostRuntime) -> Result<(), Fail> {
    let image = with_directory(0x1010);
    let mut bytes = with_imports(rt.alloc())?;
    // The name of `bc` is not mapped.
    put(&mut bytes, &[(0x31, &[0x30])]);
    let mut walk = walk_at(0x10);
    let [first, second, _] = IMPORTS;
    let found = list(&bytes, &image, &mut walk, 0, 4);
    assert_eq!(rt; found, (DONE, 2, [first, second, UNTOUCHED, UNTOUCHED]));
    let found = list(&bytes, &image, &mut walk, 0, 4);
    assert_eq!(rt; found, (UNMAPPED, 77, [UNTOUCHED; 4]));
    assert_eq!(rt; of_walk(walk), (0, 1, OVER, 0x2010, [0xA0, 1], 1));
    Ok(())
}
