//! The list of the functions of all delay-loaded DLLs, whose names are read together in a room of the caller.

use super::made::*;
use crate::directories::pe_c_list_all_delayed_functions;
use calls_directories::directories::all_delay_imports::{LibraryFunction, LibraryFunctions};
use calls_directories::directories::delay_imports::{DelayedFunction, DelayedFunctions};
use pe_images::image as bytes_of;

/// What is in the array before a call.
const NO_FUNCTION: LibraryFunction = LibraryFunction {
    function: DelayedFunction {
        name: Range {
            offset: 1,
            length: 1,
        },
        ordinal: 1,
        has_name: 1,
    },
    library_name: Range {
        offset: 1,
        length: 1,
    },
    library: 1,
};

/// The range of the name, the ordinal or hint, and whether there is a name; the range of the DLL's name, its index.
type Fields = ([u64; 2], u32, u32, [u64; 2], u64);

const UNTOUCHED: Fields = ([1, 1], 1, 1, [1, 1], 1);

fn of_function(it: LibraryFunction) -> Fields {
    let DelayedFunction {
        name,
        ordinal,
        has_name,
    } = it.function;
    let library = of_range(it.library_name);
    (of_range(name), ordinal, has_name, library, it.library)
}

/// The entries of the directory that are left, those of the DLL's table and its attributes; the DLL's name, and how many were begun.
type Walk = ([u64; 2], [u64; 2], u32, [u64; 2], u64);

fn of_walk(walk: LibraryFunctions) -> Walk {
    let LibraryFunctions {
        libraries,
        functions,
        library_name,
        begun,
    } = walk;
    (
        of_range(libraries),
        of_range(functions.left),
        functions.attributes,
        of_range(library_name),
        begun,
    )
}

/// A walk before the first DLL of a range of the directory.
fn walk_over(libraries: [u64; 2]) -> LibraryFunctions {
    LibraryFunctions {
        libraries: range(libraries[0], libraries[1]),
        functions: DelayedFunctions {
            left: range(0, 0),
            attributes: 0,
            spare: 0,
        },
        library_name: range(0, 0),
        begun: 0,
    }
}

/// Two entries at 10h, and one of zeros: the DLL `a` with a table at 80h, of a name `f` with the hint 7 and of the ordinal 17, and
/// the DLL `bc` with one at D0h, of the ordinal 5 and of a name `gh` with the hint 9.
const PARTS: [(usize, &[u8]); 12] = [
    (0x10, &[1, 0, 0, 0, 0xA0, 0x10]),
    (0x20, &[0x80, 0x10]),
    (0x30, &[1, 0, 0, 0, 0xA2, 0x10]),
    (0x40, &[0xD0, 0x10]),
    (0x80, &[0xB0, 0x10]),
    (0x88, &[17, 0, 0, 0, 0, 0, 0, 0x80]),
    (0xA0, b"a"),
    (0xA2, b"bc"),
    (0xB0, b"\x07\0f"),
    (0xC0, b"\x09\0gh"),
    (0xD0, &[5, 0, 0, 0, 0, 0, 0, 0x80]),
    (0xD8, &[0xC0, 0x10]),
];

fn with_dlls(alloc: Global) -> Result<Vec<u8>, Fail> {
    Ok(bytes_of(alloc, 0x100, &PARTS)?)
}

const FUNCTIONS: [Fields; 4] = [
    ([0xB2, 1], 7, 1, [0xA0, 1], 0),
    (OVER, 17, 0, [0xA0, 1], 0),
    (OVER, 5, 0, [0xA2, 2], 1),
    ([0xC2, 2], 9, 1, [0xA2, 2], 1),
];

/// A list with room for so many names and entries: the result, how many were written, and the entries.
fn list(
    bytes: &[u8],
    image: &Image,
    walk: &mut LibraryFunctions,
    names: usize,
    entries: usize,
) -> (u32, u64, [Fields; 5]) {
    let (mut runs, mut room, mut written) = ([RUN; 8], [NO_FUNCTION; 5], 77);
    let answer = pe_c_list_all_delayed_functions(
        &view(bytes, image, &sections()),
        walk,
        &mut runs[..names],
        &mut room[..entries],
        &mut written,
    );
    (answer, written, room.map(of_function))
}

#[test]
fn all_delayed_functions_in_their_order(rt: HostRuntime) -> Result<(), Fail> {
    let bytes = with_dlls(rt.alloc())?;
    let image = image(X64);
    let [first, second, third, fourth] = FUNCTIONS;
    let mut walk = walk_over([0x10, 96]);
    let found = list(&bytes, &image, &mut walk, 8, 5);
    assert_eq!(rt; found, (DONE, 4, [first, second, third, fourth, UNTOUCHED]));
    let end = ([0x50, 0x20], [0xE0, 0x20], 1, [0xA2, 2], 2);
    assert_eq!(rt; of_walk(walk), end);
    // One a call: a DLL is left once the first function of the next is asked for.
    let mut walk = walk_over([0x10, 96]);
    for (function, after) in [
        (first, ([0x30, 0x40], [0x88, 0x78], 1, [0xA0, 1], 1)),
        (second, ([0x30, 0x40], [0x90, 0x70], 1, [0xA0, 1], 1)),
        (third, ([0x50, 0x20], [0xD8, 0x28], 1, [0xA2, 2], 2)),
    ] {
        let (answer, written, [entry, ..]) = list(&bytes, &image, &mut walk, 0, 1);
        let found = (answer, written, entry, of_walk(walk));
        assert_eq!(rt; found, (DONE, 1, function, after));
    }
    // The second entry is truncated: what comes before it is listed, and the walk is over after the error.
    let mut walk = walk_over([0x10, 63]);
    let (answer, written, _) = list(&bytes, &image, &mut walk, 8, 5);
    assert_eq!(rt; (answer, written), (DONE, 2));
    let (answer, written, _) = list(&bytes, &image, &mut walk, 8, 5);
    assert_eq!(rt; (answer, written, of_walk(walk).0), (SHORT, 77, OVER));
    Ok(())
}
