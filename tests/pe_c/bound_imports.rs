//! Bound imports: the directory, its DLLs and their forwarders, one a step.

use super::made::*;
use super::steps::{pe_c_next_bound_forwarder, pe_c_next_bound_import};
use crate::directories::pe_c_bound_imports;
use calls_directories::directories::bound_imports::{BoundForwarder, BoundImport};

/// The directory at offset 4, 63 bytes: two DLLs, of which the first forwards to one, and an entry without a name. The last
/// name is not NUL-terminated. By hand from the layout of winnt.h.
pub(crate) const BYTES: &[u8; 67] = b"skip\x01\0\0\x3F\x28\0\x01\0\x02\0\0\x3F\x30\0\0\0\
    \x03\0\0\x3F\x38\0\0\0\0\0\0\0\0\0\0\0\0\0\0\0\0\0\0\0\
    one.dll\0two.dll\0six.dll";

/// What `out` is before each call.
const NO_IMPORT: BoundImport = BoundImport {
    name: NO_BYTES,
    forwarders: NO_BYTES,
    time_date_stamp: 1,
    spare: 2,
};

const NO_FORWARDER: BoundForwarder = BoundForwarder {
    name: NO_BYTES,
    time_date_stamp: 1,
    spare: 2,
};

/// The directory.
fn table() -> Range {
    range(4, 63)
}

fn find(bytes: &[u8], image: &Image) -> (u32, [u64; 2]) {
    let mut out = untouched();
    let answer = pe_c_bound_imports(&view(bytes, image, &[]), &mut out);
    (answer, of_range(out))
}

#[test]
fn finds_the_directory(rt: HostRuntime) -> Result<(), Fail> {
    let bound = having(image(X64), 11, directory(4, 63));
    assert_eq!(rt; find(BYTES, &bound), (DONE, [4, 63]));
    assert_eq!(rt; find(BYTES, &image(X64)), (NOTHING, UNTOUCHED));
    let longer = having(image(X64), 11, directory(4, 64));
    assert_eq!(rt; find(BYTES, &longer), (SHORT, UNTOUCHED));
    Ok(())
}

/// Name, forwarders, time stamp, spare.
fn flat(import: BoundImport) -> ([u64; 2], [u64; 2], u32, u32) {
    let BoundImport {
        name,
        forwarders,
        time_date_stamp,
        spare,
    } = import;
    (of_range(name), of_range(forwarders), time_date_stamp, spare)
}

type Step<T> = (u32, T, [u64; 2]);

fn step(bytes: &[u8], table: Range, mut walk: Range) -> Step<([u64; 2], [u64; 2], u32, u32)> {
    let mut out = NO_IMPORT;
    let answer = pe_c_next_bound_import(bytes, &table, &mut walk, &mut out);
    (answer, flat(out), of_range(walk))
}

#[test]
fn imports_in_turn(rt: HostRuntime) -> Result<(), Fail> {
    let first = ([0x2C, 7], [12, 8], 0x3F00_0001, 0);
    assert_eq!(rt; step(BYTES, table(), table()), (DONE, first, [20, 47]));
    // The name of the second is the end of the bytes.
    // shows: calls_directories/src/directories/bound_imports.rt range_at BoundImportName
    let refused = (DIRECTORY_BOUND_IMPORT_NAME, flat(NO_IMPORT), OVER);
    assert_eq!(rt; step(BYTES, table(), range(20, 47)), refused);
    let mut ended = *BYTES;
    ended[66] = 0;
    let second = ([0x3C, 6], [28, 0], 0x3F00_0003, 0);
    let found = step(&ended, table(), range(20, 47));
    assert_eq!(rt; found, (DONE, second, [28, 39]));
    // A byte of no UTF-8 text.
    ended[61] = 0xFF;
    assert_eq!(rt; step(&ended, table(), range(20, 47)), refused);
    // An entry without a name, and an entry without its forwarder.
    let want = (NOTHING, flat(NO_IMPORT), [28, 39]);
    assert_eq!(rt; step(BYTES, table(), range(28, 39)), want);
    let short = (SHORT, flat(NO_IMPORT), OVER);
    assert_eq!(rt; step(BYTES, table(), range(4, 15)), short);
    Ok(())
}

fn step_forwarder(bytes: &[u8], table: Range, mut walk: Range) -> Step<([u64; 2], u32, u32)> {
    let mut out = NO_FORWARDER;
    let answer = pe_c_next_bound_forwarder(bytes, &table, &mut walk, &mut out);
    let flat = (of_range(out.name), out.time_date_stamp, out.spare);
    (answer, flat, of_range(walk))
}

#[test]
fn forwarders_in_turn(rt: HostRuntime) -> Result<(), Fail> {
    let none = ([0, 0], 1, 2);
    let two = ([0x34, 7], 0x3F00_0002, 0);
    let found = step_forwarder(BYTES, table(), range(12, 8));
    assert_eq!(rt; found, (DONE, two, [20, 0]));
    let found = step_forwarder(BYTES, table(), range(20, 0));
    assert_eq!(rt; found, (NOTHING, none, [20, 0]));
    let found = step_forwarder(BYTES, table(), range(12, 7));
    assert_eq!(rt; found, (SHORT, none, OVER));
    let refused = (DIRECTORY_BOUND_IMPORT_NAME, none, OVER);
    assert_eq!(rt; step_forwarder(BYTES, range(4, 55), range(12, 8)), refused);
    Ok(())
}
