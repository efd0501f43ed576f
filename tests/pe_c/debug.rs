//! The debug directory's table, and the records that its entries lead to.

use super::failures::{NONE, Said, told};
use super::made::*;
use super::steps::pe_c_next_pogo_entry;
use crate::debug::{
    pe_c_codeview, pe_c_debug_data, pe_c_debug_record, pe_c_next_debug_entry, pe_c_symbol_key,
};
use crate::failures::{FAILED_DEBUG_RECORD, FailedItem, pe_c_item_failure};
use crate::headers::{RANGE_DEBUG_ENTRIES, pe_c_image_range};
use calls_headers::debug::DebugRecords;
use calls_headers::debug::records::{Pdb20, Pogo, Repro, SymbolKey};
use calls_headers::debug::walks::PogoEntry;
use pe_images::image as bytes_of;
use pe_records::{ImageDebugDirectory, VCFeatureInfo};

/// An image with its debug directory there.
fn with_table(virtual_address: u32, size: u32) -> Image {
    having(image(X64), 6, directory(virtual_address, size))
}

/// The directory's address 0x1010 is the offset 0x10. In permissive mode a table is truncated where the bytes end, and one that
/// starts after them has no bytes.
#[test]
fn tables_of_entries(rt: HostRuntime) {
    let bytes = [0; 0x50];
    let at = |image: &Image, mode| {
        let mut out = untouched();
        let answer = pe_c_image_range(
            &view(&bytes, &in_mode(image, mode), &sections()),
            RANGE_DEBUG_ENTRIES,
            &mut out,
        );
        (answer, of_range(out))
    };
    let there = with_table(0x1010, 0x38);
    assert_eq!(rt; at(&there, STRICT), (DONE, [0x10, 0x38]));
    assert_eq!(rt; at(&with_table(0, 0), STRICT), (NOTHING, UNTOUCHED));
    let long = with_table(0x1010, 0x41);
    assert_eq!(rt; at(&long, STRICT), (DEBUG_BOUNDS, UNTOUCHED));
    assert_eq!(rt; at(&long, PERMISSIVE), (DONE, [0x10, 0x40]));
    let (answer, [_, length]) = at(&with_table(0x1100, 0x1C), PERMISSIVE);
    assert_eq!(rt; (answer, length), (DONE, 0));
}

// ---- records

/// An image of the offsets from 0 on: five entries of 28 bytes at 0x10, whose types, sizes and offsets stand 12, 16 and 24
/// bytes into them, and their records after.
fn with_records(alloc: Global) -> Result<Vec<u8>, Fail> {
    Ok(bytes_of(
        alloc,
        0x140,
        &[
            (0x1C, &[2, 0, 0, 0, 30, 0, 0, 0, 0xFF, 0, 0, 0, 0xA0]),
            (0x38, &[12, 0, 0, 0, 20, 0, 0, 0, 0xFF, 0, 0, 0, 0xC0]),
            (0x54, &[13, 0, 0, 0, 28, 0, 0, 0, 0xFF, 0, 0, 0, 0xE0]),
            (0x70, &[16, 0, 0, 0, 7, 0, 0, 0, 0xFF, 0, 0, 0, 0, 1]),
            (0x8C, &[20, 0, 0, 0, 4, 0, 0, 0, 0xFF, 0, 0, 0, 0x10, 1]),
            // PDB 7.0: a signature, a GUID, an age of 9 and a name
            (
                0xA0,
                b"RSDS\x10\x11\x12\x13\x14\x15\x16\x17\x18\x19\x1A\x1B\x1C\x1D\x1E\x1F\x09\0\0\0a.pdb\0",
            ),
            // VC feature: five counts
            (0xC0, &[1, 0, 0, 0, 2, 0, 0, 0, 3, 0, 0, 0, 4, 0, 0, 0, 5]),
            // POGO: a signature and entries of 24 bytes
            (
                0xE0,
                b"GCTL\0\x10\0\0\x03\0\0\0.mn\0\0\x20\0\0\x05\0\0\0.x\0\0",
            ),
            // Repro: a length of 3 and a hash
            (0x100, &[3, 0, 0, 0, 0xAA, 0xBB, 0xCC]),
            // further characteristics
            (0x110, &[0x41, 0x02, 0x03, 0x04]),
        ],
    )?)
}

/// The entry of CodeView leads to a record of PDB 2.0, that of Repro has no record, and the others are of no known type.
fn with_old_records(alloc: Global) -> Result<Vec<u8>, Fail> {
    let mut bytes = with_records(alloc)?;
    put(
        &mut bytes,
        &[
            (0x20, &[23]),
            (0x38, &[99]),
            (0x54, &[98]),
            (0x74, &[0]),
            (0x8C, &[97]),
            // PDB 2.0: a signature, an offset, another signature, an age of 6 and a name
            (
                0xA0,
                b"NB10\x01\x02\x03\x04\x05\x06\x07\x08\x06\0\0\0b.pdb\0\0",
            ),
        ],
    );
    Ok(bytes)
}

fn key_of(bytes: &[u8], image: &Image, mode: u32) -> (u32, SymbolKey) {
    let mut out = filled();
    let answer = pe_c_symbol_key(&view(bytes, &in_mode(image, mode), &sections()), &mut out);
    (answer, out)
}

/// A CodeView record of 30 bytes at offset 0xA0 of the image with records, and what is refused. Nothing but the record is
/// read.
#[test]
fn records_that_stand_alone(rt: HostRuntime) -> Result<(), Fail> {
    let mut bytes = with_records(rt.alloc())?;
    put(&mut bytes, &[(0x10, &[0xFF; 0x80])]);
    let whole = (DONE, reported_of_records().key);
    for (record, (number, key)) in [
        (range(0xA0, 30), whole),
        (range(0xA0, 23), (DEBUG_SIZE, filled())),
        (range(0xA1, 30), (NOTHING, filled())),
        (range(0x123, 30), (SHORT, filled())),
    ] {
        let mut out = filled();
        assert_eq!(rt; pe_c_codeview(&bytes, &record, &mut out), number);
        assert_eq!(rt; raw(&out), raw(&key));
    }
    Ok(())
}

/// What a call wrote that returns `DONE`: another number stands among the results.
fn reported(answer: u32, out: DebugRecords) -> DebugRecords {
    DebugRecords {
        key_result: out.key_result | answer,
        ..out
    }
}

/// The records of the first entries.
fn reported_by(bytes: &[u8], image: &Image, mode: u32) -> DebugRecords {
    let mut out = filled();
    let answer = pe_c_debug_data(&view(bytes, &in_mode(image, mode), &sections()), &mut out);
    reported(answer, out)
}

/// The record of an entry.
fn reported_of(bytes: &[u8], mode: u32, entry: &ImageDebugDirectory) -> DebugRecords {
    let mut out = filled();
    let answer = pe_c_debug_record(bytes, mode, entry, &mut out);
    reported(answer, out)
}

/// Where nothing goes out and each result is this one.
fn nothing_but(number: u32) -> DebugRecords {
    DebugRecords {
        key_result: number,
        pdb20_result: number,
        repro_result: number,
        pogo_result: number,
        embedded_result: number,
        checksum_result: number,
        features_result: number,
        characteristics_result: number,
        ..filled()
    }
}

/// The names, the hash and the entries stand after 24, 4 and 4 bytes of their records.
fn reported_of_records() -> DebugRecords {
    DebugRecords {
        key: SymbolKey {
            guid: *b"\x10\x11\x12\x13\x14\x15\x16\x17\x18\x19\x1A\x1B\x1C\x1D\x1E\x1F",
            age: 9,
            spare: 0,
            name: range(0xB8, 6),
        },
        key_result: DONE,
        features: VCFeatureInfo {
            pre_vc_plusplus_count: 1,
            c_and_cplusplus_count: 2,
            guard_stack_count: 3,
            sdl_count: 4,
            guard_count: 5,
        },
        features_result: DONE,
        characteristics: 0x0403_0241,
        characteristics_result: DONE,
        repro: Repro {
            hash: range(0x104, 3),
            has_hash: 1,
            spare: 0,
        },
        repro_result: DONE,
        pogo: Pogo {
            entries: range(0xE4, 24),
            signature: 0x4C54_4347,
            spare: 0,
        },
        pogo_result: DONE,
        ..nothing_but(NOTHING)
    }
}

const TABLE_SIZE: u32 = 5 * 28;

#[test]
fn records_of_debug_data(rt: HostRuntime) -> Result<(), Fail> {
    let bytes = with_records(rt.alloc())?;
    let image = with_table(0x1010, TABLE_SIZE);
    let want = reported_of_records();
    assert_eq!(rt; raw(&reported_by(&bytes, &image, STRICT)), raw(&want));
    let (answer, key) = key_of(&bytes, &image, STRICT);
    assert_eq!(rt; (answer, raw(&key)), (DONE, raw(&want.key)));
    Ok(())
}

/// The name of PDB 2.0 stands after 16 bytes. A time stamp of Repro has no range. In strict mode a CodeView record of 23 bytes is
/// too small to be one of PDB 7.0, and with 15 it is too small for both.
#[test]
fn older_records_in_strict_mode(rt: HostRuntime) -> Result<(), Fail> {
    let mut bytes = with_old_records(rt.alloc())?;
    let image = with_table(0x1010, TABLE_SIZE);
    let want = DebugRecords {
        key_result: DEBUG_SIZE,
        pdb20: Pdb20 {
            name: range(0xB0, 7),
            offset: 0x0403_0201,
            signature: 0x0807_0605,
            age: 6,
            spare: 0,
        },
        pdb20_result: DONE,
        repro: Repro {
            hash: range(0, 0),
            has_hash: 0,
            spare: 0,
        },
        repro_result: DONE,
        ..nothing_but(NOTHING)
    };
    assert_eq!(rt; raw(&reported_by(&bytes, &image, STRICT)), raw(&want));
    put(&mut bytes, &[(0x20, &[15])]);
    for (mode, number) in [(STRICT, DEBUG_SIZE), (PERMISSIVE, NOTHING)] {
        let said = reported_by(&bytes, &image, mode);
        assert_eq!(rt; (said.key_result, said.pdb20_result), (number, number));
    }
    Ok(())
}

// ---- entries

/// The first entry of each type, whole ones alone; a second one of a type is never read.
#[test]
fn first_entries_of_types(rt: HostRuntime) -> Result<(), Fail> {
    let mut bytes = with_records(rt.alloc())?;
    let want = DebugRecords {
        characteristics: filled(),
        characteristics_result: NOTHING,
        ..reported_of_records()
    };
    let truncated = with_table(0x1010, TABLE_SIZE - 1);
    assert_eq!(rt; raw(&reported_by(&bytes, &truncated, STRICT)), raw(&want));
    // the last entry is of CodeView too, and leads nowhere
    put(&mut bytes, &[(0x8C, &[2]), (0x98, &[0xFF; 4])]);
    let image = with_table(0x1010, TABLE_SIZE);
    assert_eq!(rt; raw(&reported_by(&bytes, &image, STRICT)), raw(&want));
    Ok(())
}

/// The entries of the table at 0x10.
fn entries_of(bytes: &[u8]) -> [ImageDebugDirectory; 5] {
    let (mut entries, mut walk) = ([filled(); 5], range(0x10, u64::from(TABLE_SIZE)));
    for entry in &mut entries {
        pe_c_next_debug_entry(bytes, &mut walk, entry);
    }
    entries
}

/// The record of an entry that a caller has is that of the image, by its type; and the table is not read.
#[test]
fn records_of_entries(rt: HostRuntime) -> Result<(), Fail> {
    let mut bytes = with_records(rt.alloc())?;
    let mut entries = entries_of(&bytes);
    put(&mut bytes, &[(0x10, &[0xFF; 0x8C])]);
    let (whole, none) = (reported_of_records(), nothing_but(NOTHING));
    let mut wanted = [none; 5];
    (wanted[0].key, wanted[0].key_result) = (whole.key, DONE);
    (wanted[1].features, wanted[1].features_result) = (whole.features, DONE);
    (wanted[2].pogo, wanted[2].pogo_result) = (whole.pogo, DONE);
    (wanted[3].repro, wanted[3].repro_result) = (whole.repro, DONE);
    wanted[4].characteristics = whole.characteristics;
    wanted[4].characteristics_result = DONE;
    for (entry, want) in entries.iter().zip(wanted) {
        assert_eq!(rt; raw(&reported_of(&bytes, STRICT, entry)), raw(&want));
    }
    // in an image as loaded the record stands at its RVA
    entries[4].address_of_raw_data = 0x111;
    let found = reported_of(&bytes, MAPPED, &entries[4]);
    let found = (found.characteristics_result, found.characteristics);
    assert_eq!(rt; found, (DONE, 0x0004_0302));
    put(&mut bytes, &[(0xA0, b"NB10")]);
    let found = reported_of(&bytes, STRICT, &entries[0]);
    let (old, key) = (found.pdb20, found.key);
    assert_eq!(rt;
        (found.pdb20_result, of_range(old.name)),
        (DONE, [0xB0, 14])
    );
    assert_eq!(rt; (old.offset, found.key_result), (0x1312_1110, NOTHING));
    assert!(rt; is_filled(&key));
    Ok(())
}

/// An entry of a type whose record stands at an offset and has so many bytes.
fn entry(data_type: u32, offset: u32, size: u32) -> ImageDebugDirectory {
    ImageDebugDirectory {
        data_type,
        size_of_data: size,
        pointer_to_raw_data: offset,
        ..filled()
    }
}

/// An embedded PDB of 5 bytes at offset 3, and what refuses it. Both modes refuse the same.
#[test]
fn embedded_pdbs(rt: HostRuntime) -> Result<(), Fail> {
    let bytes = bytes_of(rt.alloc(), 16, &[(3, b"MPDB\x01\x02\0\0zipped")])?;
    let read = |mode, offset, size| {
        let found = reported_of(&bytes, mode, &entry(17, offset, size));
        (found.embedded_result, found.embedded)
    };
    let (number, found) = read(STRICT, 3, 13);
    assert_eq!(rt; (number, of_range(found.compressed)), (DONE, [11, 5]));
    assert_eq!(rt; (found.uncompressed_size, found.spare), (0x201, 0));
    for (mode, offset, size, number) in [
        (STRICT, 3, 7, DEBUG_SIZE),
        (PERMISSIVE, 4, 8, BAD_MAGIC),
        (PERMISSIVE, 3, 14, DEBUG_DATA),
    ] {
        let (result, found) = read(mode, offset, size);
        assert_eq!(rt; (result, is_filled(&found)), (number, true));
    }
    Ok(())
}

/// A checksum of 3 bytes after the name of its algorithm, and what refuses it. Both modes refuse the same.
#[test]
fn checksums_of_pdbs(rt: HostRuntime) -> Result<(), Fail> {
    let bytes = bytes_of(rt.alloc(), 16, &[(3, b"SHA256\0\xAA\0\xBB")])?;
    let read = |mode, size| {
        let found = reported_of(&bytes, mode, &entry(19, 3, size));
        (found.checksum_result, found.checksum)
    };
    let (number, found) = read(STRICT, 10);
    assert_eq!(rt; (number, of_range(found.algorithm)), (DONE, [3, 6]));
    assert_eq!(rt; of_range(found.checksum), [10, 3]);
    for (mode, size, number) in [(STRICT, 6, DEBUG_SIZE), (PERMISSIVE, 14, DEBUG_DATA)] {
        let (result, found) = read(mode, size);
        assert_eq!(rt; (result, is_filled(&found)), (number, true));
    }
    Ok(())
}

/// Of an image the first entries of both types.
#[test]
fn managed_records_of_an_image(rt: HostRuntime) -> Result<(), Fail> {
    let mut bytes = with_records(rt.alloc())?;
    put(
        &mut bytes,
        &[
            (0x1C, &[17, 0, 0, 0, 13]),
            (0xA0, b"MPDB\x01\x02\0\0zippe"),
            (0x38, &[19, 0, 0, 0, 10]),
            (0xC0, b"SHA256\0\xAA\0\xBB"),
        ],
    );
    let found = reported_by(&bytes, &with_table(0x1010, TABLE_SIZE), STRICT);
    let (embedded, checksum) = (found.embedded, found.checksum);
    assert_eq!(rt;
        (found.embedded_result, found.checksum_result),
        (DONE, DONE)
    );
    assert_eq!(rt;
        (of_range(embedded.compressed), embedded.uncompressed_size),
        ([0xA8, 5], 0x201)
    );
    let found = (of_range(checksum.algorithm), of_range(checksum.checksum));
    assert_eq!(rt; found, ([0xC0, 6], [0xC7, 3]));
    Ok(())
}

// ---- the entries of the debug directory and of POGO, one a step

fn step(bytes: &[u8], walk: &mut Range) -> (u32, ImageDebugDirectory, [u64; 2]) {
    let mut out = filled();
    let answer = pe_c_next_debug_entry(bytes, walk, &mut out);
    (answer, out, of_range(*walk))
}

/// An entry: numbers of 4, 4, 2, 2, 4, 4, 4 and 4 bytes.
#[test]
fn debug_entries_in_turn(rt: HostRuntime) {
    // the bytes from 1 on, at offset 3, and after them an entry of type 20
    let mut bytes = [0; 59];
    for i in 0..28u8 {
        bytes[3 + usize::from(i)] = i + 1;
    }
    bytes[43] = 20;
    let first = ImageDebugDirectory {
        characteristics: 0x0403_0201,
        time_date_stamp: 0x0807_0605,
        major_version: 0x0A09,
        minor_version: 0x0C0B,
        data_type: 0x100F_0E0D,
        size_of_data: 0x1413_1211,
        address_of_raw_data: 0x1817_1615,
        pointer_to_raw_data: 0x1C1B_1A19,
    };
    let second = ImageDebugDirectory {
        data_type: 20,
        ..ImageDebugDirectory::default()
    };
    let mut walk = range(3, 56);
    assert_eq!(rt; step(&bytes, &mut walk), (DONE, first, [31, 28]));
    assert_eq!(rt; step(&bytes, &mut walk), (DONE, second, [59, 0]));
    assert_eq!(rt; step(&bytes, &mut walk), (NOTHING, filled(), [59, 0]));
    // shows: calls_base/src/walks.rt next_entry Short
    let mut cut = range(3, 55);
    assert_eq!(rt; step(&bytes, &mut cut), (DONE, first, [31, 27]));
    assert_eq!(rt; step(&bytes, &mut cut), (SHORT, filled(), OVER));
}

// ---- POGO

/// What an entry of POGO is before a call that hands out another: its name, address and size.
const NO_PART: ([u64; 2], [u32; 2]) = (UNTOUCHED, [5, 6]);

fn step_of_pogo(bytes: &[u8], walk: &mut Range) -> (u32, ([u64; 2], [u32; 2]), [u64; 2]) {
    let mut out = PogoEntry {
        name: untouched(),
        rva: 5,
        size: 6,
    };
    let answer = pe_c_next_pogo_entry(bytes, walk, &mut out);
    let PogoEntry { name, rva, size } = out;
    (answer, (of_range(name), [rva, size]), of_range(*walk))
}

/// At offset 1: an address, a size, a name with its zero, and any bytes up to a multiple of four from the entry's start. The
/// names have 4, 2 and 1 bytes.
const POGO: &[u8] =
    b"?\0\x10\0\0\x03\0\0\0.mn\0\0\x20\0\0\x05\0\0\0x\0??\x01\x02\x03\x04\x05\x06\x07\x08\0???";

#[test]
fn pogo_entries_in_turn(rt: HostRuntime) {
    let mut walk = range(1, 36);
    for (name, numbers, after) in [
        ([9, 4], [0x1000, 3], [13, 24]),
        ([21, 2], [0x2000, 5], [25, 12]),
        ([33, 1], [0x0403_0201, 0x0807_0605], [37, 0]),
    ] {
        let found = step_of_pogo(POGO, &mut walk);
        assert_eq!(rt; found, (DONE, (name, numbers), after));
    }
    assert_eq!(rt; step_of_pogo(POGO, &mut walk), (NOTHING, NO_PART, [37, 0]));
}

/// Fewer than eight bytes are no entry; a name has an end, and the bytes up to a multiple of four are there. After a
/// refusal the walk is over.
#[test]
fn pogo_entries_that_are_refused(rt: HostRuntime) {
    for (length, number) in [(7, SHORT), (8, POGO_NAME), (11, POGO_NAME)] {
        // after the first entry, the second, cut after so many bytes
        let mut walk = range(1, 12 + length);
        let first = (DONE, ([9, 4], [0x1000, 3]), [13, length]);
        assert_eq!(rt; step_of_pogo(POGO, &mut walk), first);
        let refused = (number, NO_PART, OVER);
        assert_eq!(rt; step_of_pogo(POGO, &mut walk), refused, "of {length} bytes");
    }
}

// ---- why debug records are refused: the result of the call that reads each, and the numbers of its error

/// The record of so many bytes at a file offset, read as one of a kind.
fn said(bytes: &[u8], mode: u32, record: (u32, u32), kind: u32) -> Said {
    let entry = ImageDebugDirectory {
        characteristics: 0,
        time_date_stamp: 0,
        major_version: 0,
        minor_version: 0,
        data_type: 77,
        size_of_data: record.1,
        address_of_raw_data: 0x1234,
        pointer_to_raw_data: record.0,
    };
    let item = FailedItem {
        entry,
        number: mode,
        record: kind,
        ..filled()
    };
    let mut out = NO_FAILURE;
    let answer = pe_c_item_failure(bytes, FAILED_DEBUG_RECORD, &item, &mut out);
    told(answer, &out)
}

/// The first error of each kind at the end of 96 bytes, at 50h, of which 16 are there.
#[test]
fn truncated(rt: HostRuntime) -> Result<(), Fail> {
    let bytes = bytes_of(
        rt.alloc(),
        96,
        &[
            (0x20, b"RSDS"),
            (0x4E, b"RSDS"),
            (0x56, b"NB10"),
            (0x5D, b"MPD"),
        ],
    )?;
    for (kind, record, wanted) in [
        // A record of PDB 7.0 has 24 bytes: its signature is there, and the 20 after it are not.
        (0, (0x4E, 24), (SHORT, [0x52, 20, 0])),
        (0, (0x5E, 24), (SHORT, [0x5E, 4, 0])),
        // One of PDB 2.0 has 16.
        (1, (0x56, 16), (SHORT, [0x5A, 12, 0])),
        (1, (0x60, 16), (SHORT, [0x60, 4, 0])),
        // Five counts of VC features, whatever the size is.
        (2, (0x4D, 0), (SHORT, [0x4D, 20, 0])),
        (3, (0x5D, 4), (SHORT, [0x5D, 4, 0])),
        // The length of a hash, the signatures of POGO and of a portable PDB with its size.
        (4, (0x5D, 36), (SHORT, [0x5D, 4, 0])),
        (5, (0x5D, 36), (SHORT, [0x5D, 4, 0])),
        (6, (0x5D, 8), (SHORT, [0x5D, 8, 0])),
        // What follows a header, as many bytes as the entry says.
        (0, (0x20, 65), (DEBUG_DATA, [0, 65, 0])),
        (7, (0x20, 65), (DEBUG_DATA, [0, 65, 0])),
    ] {
        let found = said(&bytes, STRICT, record, kind);
        assert_eq!(rt; found, (DONE, wanted, 0), "{kind} {record:?}");
    }
    assert_eq!(rt; said(&bytes, STRICT, (0x20, 64), 0), NONE);
    Ok(())
}

/// Sizes that are too small, numbers that are wrong, and a length that a record states.
#[test]
fn sizes_and_signatures(rt: HostRuntime) -> Result<(), Fail> {
    let bytes = bytes_of(
        rt.alloc(),
        96,
        &[
            (0x20, b"RSDS"),
            (0x30, b"LTCG"),
            (0x34, b"GCTL"),
            (0x38, &[0x25]),
            (0x40, b"MPDB"),
            (0x48, b"SHA256\0"),
        ],
    )?;
    for (kind, record, wanted) in [
        (0, (0x20, 23), (DEBUG_SIZE, [0, 0, 23])),
        (1, (0x20, 15), (DEBUG_SIZE, [0, 0, 15])),
        // The hash of 37 bytes at 3Ch would end at 61h.
        (4, (0x38, 8), (DEBUG_DATA, [0, 37, 0])),
        (5, (0x34, 4), (POGO_SIZE, [0, 0, 4])),
        (5, (0x34, 45), (DEBUG_DATA, [0, 45, 0])),
        (6, (0x40, 7), (DEBUG_SIZE, [0, 0, 7])),
        // "LTCG" as a number.
        (6, (0x30, 8), (BAD_MAGIC, [0, 0, 0x4743_544C])),
        (6, (0x40, 33), (DEBUG_DATA, [0, 33, 0])),
        // No zero in the name of the algorithm.
        (7, (0x48, 6), (DEBUG_SIZE, [0, 0, 6])),
    ] {
        let found = said(&bytes, STRICT, record, kind);
        assert_eq!(rt; found, (DONE, wanted, 0), "{kind} {record:?}");
    }
    // What strict mode alone refuses, records with other signatures, records that are there.
    for (mode, kind, record) in [
        (PERMISSIVE, 0, (0x20, 23)),
        (STRICT, 1, (0x20, 16)),
        (STRICT, 5, (0x34, 44)),
        (STRICT, 8, (0x5F, 4)),
    ] {
        assert_eq!(rt; said(&bytes, mode, record, kind), NONE, "{kind} {record:?}");
    }
    Ok(())
}
