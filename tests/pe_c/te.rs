//! TE images: the header, the sections, the entries of the debug directory. The layout is `EFI_TE_IMAGE_HEADER` of the UEFI
//! specification; every number is worked out by hand.

use super::made::*;
use crate::debug::pe_c_debug_record;
use crate::headers::{pe_c_next_te_debug_entry, pe_c_te, pe_c_te_debug_entries, pe_c_te_sections};
use calls_headers::debug::DebugRecords;
use calls_headers::te::TeImage;
use pe_images::{te, te_with_debug};
use pe_records::ImageDebugDirectory;

pub(crate) fn image_of(bytes: &[u8]) -> (u32, TeImage) {
    let mut out = filled();
    let answer = pe_c_te(bytes, &mut out);
    (answer, out)
}

fn numbers(te: &TeImage) -> [u64; 9] {
    [
        te.image_base,
        u64::from(te.entry_point),
        u64::from(te.base_of_code),
        u64::from(te.rva_offset),
        u64::from(te.machine),
        u64::from(te.stripped_size),
        u64::from(te.number_of_sections),
        u64::from(te.subsystem),
        u64::from(te.spare),
    ]
}

/// Bytes that count up from 0x10, so that a field at offset 8 of 4 bytes is 0x1B1A1918; 0x1716 bytes were stripped, 0x16EE more
/// than 40.
#[test]
fn header_of_a_te_image(rt: HostRuntime) {
    let mut bytes = [0; 40];
    for i in 0..40u8 {
        bytes[usize::from(i)] = 0x10 + i;
    }
    assert_eq!(rt; image_of(&bytes).0, BAD_MAGIC);
    put(&mut bytes, &[(0, b"VZ")]);
    let (answer, te) = image_of(&bytes);
    assert_eq!(rt; answer, DONE);
    let wanted = [
        0x2726_2524_2322_2120,
        0x1B1A_1918 - 0x16EE,
        0x1F1E_1D1C - 0x16EE,
        0x16EE,
        0x1312,
        0x1716,
        0x14,
        0x15,
        0,
    ];
    assert_eq!(rt; numbers(&te), wanted);
    assert_eq!(rt; te.signature, 0x5A56);
    assert_eq!(rt; te.reloc_dir, directory(0x2B2A_2928 - 0x16EE, 0x2F2E_2D2C));
    assert_eq!(rt; te.debug_dir, directory(0x3332_3130 - 0x16EE, 0x3736_3534));
    // No debug directory stays none, and what is below the stripped bytes wraps.
    put(
        &mut bytes,
        &[(8, &[1, 0, 0, 0]), (24, &[0; 16]), (6, &[40, 0])],
    );
    let (_, te) = image_of(&bytes);
    assert_eq!(rt; (te.rva_offset, te.entry_point), (0, 1));
    put(&mut bytes, &[(6, &[42, 0])]);
    let (_, te) = image_of(&bytes);
    assert_eq!(rt; (te.rva_offset, te.entry_point), (2, u32::MAX));
    let found = (te.reloc_dir, te.debug_dir);
    assert_eq!(rt; found, (directory(0xFFFF_FFFE, 0), directory(0, 0)));
    // Fewer bytes were stripped than the header has.
    put(&mut bytes, &[(6, &[39])]);
    let (answer, te) = image_of(&bytes);
    assert_eq!(rt; (answer, is_filled(&te)), (TE_SIZE, true));
}

/// One section at 0x1100 and, in the file, 0x150, of which 0x100 are not there.
#[test]
fn sections_of_a_te_image(rt: HostRuntime) -> Result<(), Fail> {
    let mut bytes = te(rt.alloc())?;
    put(
        &mut bytes,
        &[
            (40, b".text"),
            (48, &[7]),
            (56, &[8]),
            (64, &[9]),
            (76, &[10]),
        ],
    );
    let (_, te) = image_of(&bytes);
    let [other] = sections();
    let mut room = [other; 2];
    assert_eq!(rt; pe_c_te_sections(&bytes, &te, &mut room), DONE);
    let [first, second] = room;
    assert_eq!(rt; (first.name, second), (*b".text\0\0\0", other));
    let found = (first.virtual_address, first.pointer_to_raw_data);
    assert_eq!(rt; found, (0x1000, 0x50));
    assert_eq!(rt; (first.virtual_size, first.size_of_raw_data), (7, 8));
    let found = (first.pointer_to_relocations, first.characteristics);
    assert_eq!(rt; found, (9, 10));
    let one = &mut room[..0];
    assert_eq!(rt; pe_c_te_sections(&bytes, &te, one), ROOM);
    Ok(())
}

fn entries_of(bytes: &[u8], te: &TeImage) -> (u32, [u64; 2]) {
    let mut out = untouched();
    let answer = pe_c_te_debug_entries(bytes, te, &mut out);
    (answer, of_range(out))
}

/// A CodeView entry at 0x50, whose record is at 0x90 by its RVA and nowhere by its file offset, and one of a time stamp.
const CODEVIEW: ImageDebugDirectory = ImageDebugDirectory {
    characteristics: 0,
    time_date_stamp: 0,
    major_version: 0,
    minor_version: 0,
    data_type: 2,
    size_of_data: 30,
    address_of_raw_data: 0x90,
    pointer_to_raw_data: 0x1F00,
};

const REPRO: ImageDebugDirectory = ImageDebugDirectory {
    time_date_stamp: 0x1122_3344,
    data_type: 16,
    size_of_data: 0,
    address_of_raw_data: 0xFFFF_FF00,
    pointer_to_raw_data: 0xFFFF_FF00,
    ..CODEVIEW
};

fn step(bytes: &[u8], te: &TeImage, walk: &mut Range) -> (u32, ImageDebugDirectory, [u64; 2]) {
    let mut out = filled();
    let answer = pe_c_next_te_debug_entry(bytes, te, walk, &mut out);
    (answer, out, of_range(*walk))
}

#[test]
fn debug_entries_of_a_te_image(rt: HostRuntime) -> Result<(), Fail> {
    let bytes = te_with_debug(rt.alloc())?;
    let (_, te) = image_of(&bytes);
    assert_eq!(rt; te.debug_dir, directory(0x50, 0x38));
    assert_eq!(rt; entries_of(&bytes, &te), (DONE, [0x50, 0x38]));
    let mut walk = range(0x50, 0x38);
    let found = step(&bytes, &te, &mut walk);
    assert_eq!(rt; found, (DONE, CODEVIEW, [0x6C, 0x1C]));
    assert_eq!(rt; step(&bytes, &te, &mut walk), (DONE, REPRO, [0x88, 0]));
    let found = step(&bytes, &te, &mut walk);
    assert_eq!(rt; found, (NOTHING, filled(), [0x88, 0]));
    let mut records = filled::<DebugRecords>();
    let found = pe_c_debug_record(&bytes, MAPPED, &CODEVIEW, &mut records);
    let key = records.key;
    assert_eq!(rt; (found, records.key_result), (DONE, DONE));
    assert_eq!(rt; (key.age, of_range(key.name)), (9, [0xA8, 6]));
    assert_eq!(rt;
        key.guid,
        *b"\x10\x11\x12\x13\x14\x15\x16\x17\x18\x19\x1A\x1B\x1C\x1D\x1E\x1F"
    );
    // A truncated entry.
    let mut walk = range(0x6C, 27);
    let found = step(&bytes, &te, &mut walk);
    assert_eq!(rt; found, (SHORT, filled(), [0, 0]));
    // A directory that passes the end.
    let long = TeImage {
        debug_dir: directory(0x50, 0x5F),
        ..te
    };
    assert_eq!(rt; entries_of(&bytes, &long), (DEBUG_BOUNDS, UNTOUCHED));
    Ok(())
}
