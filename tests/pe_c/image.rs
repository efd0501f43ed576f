//! Headers, sections, and the file offsets of RVAs.

use super::made;
use super::made::*;
use crate::headers::{RANGE_OVERLAY, pe_c_image, pe_c_image_range, pe_c_offset, pe_c_sections};
use pe_images::{
    headers_alone, image as bytes_of, pointer_below_64, with_every_directory,
    with_every_directory_of_x86,
};
use std::process::Abort;

/// What an image is before a call that hands out another.
fn untouched() -> Image {
    image(0x1234)
}

/// The call has this result and leaves this image.
fn expect(rt: &impl Abort, bytes: &[u8], mode: u32, number: u32, image: &Image) {
    let mut out = untouched();
    assert_eq!(rt; pe_c_image(bytes, mode, &mut out), number);
    assert_eq!(rt; raw(&out), raw(image));
}

/// Headers say the same at these offsets in both widths: time stamp, sizes of image and headers, checksum, subsystem and
/// DLL characteristics.
fn put_numbers(bytes: &mut [u8]) {
    put(
        bytes,
        &[
            (0x48, &[1, 2, 3, 4]),
            (0x79, &[0x20]),
            (0x90, &[5, 6, 7, 8, 9, 10, 11, 12, 13, 14, 15, 16]),
            (0x9C, &[17, 18, 19, 20]),
        ],
    );
}

/// The PE signature stands at 0x40, so the COFF header at 0x44 and the optional header, of 0xF0 bytes, at 0x58: its
/// directories start 112 bytes into it.
fn image_of_64_bits() -> Image {
    let mut directories = [directory(0, 0); 16];
    let present = [
        directory(0x1100, 0x28),
        directory(0x1200, 0x3C),
        directory(0x1300, 0xEB),
        directory(0x1000, 0x18),
        directory(0xA00, 0x20),
        directory(0x1400, 0x10),
        directory(0x1440, 0x54),
    ];
    directories[..7].copy_from_slice(&present);
    directories[15] = directory(0x7777, 0);
    Image {
        base: 0x1_8000_0000,
        sections_offset: 0x148,
        checksum_offset: 0x98,
        certificate_entry_offset: 0xE8,
        entry: 0x1034,
        file_alignment: 0x200,
        mode: STRICT,
        section_alignment: 0x2000,
        size_of_image: 0x0807_0605,
        size_of_headers: 0x0C0B_0A09,
        checksum: 0x100F_0E0D,
        time_date_stamp: 0x0403_0201,
        number_of_directories: 16,
        directories,
        machine: 0x8664,
        width: 64,
        number_of_sections: 1,
        characteristics: 0x2022,
        subsystem: 0x1211,
        dll_characteristics: 0x1413,
    }
}

#[test]
fn headers_of_64_bits(rt: HostRuntime) -> Result<(), Fail> {
    let mut bytes = with_every_directory(rt.alloc())?;
    put_numbers(&mut bytes);
    put(&mut bytes, &[(0x140, &[0x77, 0x77])]);
    let want = in_mode(&image_of_64_bits(), u32::MAX);
    expect(&rt, &bytes, u32::MAX, DONE, &want);
    Ok(())
}

/// An optional header keeps as many directories as it counts, and at most 16. The entry of the certificates is the fifth.
#[test]
fn headers_with_fewer_directories(rt: HostRuntime) -> Result<(), Fail> {
    for (count, kept, offset) in [(4, 4, 0), (5, 5, 0xE8), (17, 16, 0xE8)] {
        let mut bytes = with_every_directory(rt.alloc())?;
        put_numbers(&mut bytes);
        put(&mut bytes, &[(0x140, &[0x77, 0x77]), (0xC4, &[count])]);
        let mut want = image_of_64_bits();
        for row in &mut want.directories[kept..] {
            *row = directory(0, 0);
        }
        want.number_of_directories = kept as u32;
        want.certificate_entry_offset = offset;
        expect(&rt, &bytes, STRICT, DONE, &want);
    }
    Ok(())
}

/// The optional header has 0xE0 bytes and no base of data after the image base's four; its directories start 96 bytes into
/// it. The exception directory is absent.
#[test]
fn headers_of_32_bits(rt: HostRuntime) -> Result<(), Fail> {
    let mut bytes = with_every_directory_of_x86(rt.alloc())?;
    put_numbers(&mut bytes);
    let mut want = Image {
        base: 0x40_0000,
        sections_offset: 0x138,
        certificate_entry_offset: 0xD8,
        machine: 0x14C,
        width: 32,
        characteristics: 0x2102,
        ..image_of_64_bits()
    };
    want.directories[3] = directory(0, 0);
    want.directories[6] = directory(0x1500, 0x8C);
    want.directories[15] = directory(0, 0);
    expect(&rt, &bytes, STRICT, DONE, &want);
    Ok(())
}

/// A PE header at 0x30, without an optional header: the sections would stand 24 bytes after it.
#[test]
fn headers_in_permissive_mode(rt: HostRuntime) -> Result<(), Fail> {
    let mut bytes = pointer_below_64(rt.alloc())?;
    put(&mut bytes, &[(0x38, &[1, 2, 3, 4]), (0x46, &[5, 6])]);
    expect(&rt, &bytes, STRICT, HEADER_POINTER, &untouched());
    let want = Image {
        base: 0,
        sections_offset: 0x48,
        checksum_offset: 0,
        certificate_entry_offset: 0,
        entry: 0,
        file_alignment: 0,
        mode: PERMISSIVE,
        section_alignment: 0,
        size_of_image: 0,
        size_of_headers: 0,
        checksum: 0,
        time_date_stamp: 0x0403_0201,
        number_of_directories: 0,
        directories: [directory(0, 0); 16],
        machine: 0x14C,
        width: 0,
        number_of_sections: 0,
        characteristics: 0x0605,
        subsystem: 0,
        dll_characteristics: 0,
    };
    expect(&rt, &bytes, PERMISSIVE, DONE, &want);
    Ok(())
}

/// The optional header of `headers_alone` starts at 0x90, and its sixteen directories end at 0x180.
#[test]
fn refused_headers(rt: HostRuntime) -> Result<(), Fail> {
    let whole = headers_alone(rt.alloc())?;
    assert_eq!(rt; pe_c_image(&whole[..0x180], STRICT, &mut untouched()), DONE);
    let mut magic = headers_alone(rt.alloc())?;
    put(&mut magic, &[(0x91, &[7])]);
    for (bytes, number) in [(&whole[..0x17F], SHORT), (&magic, BAD_MAGIC)] {
        expect(&rt, bytes, STRICT, number, &untouched());
    }
    Ok(())
}

// ---- sections

/// Two section headers of 40 bytes each, at offset 3: a name of 8 bytes, six numbers of 4, two of 2 and one of 4.
fn two_sections(alloc: Global) -> Result<Vec<u8>, Fail> {
    Ok(bytes_of(
        alloc,
        83,
        &[
            (3, b".first\0\0"),
            (11, &[1, 2, 3, 4, 5, 6, 7, 8, 9, 10, 11, 12, 13, 14, 15, 16]),
            (
                27,
                &[
                    17, 18, 19, 20, 21, 22, 23, 24, 25, 26, 27, 28, 29, 30, 31, 32,
                ],
            ),
            (43, b".second8"),
            (51, &[0, 0x10]),
        ],
    )?)
}

const FIRST: SectionTable = SectionTable {
    name: *b".first\0\0",
    virtual_size: 0x0403_0201,
    virtual_address: 0x0807_0605,
    size_of_raw_data: 0x0C0B_0A09,
    pointer_to_raw_data: 0x100F_0E0D,
    pointer_to_relocations: 0x1413_1211,
    pointer_to_linenumbers: 0x1817_1615,
    number_of_relocations: 0x1A19,
    number_of_linenumbers: 0x1C1B,
    characteristics: 0x201F_1E1D,
};

const SECOND: SectionTable = SectionTable {
    name: *b".second8",
    virtual_size: 0x1000,
    virtual_address: 0,
    size_of_raw_data: 0,
    pointer_to_raw_data: 0,
    pointer_to_relocations: 0,
    pointer_to_linenumbers: 0,
    number_of_relocations: 0,
    number_of_linenumbers: 0,
    characteristics: 0,
};

/// An image that says where its section headers stand, and how many they are.
fn with_sections(sections_offset: u64, number_of_sections: u16) -> Image {
    Image {
        sections_offset,
        number_of_sections,
        ..untouched()
    }
}

/// What is after the sections in the room stays as it was.
#[test]
fn sections_are_put_into_their_room(rt: HostRuntime) -> Result<(), Fail> {
    let bytes = two_sections(rt.alloc())?;
    let [other] = sections();
    let mut room = [other; 3];
    let answer = pe_c_sections(&bytes, &with_sections(3, 2), &mut room);
    assert_eq!(rt; (answer, room), (DONE, [FIRST, SECOND, other]));
    Ok(())
}

/// A room that is too small, or headers that are not all there: the room stays as it was. No headers are read nowhere.
#[test]
fn sections_that_are_refused(rt: HostRuntime) -> Result<(), Fail> {
    let bytes = two_sections(rt.alloc())?;
    let [other] = sections();
    for (offset, count, number) in [(3, 3, ROOM), (4, 2, SHORT)] {
        let mut room = [other; 2];
        let answer = pe_c_sections(&bytes, &with_sections(offset, count), &mut room);
        let found = (answer, room);
        assert_eq!(rt; found, (number, [other; 2]), "{count} at {offset:#x}");
    }
    Ok(())
}

// ---- offsets

/// The offset of an address in a mode, or the answer, with which no offset goes out.
fn offset_in(mode: u32, sections: &[SectionTable], file_alignment: u32, rva: u32) -> (u32, u64) {
    let image = Image {
        mode,
        file_alignment,
        ..untouched()
    };
    let mut out = 7;
    let answer = pe_c_offset(&view(&[], &image, sections), rva, &mut out);
    (answer, out)
}

fn offset(sections: &[SectionTable], file_alignment: u32, rva: u32) -> (u32, u64) {
    offset_in(PERMISSIVE, sections, file_alignment, rva)
}

/// Raw pointers are rounded down to 512, and of two sections that cover an address the first counts.
#[test]
fn offsets_of_addresses(rt: HostRuntime) {
    let sections = [
        section(0x1000, 0x100, 0x210, 0x200),
        section(0x1100, 0x100, 0x600, 0x200),
    ];
    for (rva, want) in [
        (0x1000, (DONE, 0x200)),
        (0x1150, (DONE, 0x350)),
        (0x13FF, (DONE, 0x5FF)),
        (0x1400, (NOTHING, 7)),
        (0x0FFF, (NOTHING, 7)),
    ] {
        assert_eq!(rt; offset(&sections, 0x200, rva), want, "of {rva:#x}");
    }
    assert_eq!(rt; offset(&sections, 3, 0x1150), (NOTHING, 7));
}

/// In an image as loaded every address is its own offset, whatever the sections and the alignment.
#[test]
fn offsets_of_a_mapped_image(rt: HostRuntime) {
    let mapped = MAPPED + PERMISSIVE;
    assert_eq!(rt; offset_in(mapped, &sections(), 3, 0x1234), (DONE, 0x1234));
}

// ---- the bytes after the headers and the raw data of all sections

fn overlay_of(length: usize, image: &Image, sections: &[SectionTable]) -> (u32, [u64; 2]) {
    let bytes = [0; 0x1800];
    let mut out = made::untouched();
    let view = view(&bytes[..length], image, sections);
    let answer = pe_c_image_range(&view, RANGE_OVERLAY, &mut out);
    (answer, of_range(out))
}

/// A section whose raw data are so many bytes from an offset on.
fn data_of(pointer_to_raw_data: u32, size_of_raw_data: u32) -> SectionTable {
    made::section(0x1000, 0x1000, pointer_to_raw_data, size_of_raw_data)
}

/// The raw data of the one section are the first 0x1000 bytes.
#[test]
fn what_follows_the_sections(rt: HostRuntime) {
    let sections = sections();
    let file = image(X64);
    for (length, want) in [
        (0x1001, (DONE, [0x1000, 1])),
        (0x1000, (NOTHING, UNTOUCHED)),
    ] {
        assert_eq!(rt; overlay_of(length, &file, &sections), want);
    }
    let loaded = in_mode(&file, MAPPED);
    let found = overlay_of(0x1800, &loaded, &sections);
    assert_eq!(rt; found, (NOTHING, UNTOUCHED));
}

/// The furthest end counts, in whatever order the sections stand. One without raw data has no end, wherever it points.
#[test]
fn the_furthest_end_counts(rt: HostRuntime) {
    let image = Image {
        size_of_headers: 0x400,
        ..image(X64)
    };
    let after = |sections: &[SectionTable]| overlay_of(0x1800, &image, sections);
    assert_eq!(rt; after(&[]), (DONE, [0x400, 0x1400]));
    let (near, far, none) = (
        data_of(0x400, 0x200),
        data_of(0x600, 0xA01),
        data_of(0x1700, 0),
    );
    assert_eq!(rt; after(&[near, far, none]), (DONE, [0x1001, 0x7FF]));
    assert_eq!(rt; after(&[near, data_of(0x17FF, 2)]), (NOTHING, UNTOUCHED));
    let whole = data_of(u32::MAX, u32::MAX);
    assert_eq!(rt; after(&[whole, near]), (NOTHING, UNTOUCHED));
}
