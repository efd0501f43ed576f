//! Why headers and the directories of an image are refused: the result of the call that reads each, and where its error is, by which numbers.
//! Offsets of headers are those of winnt.h; of 160 bytes of an image with a directory the RVAs from 0x1000 on are the offsets from 0 on.
//! Every number is worked out by hand.

use super::coff::{header_of, object, section_headers};
use super::made::*;
use crate::failures::{
    FAILED_DIRECTORY, FAILED_IMAGE, FAILED_SECTIONS, FAILED_TE, FailedItem,
    pe_c_image_item_failure, pe_c_item_failure,
};
use calls_headers::headers::CoffFields;
use pe_images::{headers_alone, image as bytes_of, pointer_below_64, te};

const NINES: Failure = Failure {
    offset: 9,
    needed: 9,
    value: 9,
    result: 9,
    spare: 9,
};

/// The answer, and the error, offset, bytes and value.
fn image_failure(bytes: &[u8], mode: u32) -> (u32, u32, [u64; 3]) {
    let mut out = NINES;
    let item = FailedItem {
        number: mode,
        ..filled()
    };
    let answer = pe_c_item_failure(bytes, FAILED_IMAGE, &item, &mut out);
    (answer, out.result, [out.offset, out.needed, out.value])
}

/// As `pe.h` has it.
fn pe_c_sections_failure(bytes: &[u8], image: &Image, out: &mut Failure) -> u32 {
    let item = FailedItem {
        index: image.sections_offset,
        number_of_sections: image.number_of_sections,
        ..filled()
    };
    pe_c_item_failure(bytes, FAILED_SECTIONS, &item, out)
}

fn te_failure(bytes: &[u8]) -> (u32, u32, [u64; 3]) {
    let mut out = NINES;
    let answer = pe_c_item_failure(bytes, FAILED_TE, &filled(), &mut out);
    (answer, out.result, [out.offset, out.needed, out.value])
}

const NO_ANSWER: (u32, u32, [u64; 3]) = (NOTHING, 9, [9; 3]);

/// Headers of PE32+ at 0x78, in the order in which they are read: each change is put on top of those before it.
#[test]
fn failures_of_images(rt: HostRuntime) -> Result<(), Fail> {
    let mut bytes = headers_alone(rt.alloc())?;
    assert_eq!(rt; image_failure(&bytes, STRICT), NO_ANSWER);
    // The optional header is at 0x90: 112 bytes of fields, then 16 directories.
    for (length, offset, needed) in [
        (0x17F, 0x100, 128),
        (0xFF, 0x90, 112),
        (0x91, 0x90, 2),
        (0x8F, 0x7C, 20),
        (0x7B, 0x78, 4),
        (0x3F, 0, 64),
    ] {
        let wanted = (DONE, SHORT, [offset, needed, 0]);
        assert_eq!(rt; image_failure(&bytes[..length], STRICT), wanted);
    }
    assert_eq!(rt; image_failure(&bytes[..0x180], STRICT), NO_ANSWER);
    // PE32 has 96 bytes of fields, and fewer directories need fewer bytes.
    put(&mut bytes, &[(0x91, &[1]), (0xEC, &[2])]);
    let found = image_failure(&bytes[..0xFF], STRICT);
    assert_eq!(rt; found, (DONE, SHORT, [0xF0, 16, 0]));
    let found = image_failure(&bytes[..0xEF], STRICT);
    assert_eq!(rt; found, (DONE, SHORT, [0x90, 96, 0]));
    put(&mut bytes, &[(0x90, &[0x07, 0x03])]);
    let found = image_failure(&bytes, STRICT);
    assert_eq!(rt; found, (DONE, BAD_MAGIC, [0x90, 2, 0x307]));
    // Without an optional header nothing of it is read.
    put(&mut bytes, &[(0x8C, &[0])]);
    assert_eq!(rt; image_failure(&bytes, STRICT), NO_ANSWER);
    put(&mut bytes, &[(0x7B, &[0x12])]);
    let found = image_failure(&bytes, STRICT);
    assert_eq!(rt; found, (DONE, BAD_MAGIC, [0x78, 4, 0x1200_4550]));
    let low = pointer_below_64(rt.alloc())?;
    let found = image_failure(&low, STRICT);
    assert_eq!(rt; found, (DONE, HEADER_POINTER, [0x3C, 4, 0x30]));
    assert_eq!(rt; image_failure(&low, PERMISSIVE), NO_ANSWER);
    put(&mut bytes, &[(0, b"NE")]);
    let found = image_failure(&bytes, STRICT);
    assert_eq!(rt; found, (DONE, BAD_MAGIC, [0, 2, 0x454E]));
    Ok(())
}

#[test]
fn failures_of_te_images(rt: HostRuntime) -> Result<(), Fail> {
    let mut bytes = te(rt.alloc())?;
    assert_eq!(rt; te_failure(&bytes), NO_ANSWER);
    assert_eq!(rt; te_failure(&bytes[..39]), (DONE, SHORT, [0, 40, 0]));
    put(&mut bytes, &[(6, &[0x27, 0])]);
    assert_eq!(rt; te_failure(&bytes), (DONE, TE_SIZE, [6, 2, 0x27]));
    put(&mut bytes, &[(1, &[0x4D])]);
    assert_eq!(rt; te_failure(&bytes), (DONE, BAD_MAGIC, [0, 2, 0x4D56]));
    Ok(())
}

/// Three section headers at 148h have 120 bytes. Without sections it does not matter where they would be.
#[test]
fn failures_of_section_headers(rt: HostRuntime) -> Result<(), Fail> {
    let bytes = bytes_of(rt.alloc(), 0x148 + 120, &[])?;
    let of = |number_of_sections, sections_offset| Image {
        number_of_sections,
        sections_offset,
        ..image(X64)
    };
    let whole = bytes.len();
    for (image, length, wanted) in [
        (of(3, 0x148), whole, NO_ANSWER),
        (of(3, 0x148), whole - 1, (DONE, SHORT, [0x148, 120, 0])),
        (of(0, 0x149), 0, NO_ANSWER),
    ] {
        let mut out = NINES;
        let answer = pe_c_sections_failure(&bytes[..length], &image, &mut out);
        let found = (answer, out.result, [out.offset, out.needed, out.value]);
        assert_eq!(rt; found, wanted);
        assert_eq!(rt; out.spare, if answer == DONE { 0 } else { 9 });
    }
    Ok(())
}

/// The three section headers of an object follow its header of 20 bytes and so many of an optional header.
#[test]
fn failures_of_section_headers_of_objects(rt: HostRuntime) -> Result<(), Fail> {
    let bytes = object(rt.alloc())?;
    let (_, _, coff) = header_of(&bytes);
    let of = |number_of_sections, size_of_optional_header| CoffFields {
        number_of_sections,
        size_of_optional_header,
        ..coff
    };
    for (coff, length, wanted) in [
        (of(3, 5), 145, NO_ANSWER),
        (of(3, 5), 144, (DONE, SHORT, [25, 120, 0])),
        (of(0, u16::MAX), 0, NO_ANSWER),
    ] {
        let mut out = NINES;
        let answer = pe_c_sections_failure(&bytes[..length], &section_headers(&coff), &mut out);
        let found = (answer, out.result, [out.offset, out.needed, out.value]);
        assert_eq!(rt; found, wanted);
    }
    Ok(())
}

/// The answer; the error, its offset, needed bytes and value; and the last field.
pub(crate) type Said = (u32, (u32, [u64; 3]), u32);

/// What is said where nothing is wrong.
pub(crate) const NONE: Said = (NOTHING, (94, [91, 92, 93]), 95);

fn said(bytes: &[u8], image: &Image, index: u32) -> Said {
    let mut out = NO_FAILURE;
    let item = FailedItem {
        number: index,
        ..filled()
    };
    let sections = sections();
    let view = view(bytes, image, &sections);
    let answer = pe_c_image_item_failure(&view, FAILED_DIRECTORY, &item, &mut out);
    told(answer, &out)
}

pub(crate) fn told(answer: u32, out: &Failure) -> Said {
    let numbers = [out.offset, out.needed, out.value];
    (answer, (out.result, numbers), out.spare)
}

/// An image for x64 with a directory.
fn with(index: usize, rva: u32, size: u32) -> Image {
    having(image(X64), index, directory(rva, size))
}

/// Each directory at an unmapped RVA.
#[test]
fn unmapped(rt: HostRuntime) -> Result<(), Fail> {
    let bytes = bytes_of(rt.alloc(), 160, &[])?;
    for index in [0, 1, 2, 3, 5, 6, 9, 10, 13, 14] {
        let found = said(&bytes, &with(index, 0x4568, 24), index as u32);
        assert_eq!(rt; found, (DONE, (UNMAPPED, [0, 0, 0x4568]), 0));
    }
    Ok(())
}

/// Each directory whose record or table ends past the bytes.
#[test]
fn truncated(rt: HostRuntime) -> Result<(), Fail> {
    let bytes = bytes_of(rt.alloc(), 160, &[])?;
    // The export directory has 40 bytes, the one of TLS 40 in PE32+, a CLR header 72, and the load configuration its size.
    for (index, rva, size, wanted) in [
        (0, 0x1079, 1, (SHORT, [0x79, 40, 0])),
        (9, 0x107A, 1, (SHORT, [0x7A, 40, 0])),
        (10, 0x109D, 1, (SHORT, [0x9D, 4, 0])),
        (14, 0x1060, 1, (SHORT, [0x60, 72, 0])),
        // The first directory of resources has 16 bytes.
        (2, 0x1098, 8, (SHORT, [0x98, 16, 0])),
        (5, 0x1010, 0x91, (SHORT, [0x10, 0x91, 0])),
        (13, 0x1020, 0x81, (SHORT, [0x20, 0x81, 0])),
        // Bound imports stand at a file offset.
        (11, 0x30, 0x71, (SHORT, [0x30, 0x71, 0])),
        // Tables of functions and of debug entries are refused by their ends.
        (3, 0x1004, 156 + 12, (EXCEPTION_BOUNDS, [4 + 168, 0, 0])),
        (6, 0x1011, 0x90, (DEBUG_BOUNDS, [0xA1, 0, 0])),
        (2, 0x1020, 0x85, (RESOURCE_BOUNDS, [0xA5, 0, 0])),
    ] {
        let image = with(index, rva, size);
        assert_eq!(rt; said(&bytes, &image, index as u32), (DONE, wanted, 0));
    }
    Ok(())
}

/// The tables of exports, each truncated: ordinals, names, addresses.
#[test]
fn tables_of_exports(rt: HostRuntime) -> Result<(), Fail> {
    let image = with(0, 0x1010, 40);
    let mut bytes = bytes_of(
        rt.alloc(),
        160,
        &[
            (0x24, &[2, 0, 0, 0, 3]),
            (0x2C, &[0x40, 0x10, 0, 0, 0x50, 0x10, 0, 0, 0x60, 0x10]),
        ],
    )?;
    assert_eq!(rt; said(&bytes, &image, 0), NONE);
    for (field, needed) in [(0x34, 6), (0x30, 12), (0x2C, 8)] {
        put(&mut bytes, &[(field, &[0x9B, 0x10])]);
        let wanted = (DONE, (SHORT, [0x9B, needed, 0]), 0);
        assert_eq!(rt; said(&bytes, &image, 0), wanted);
    }
    Ok(())
}

#[test]
fn function_tables(rt: HostRuntime) -> Result<(), Fail> {
    let bytes = bytes_of(rt.alloc(), 160, &[])?;
    let arm64 = |rva, size| having(image(ARM64), 3, directory(rva, size));
    for (image, wanted) in [
        (with(3, 0x1010, 25), (EXCEPTION_SIZE, [0, 0, 25])),
        (with(3, 0x1012, 24), (EXCEPTION_OFFSET, [0x12, 0, 0])),
        (arm64(0x1010, 12), (EXCEPTION_SIZE, [0, 0, 12])),
    ] {
        assert_eq!(rt; said(&bytes, &image, 3), (DONE, wanted, 0));
    }
    // The table of another machine is not read.
    let x86 = having(image(0x14C), 3, directory(0x3000, 13));
    for image in [with(3, 0x1010, 24), arm64(0x1010, 24), x86] {
        assert_eq!(rt; said(&bytes, &image, 3), NONE);
    }
    Ok(())
}

/// The first certificate of the table, which stands at a file offset, and no other.
#[test]
fn certificates(rt: HostRuntime) -> Result<(), Fail> {
    let mut bytes = bytes_of(
        rt.alloc(),
        160,
        &[
            (0x40, &[16, 0, 0, 0, 0, 2, 2, 0]),
            (0x50, &[7, 0, 0, 0, 5, 6, 7, 8]),
        ],
    )?;
    let image = with(4, 0x40, 0x20);
    assert_eq!(rt; said(&bytes, &image, 4), NONE);
    for (table, wanted) in [
        (with(4, 0x90, 0x20), (CERTIFICATE_TABLE, [0xB0, 0, 0])),
        (with(4, 0x9B, 5), (SHORT, [0x9B, 8, 0])),
    ] {
        assert_eq!(rt; said(&bytes, &table, 4), (DONE, wanted, 0));
    }
    for (field, value, wanted) in [
        (0x46, 9, (CERTIFICATE_TYPE, [0, 0, 9])),
        (0x44, 3, (CERTIFICATE_REVISION, [0, 0, 0x203])),
        (0x42, 1, (CERTIFICATE_SIZE, [0, 0x1_0010, 0])),
    ] {
        put(&mut bytes, &[(field, &[value])]);
        assert_eq!(rt; said(&bytes, &image, 4), (DONE, wanted, 0));
    }
    Ok(())
}

/// The first directory of resources, its entries, and a CLR header that says it is too small.
#[test]
fn records_that_are_read(rt: HostRuntime) -> Result<(), Fail> {
    let bytes = bytes_of(rt.alloc(), 160, &[(0x20, &[71]), (0x4E, &[4])])?;
    let clr = with(14, 0x1020, 72);
    let wanted = (DONE, (DIRECTORY_CLR_HEADER_SIZE, [0, 0, 71]), 0);
    assert_eq!(rt; said(&bytes, &clr, 14), wanted);
    // Four entries of 8 bytes follow the 16 bytes of the directory: they end at 0x70.
    let resources = |size| with(2, 0x1040, size);
    assert_eq!(rt; said(&bytes, &resources(0x30), 2), NONE);
    let short = resources(0x2F);
    let wanted = (DONE, (RESOURCE_BOUNDS, [0x70, 0, 0]), 0);
    assert_eq!(rt; said(&bytes, &short, 2), wanted);
    assert_eq!(rt; said(&bytes, &in_mode(&short, PERMISSIVE), 2), NONE);
    Ok(())
}
