//! Images written. The image is one of 1,040 bytes: a section header at 0x148, the section at 0x200, a certificate of 9 bytes at
//! 0x400. Written unchanged it is itself, and where something was changed the bytes follow from the format.

use super::made::*;
use super::signing::{has, having};
use crate::headers::{pe_c_image, pe_c_sections};
use crate::write::{
    pe_c_write_certificates, pe_c_write_image, pe_c_write_sections, pe_c_write_whole,
};
use pe_images::{pointer_below_64, with_every_directory, with_functions};

const OLD_NUMBER: u64 = 0x7777;

/// The image's bytes, and those of a room that is longer.
const SIZE: usize = 0x410;

const LONGER: usize = 0x420;

/// Of the image alone, or of the whole file.
#[derive(Clone, Copy, Debug)]
enum Writer {
    Image,
    Whole,
}

/// What a call without room and one with room return, the numbers that they put, and the room.
type Written = ([u32; 2], [u64; 2], Vec<u8>);

/// Writes these sections of the bytes, read in this mode, into a room of this size.
fn written_with(
    alloc: Global,
    writer: Writer,
    bytes: &[u8],
    mode: u32,
    sections: &[SectionTable],
    size: usize,
) -> Result<Written, AllocError> {
    let mut room = vec![in alloc; OLD; size]?;
    let (mut needed, mut end) = (OLD_NUMBER, OLD_NUMBER);
    let info = in_mode(&image(X64), mode);
    let source = view(bytes, &info, sections);
    let numbers = match writer {
        Writer::Image => [
            asked(pe_c_write_image(&source, &mut [], &mut needed)),
            pe_c_write_image(&source, &mut room, &mut end),
        ],
        Writer::Whole => [
            asked(pe_c_write_whole(&source, &mut [], &mut needed)),
            pe_c_write_whole(&source, &mut room, &mut end),
        ],
    };
    Ok((numbers, [needed, end], room))
}

/// The section header of the bytes, as the calls return it.
fn section_of(bytes: &[u8]) -> [SectionTable; 1] {
    let mut info = image(X64);
    let mut room = super::made::sections();
    pe_c_image(bytes, PERMISSIVE, &mut info);
    pe_c_sections(bytes, &info, &mut room);
    room
}

/// The same with the sections of the bytes.
fn written(
    alloc: Global,
    writer: Writer,
    bytes: &[u8],
    mode: u32,
    size: usize,
) -> Result<Written, AllocError> {
    written_with(alloc, writer, bytes, mode, &section_of(bytes), size)
}

fn is_old(bytes: &[u8]) -> bool {
    bytes.iter().all(|byte| *byte == OLD)
}

#[test]
fn whole_files_come_back(rt: HostRuntime) -> Result<(), Fail> {
    let alloc = rt.alloc();
    // What no header describes too: bytes after the section table, and after the certificate.
    let mut bytes = having(alloc, 0x1F0, &[0x55; 16])?;
    bytes.extend_from_slice(&[0x66; 3])?;
    let (numbers, ends, room) = written(alloc, Writer::Whole, &bytes, STRICT, LONGER)?;
    assert_eq!(rt; (numbers, ends), ([DONE; 2], [0x413; 2]));
    assert!(rt; room[..0x413] == bytes[..]);
    assert!(rt; is_old(&room[0x413..]));
    let (numbers, ends, room) = written(alloc, Writer::Whole, &bytes, STRICT, 0x412)?;
    assert_eq!(rt; (numbers, ends), ([DONE, ROOM], [0x413; 2]));
    assert!(rt; is_old(&room));
    Ok(())
}

#[test]
fn images_are_written(rt: HostRuntime) -> Result<(), Fail> {
    let alloc = rt.alloc();
    let bytes = having(alloc, 0x1F0, &[0x55; 16])?;
    let (numbers, ends, room) = written(alloc, Writer::Image, &bytes, STRICT, LONGER)?;
    assert_eq!(rt; (numbers, ends), ([DONE; 2], [0x410; 2]));
    assert!(rt; room[..0x170] == bytes[..0x170]);
    assert!(rt; is_old(&room[0x170..0x200]));
    assert!(rt; room[0x200..SIZE] == bytes[0x200..]);
    assert!(rt; is_old(&room[SIZE..]));
    // Both certificates of another image, each with its padding.
    let bytes = with_every_directory(alloc)?;
    let (numbers, ends, room) = written(alloc, Writer::Image, &bytes, STRICT, 0xA20)?;
    assert_eq!(rt; (numbers, ends), ([DONE; 2], [0xA20; 2]));
    assert!(rt; room[0x200..] == bytes[0x200..]);
    Ok(())
}

/// A section of 0x1F0 bytes is followed by 16 zeros that `pe_c_write_image` writes and `pe_c_write_whole` does not.
#[test]
fn changed_sections_are_written(rt: HostRuntime) -> Result<(), Fail> {
    let alloc = rt.alloc();
    let bytes = having(alloc, 0x3F0, &[0x77; 16])?;
    let mut sections = section_of(&bytes);
    sections[0].name = *b".changed";
    sections[0].size_of_raw_data = 0x1F0;
    for (writer, last) in [(Writer::Image, 0), (Writer::Whole, 0x77)] {
        let (numbers, ends, room) = written_with(alloc, writer, &bytes, STRICT, &sections, SIZE)?;
        assert_eq!(rt; (numbers, ends), ([DONE; 2], [0x410; 2]), "{writer:?}");
        assert!(rt; has(&room, 0x148, b".changed"), "{writer:?}");
        assert!(rt; has(&room, 0x158, &[0xF0, 1, 0, 0]), "{writer:?}");
        assert!(rt; room[0x200..0x3F0] == bytes[0x200..0x3F0], "{writer:?}");
        assert!(rt; has(&room, 0x3F0, &[last; 16]), "{writer:?}");
        assert!(rt; room[0x400..] == bytes[0x400..], "{writer:?}");
    }
    Ok(())
}

#[test]
fn certificates_are_written(rt: HostRuntime) -> Result<(), Fail> {
    let alloc = rt.alloc();
    let bytes = with_every_directory(alloc)?;
    let truncated = having(alloc, 0xEC, &[0x11])?;
    for (bytes, mode, size, wanted, end) in [
        (&bytes[..], STRICT, 0xA21, DONE, 0xA20),
        (&bytes[..], STRICT, 0xA1F, WRITE_FIT, OLD_NUMBER),
        (
            &truncated[..],
            STRICT,
            LONGER,
            CERTIFICATE_TABLE,
            OLD_NUMBER,
        ),
        (&truncated[..], PERMISSIVE, LONGER, DONE, 0),
    ] {
        let mut room = vec![in alloc; OLD; size]?;
        let mut out = OLD_NUMBER;
        let info = in_mode(&image(X64), mode);
        let number = pe_c_write_certificates(&view(bytes, &info, &[]), &mut room, &mut out);
        assert_eq!(rt; (number, out), (wanted, end));
        if end == 0xA20 {
            assert!(rt; room[0xA00..0xA20] == bytes[0xA00..]);
            assert!(rt; is_old(&room[..0xA00]) && is_old(&room[0xA20..]));
        } else {
            assert!(rt; is_old(&room));
        }
    }
    Ok(())
}

/// What a write refuses, each with what both writers return: the image's tests come first, and the whole file has not the first
/// two.
#[test]
fn writes_are_refused(rt: HostRuntime) -> Result<(), Fail> {
    let alloc = rt.alloc();
    for (offset, part, of_image, of_whole) in [
        (
            0x4C,
            [3, 2, 1, 0, 0, 0, 0, 0].as_slice(),
            WRITE_SYMBOLS,
            DONE,
        ),
        (0x7C, &[0, 3, 0, 0], WRITE_ALIGNMENT, DONE),
        (0x158, &[0xFF; 8], WRITE_SECTION, WRITE_SECTION),
    ] {
        let bytes = having(alloc, offset, part)?;
        let (numbers, ends, room) = written(alloc, Writer::Image, &bytes, STRICT, LONGER)?;
        assert_eq!(rt; (numbers, ends), ([of_image; 2], [OLD_NUMBER; 2]));
        assert!(rt; is_old(&room));
        let (numbers, _, room) = written(alloc, Writer::Whole, &bytes, STRICT, LONGER)?;
        assert_eq!(rt; numbers, [of_whole; 2]);
        assert_eq!(rt; room[..SIZE] == bytes[..], of_whole == DONE);
        assert_eq!(rt; is_old(&room), of_whole != DONE);
    }
    let bytes = with_functions(alloc)?;
    let [one] = section_of(&bytes);
    let other = SectionTable {
        pointer_to_raw_data: 0x3FF,
        size_of_raw_data: 1,
        ..one
    };
    let low = pointer_below_64(alloc)?;
    for writer in [Writer::Image, Writer::Whole] {
        let (numbers, ends, room) = written_with(
            alloc,
            writer,
            &bytes,
            STRICT,
            &[one, other],
            LONGER,
        )?;
        assert_eq!(rt; (numbers, ends), ([WRITE_OVERLAP; 2], [OLD_NUMBER; 2]));
        assert!(rt; is_old(&room));
        let (numbers, ..) = written_with(alloc, writer, &low, PERMISSIVE, &[], LONGER)?;
        assert_eq!(rt; numbers, [NO_OPTIONAL_HEADER; 2]);
    }
    Ok(())
}

// ---- sections written

/// What the writer of sections returns into a room of 32 * 16 bytes, the offset after it, and the room.
fn sections_written(
    bytes: &[u8],
    sections: &[SectionTable],
    unit: u32,
    offset: u64,
) -> (u32, u64, [u8; 512]) {
    let (mut room, mut next) = ([OLD; 512], offset);
    let info = image(X64);
    let source = view(bytes, &info, sections);
    let number = pe_c_write_sections(&source, unit, &mut room, &mut next);
    (number, next, room)
}

/// Four bytes at offset 8 with zeros up to a multiple of 16, counted from the data's start, and the header at 0x100.
#[test]
fn sections_are_written(rt: HostRuntime) -> Result<(), Fail> {
    let bytes = [7u8; 12];
    let one = section(0x0403_0201, 0x0807_0605, 8, 4);
    for (unit, zeros) in [(16, 12), (0, 0)] {
        let (number, next, room) = sections_written(&bytes, &[one], unit, 0x100);
        assert_eq!(rt; (number, next), (DONE, 0x128));
        assert_eq!(rt; &room[..8], [OLD; 8].as_slice());
        assert_eq!(rt; &room[8..12], [7; 4].as_slice());
        assert_eq!(rt; &room[12..12 + zeros], &[0; 12][..zeros]);
        assert_eq!(rt; room[12 + zeros], OLD);
        assert_eq!(rt; &room[0x100..0x108], b".text\0\0\0".as_slice());
        assert_eq!(rt; &room[0x108..0x110], [5, 6, 7, 8, 1, 2, 3, 4].as_slice());
        assert_eq!(rt; &room[0x110..0x118], [4, 0, 0, 0, 8, 0, 0, 0].as_slice());
        assert_eq!(rt; &room[0x118..0x128], [0; 16].as_slice());
        assert_eq!(rt; room[0x128], OLD);
    }
    Ok(())
}

#[test]
fn sections_are_refused(rt: HostRuntime) -> Result<(), Fail> {
    let bytes = [7u8; 12];
    let one = section(1, 1, 8, 4);
    for (sections, offset, wanted) in [
        ([one, section(1, 1, 11, 1)], 0x100, WRITE_OVERLAP),
        ([one, section(1, 1, 12, 1)], 0x100, WRITE_SECTION),
        ([one, one], 0x1B1, WRITE_FIT),
    ] {
        let (number, next, room) = sections_written(&bytes, &sections, 0, offset);
        assert_eq!(rt; (number, next), (wanted, offset));
        assert_eq!(rt; room, [OLD; 512]);
    }
    Ok(())
}
