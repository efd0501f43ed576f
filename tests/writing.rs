//! Images, sections and certificates as they are written.

use crate::images::{image, pointer_below_64, put, reason_in, with_functions, with_part};
use crate::whole_images::in_mode;
use pe_image::{CertificateList, Error, PE, ParseMode, Reason};
use std::alloc::{AllocError, Global};
use std::process::Abort;
use std::test::Fail;

/// How many bytes the image with functions has: headers, a section up to 0x400, and a certificate.
const SIZE: usize = 0x410;

/// A buffer of one byte again and again.
fn buffer(alloc: Global, len: usize, byte: u8) -> Result<Vec<u8>, AllocError> {
    vec![in alloc; byte; len]
}

/// The four calls, as one: what they answer over a buffer.
#[derive(Clone, Copy, Debug)]
enum Writer {
    Image,
    /// The file, and the image over it.
    Whole,
    /// From this offset on, with zeros up to a multiple of this.
    Sections(usize, Option<usize>),
    Certificates,
}

impl Writer {
    fn write(self, pe: &PE<'_>, bytes: &mut [u8]) -> Result<usize, Error> {
        match self {
            Writer::Image => pe.write_into(bytes),
            Writer::Whole => pe.write_whole(bytes),
            Writer::Sections(from, unit) => {
                let mut offset = from;
                let answer = pe.write_sections(bytes, &mut offset, unit);
                match answer {
                    Ok(end) if end == offset => Ok(end),
                    Err(error) if offset == from => Err(error),
                    _ => Err(Error::BadMagic(offset as u64)),
                }
            }
            Writer::Certificates => pe.write_certificates(bytes),
        }
    }
}

/// That the writer refuses for this reason and leaves a buffer of so many bytes as it was.
fn is_refused(
    rt: &impl Abort,
    alloc: Global,
    pe: &PE<'_>,
    writer: Writer,
    len: usize,
    reason: Reason,
) -> Result<(), Fail> {
    let mut bytes = buffer(alloc, len, 0x55)?;
    let answer = writer.write(pe, &mut bytes);
    let refusal = answer.err().ok_or("written")?;
    assert!(rt;
        matches!(refusal, Error::Malformed(found) if found == reason),
        "{writer:?} {len}"
    );
    assert!(rt; bytes.iter().all(|byte| *byte == 0x55), "{writer:?} {len}");
    Ok(())
}

/// That each byte is the image's, but for those of these ranges, which stay as they were.
fn is_image_but_for(written: &[u8], image: &[u8], old: u8, ranges: &[(usize, usize)]) -> bool {
    written.iter().enumerate().all(|(offset, byte)| {
        let stays = ranges
            .iter()
            .any(|(start, end)| *start <= offset && offset < *end);
        Some(byte) == if stays { Some(&old) } else { image.get(offset) }
    })
}

/// Two sections that are equal may share their bytes, and unequal ones may not.
#[test]
fn writes_equal_sections_alone(rt: HostRuntime) -> Result<(), Fail> {
    let alloc = rt.alloc();
    let mut bytes = with_part(with_functions(alloc)?, 0x46, &[2]);
    let header: Vec<u8> = Vec::from_slice(alloc, bytes.get(0x148..0x170).ok_or("short")?)?;
    put(&mut bytes, &[(0x170, &header)]);
    let pe = PE::parse(alloc, &bytes)?;
    let mut written = buffer(alloc, SIZE, 0)?;
    assert_eq!(rt; pe.write_into(&mut written)?, 0x410);
    assert!(rt; written.as_slice() == bytes.as_slice());
    // The second has one byte, the last of the first.
    let mut shared = Vec::from_slice(alloc, &bytes)?;
    put(&mut shared, &[(0x180, &[1, 0, 0, 0, 0xFF, 3, 0, 0])]);
    let pe = PE::parse(alloc, &shared)?;
    let overlap = Reason::WriteOverlap(0, 1);
    for writer in [Writer::Image, Writer::Whole, Writer::Sections(0x148, None)] {
        is_refused(&rt, alloc, &pe, writer, SIZE, overlap)?;
    }
    Ok(())
}

/// Each error of a whole image, alone.
#[test]
fn refuses_what_can_not_be_written(rt: HostRuntime) -> Result<(), Fail> {
    let alloc = rt.alloc();
    let permissive = in_mode(ParseMode::Permissive);
    // shows: pe_image/src/write/image.rt require_fields WriteAlignment
    // shows: pe_image/src/write/image.rt require_fields WriteSymbols
    for (offset, part, reason) in [
        (
            0x4C,
            [3, 2, 1, 0, 0, 0, 0, 0].as_slice(),
            Reason::WriteSymbols(0x0001_0203),
        ),
        (0x7C, &[0, 3, 0, 0], Reason::WriteAlignment(0x300)),
        (0x7C, &[0, 0, 0, 0], Reason::WriteAlignment(0)),
        (0x158, &[0xFF; 8], Reason::WriteSection(0)),
    ] {
        let bytes = with_part(with_functions(alloc)?, offset, part);
        let pe = PE::parse_with_opts(alloc, &bytes, &permissive)?;
        is_refused(&rt, alloc, &pe, Writer::Image, SIZE, reason)?;
    }
    let low = pointer_below_64(alloc)?;
    let pe = PE::parse_with_opts(alloc, &low, &permissive)?;
    for writer in [Writer::Image, Writer::Whole, Writer::Certificates] {
        is_refused(&rt, alloc, &pe, writer, SIZE, Reason::NoOptionalHeader)?;
    }
    Ok(())
}

/// The image with functions and these sections' raw sizes and pointers, at addresses of their own.
fn with_sections(alloc: Global, data: [[u32; 2]; 4]) -> Result<Vec<u8>, AllocError> {
    let mut bytes = with_part(with_functions(alloc)?, 0x46, &[4]);
    for (k, [size, pointer]) in data.iter().enumerate() {
        let header = 0x148 + 40 * k;
        let address = 0x1000 * (k as u32 + 1);
        put(
            &mut bytes,
            &[
                (header + 8, &u32::to_le_bytes(0x200)),
                (header + 12, &u32::to_le_bytes(address)),
                (header + 16, &u32::to_le_bytes(*size)),
                (header + 20, &u32::to_le_bytes(*pointer)),
            ],
        );
    }
    Ok(bytes)
}

/// Which sections are reported, by the writer of images and by that of sections.
#[test]
fn reports_the_sections(rt: HostRuntime) -> Result<(), Fail> {
    let alloc = rt.alloc();
    let permissive = in_mode(ParseMode::Permissive);
    let (first, last) = ([0x80, 0x200], [0x20, 0x3E0]);
    // shows: pe_image/src/write/sections.rt require_data WriteOverlap
    // shows: pe_image/src/write/sections.rt require_data WriteSection
    for (data, reason) in [
        // The fourth has the last byte of the second.
        (
            [first, [0x80, 0x300], [0x40, 0x280], [1, 0x37F]],
            Reason::WriteOverlap(1, 3),
        ),
        // The fourth starts inside the third.
        (
            [last, first, [0x40, 0x300], [0x40, 0x33F]],
            Reason::WriteOverlap(2, 3),
        ),
        // The file ends at 0x410.
        (
            [first, last, [0x11, 0x400], [0x20, 0x300]],
            Reason::WriteSection(2),
        ),
        (
            [first, [0x20, 0x300], last, [0x11, 0x400]],
            Reason::WriteSection(3),
        ),
    ] {
        let bytes = with_sections(alloc, data)?;
        let pe = PE::parse_with_opts(alloc, &bytes, &permissive)?;
        for writer in [Writer::Image, Writer::Whole, Writer::Sections(0x148, None)] {
            is_refused(&rt, alloc, &pe, writer, SIZE, reason)?;
        }
    }
    Ok(())
}

#[test]
fn writes_sections_alone(rt: HostRuntime) -> Result<(), Fail> {
    let alloc = rt.alloc();
    let bytes = with_part(with_functions(alloc)?, 0x158, &[0xF0, 1, 0, 0]);
    let pe = PE::parse(alloc, &bytes)?;
    // Zeros go up to 0x400, and without a unit the section ends at 0x3F0.
    for (unit, end) in [(Some(0x200), 0x400), (Some(0x10), 0x3F0), (None, 0x3F0)] {
        let mut written = buffer(alloc, 0x400, 0x55)?;
        let mut offset = 0x148;
        let answer = pe.write_sections(&mut written, &mut offset, unit)?;
        assert_eq!(rt; (answer, offset), (0x170, 0x170));
        let ranges = [(0, 0x148), (0x170, 0x200), (end, 0x400)];
        assert!(rt; is_image_but_for(&written, &bytes, 0x55, &ranges));
    }
    // shows: pe_image/src/write/sections.rt require_all WriteAlignment
    let zero = Writer::Sections(0x148, Some(0));
    is_refused(&rt, alloc, &pe, zero, SIZE, Reason::WriteAlignment(0))
}

/// How many sections the image has that follows: as many as a COFF header can count.
const MOST: u32 = 0xFFFF;

/// Headers at 0 and, after so many section headers, a byte of data for each: the first section's byte stands first in the
/// file, or last.
fn with_most_sections(alloc: Global, rises: bool) -> Result<Vec<u8>, AllocError> {
    let mut bytes = image(
        alloc,
        0x148,
        &[
            (0, b"MZ"),
            (0x3C, &[0x40]),
            (0x40, &[0x50, 0x45, 0, 0, 0x64, 0x86, 0xFF, 0xFF]),
            (0x54, &[0xF0, 0, 0x22, 0, 0x0B, 2]),
            (0x78, &[0, 0x10, 0, 0, 0, 2]),
            (0xC4, &[0x10]),
        ],
    )?;
    let data = 0x148 + 40 * MOST;
    for k in 0..MOST {
        let offset = if rises { k } else { MOST - 1 - k };
        bytes.extend_from_slice(&[0; 16])?;
        bytes.extend_from_slice(&[1, 0, 0, 0])?;
        bytes.extend_from_slice(&u32::to_le_bytes(data + offset))?;
        bytes.extend_from_slice(&[0; 16])?;
    }
    for k in 0..MOST {
        bytes.push((k % 251) as u8)?;
    }
    Ok(bytes)
}

/// A pass over the sections shows that none share a byte, where they rise in the file and where they fall. To compare all
/// pairs, 2,147,385,345 of them, takes longer than a test may.
#[test]
fn writes_the_most_sections(rt: HostRuntime) -> Result<(), Fail> {
    let alloc = rt.alloc();
    for rises in [true, false] {
        let bytes = with_most_sections(alloc, rises)?;
        let pe = PE::parse(alloc, &bytes)?;
        assert_eq!(rt; pe.sections.len(), 65_535);
        let mut written = buffer(alloc, bytes.len(), 0x55)?;
        let mut offset = 0x148;
        let end = pe.write_sections(&mut written, &mut offset, None)?;
        assert_eq!(rt; end, 0x148 + 40 * 65_535);
        assert!(rt; written.get(0x148..) == bytes.get(0x148..));
    }
    Ok(())
}

/// The image of these bytes, whose first section stands again with each of these raw pointers and sizes.
fn with_rows<'a>(alloc: Global, bytes: &'a [u8], rows: &[(u32, u32)]) -> Result<PE<'a>, Fail> {
    let mut pe = PE::parse(alloc, bytes)?;
    let section = *pe.sections.first().ok_or("no section")?;
    pe.sections.clear();
    for (pointer, size) in rows {
        let mut changed = section;
        changed.pointer_to_raw_data = *pointer;
        changed.size_of_raw_data = *size;
        pe.sections.push(changed)?;
    }
    Ok(pe)
}

/// The data of two equal sections lie over the section table: the second writes the header of the first over, and its
/// own header after its data.
#[test]
fn writes_equal_sections_over_their_headers(rt: HostRuntime) -> Result<(), Fail> {
    let alloc = rt.alloc();
    let bytes = with_functions(alloc)?;
    let pe = with_rows(alloc, &bytes, &[(0x148, 0x60), (0x148, 0x60)])?;
    let mut written = buffer(alloc, 0x400, 0x55)?;
    let mut offset = 0x148;
    assert_eq!(rt; pe.write_sections(&mut written, &mut offset, None)?, 0x198);
    let mut expected = buffer(alloc, 0x400, 0x55)?;
    let first = bytes.get(0x148..0x1A8).ok_or("short")?;
    let header = bytes.get(0x148..0x170).ok_or("short")?;
    put(
        &mut expected,
        &[
            (0x148, first),
            (0x170, header),
            (0x180, &[0x60, 0, 0, 0, 0x48, 1, 0, 0]),
        ],
    );
    assert!(rt; written == expected);
    Ok(())
}

/// How many bytes the writers need, by the layout: the certificate ends at 0x410, the section with its zeros at 0x400 and
/// its data at 0x3F0; five bytes follow the certificate.
#[test]
fn returns_how_many_bytes_are_needed(rt: HostRuntime) -> Result<(), Fail> {
    let alloc = rt.alloc();
    let mut bytes = with_part(with_functions(alloc)?, 0x158, &[0xF0, 1, 0, 0]);
    bytes.extend_from_slice(&[1, 2, 3, 4, 5])?;
    let mut pe = PE::parse(alloc, &bytes)?;
    assert_eq!(rt; pe.written_len()?, 0x410);
    assert_eq!(rt; pe.whole_len()?, 0x415);
    pe.certificates.clear();
    assert_eq!(rt; pe.written_len()?, 0x400);
    assert_eq!(rt; pe.whole_len()?, 0x415);
    let mut written = buffer(alloc, 0x400, 0)?;
    assert_eq!(rt; pe.write_into(&mut written)?, 0x3F0);
    assert!(rt; pe.write_into(&mut written[..0x3FF]).is_err());
    pe.header.coff_header.pointer_to_symbol_table = 7;
    assert_eq!(rt; reason_in(pe.written_len()), Some(Reason::WriteSymbols(7)));
    assert_eq!(rt; pe.whole_len()?, 0x415);
    Ok(())
}

/// An image of PE32 with a section whose data are not a multiple of its alignment.
#[test]
fn writes_an_image_of_pe32(rt: HostRuntime) -> Result<(), Fail> {
    let alloc = rt.alloc();
    let bytes = image(
        alloc,
        0x400,
        &[
            (0, b"MZ"),
            (0x3C, &[0x40]),
            (0x40, &[0x50, 0x45, 0, 0, 0x4C, 1, 1, 0]),
            (0x54, &[0xE0, 0, 2, 1, 0x0B, 1, 14]),
            (0x68, &[0, 0x10, 0, 0, 0, 0x10, 0, 0, 0, 0x20]),
            (0x74, &[0, 0, 0x40, 0, 0, 0x10, 0, 0, 0, 2]),
            (0xB4, &[0x10]),
            (0x138, b".text"),
            (0x140, &[0x80, 0, 0, 0, 0, 0x10, 0, 0, 0x80, 1, 0, 0, 0, 2]),
            (0x15C, &[0x20, 0, 0, 0x60]),
            (0x200, &[0xC3]),
        ],
    )?;
    let pe = PE::parse(alloc, &bytes)?;
    assert!(rt; !pe.is_64 && pe.image_base == 0x40_0000 && pe.sections.len() == 1);
    let mut written = buffer(alloc, 0x400, 0x55)?;
    // The section's data end at 0x380.
    assert_eq!(rt; pe.write_into(&mut written)?, 0x380);
    assert!(rt; is_image_but_for(&written, &bytes, 0x55, &[(0x160, 0x200)]));
    Ok(())
}

/// Certificates are written from the directory's address on, whatever it is, each up to a multiple of eight from there.
#[test]
fn writes_certificates_at_an_odd_offset(rt: HostRuntime) -> Result<(), Fail> {
    let alloc = rt.alloc();
    let mut bytes = Vec::from_slice(alloc, &with_functions(alloc)?)?;
    // The table of 16 bytes starts at 0x3FF, so its certificate ends at 0x408 and the next offset is 0x408.
    put(&mut bytes, &[(0xE8, &[0xFF, 3, 0, 0, 9, 0, 0, 0])]);
    put(&mut bytes, &[(0x3FF, &[9, 0, 0, 0, 0, 2, 2, 0, 0xAA])]);
    let pe = PE::parse(alloc, &bytes)?;
    assert_eq!(rt; pe.certificates.len(), 1);
    let mut written = buffer(alloc, SIZE, 0x55)?;
    assert_eq!(rt; pe.write_certificates(&mut written)?, 0x40F);
    let certificate = [9, 0, 0, 0, 0, 2, 2, 0, 0xAA, 0, 0, 0, 0, 0, 0, 0, 0x55];
    assert!(rt; written.get(0x3FF..) == Some(certificate.as_slice()));
    Ok(())
}

/// A table of certificates that passes the end of the file is no list of them.
#[test]
fn lists_no_table_past_the_file(rt: HostRuntime) -> Result<(), Fail> {
    let bytes = with_functions(rt.alloc())?;
    // shows: pe_image/src/write/certificate_list.rt read CertificateTable
    for (address, size, end) in [
        (0x400, 0x11, 0x411),
        (0x411, 0, 0x411),
        (usize::MAX, 2, u64::MAX),
    ] {
        let refused = CertificateList::read(&bytes, address, size).err();
        assert!(rt;
            matches!(refused, Some(Error::Malformed(Reason::CertificateTable(n))) if n == end),
            "{address} {size}"
        );
    }
    Ok(())
}
