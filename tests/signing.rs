//! What a signing tool needs of an image. Its digest: the slices follow from the layout of the headers, in which the checksum is at 0x98
//! and the entry of the certificates at 0xE8. Certificates that are attached and detached: the image is one of 1,040 bytes with a section up
//! to 0x400 and a certificate of 9 bytes after it, and what is written follows from the format. Checksums are those that `osslsigncode
//! verify` 2.9 calculates of the same bytes.

use crate::frames::shown;
use crate::images::{with_byte, with_part};
use pe_core::{ByteRange, Error, Header, ParseOptions, Reason};
use pe_images::{put, with_functions};
use pe_sign::{
    Placement, SignError, attach, attached_len, authenticode_ranges, checksum, checksum_range,
    detach, detached_len, digest_ranges, left_out,
};
use std::alloc::Global;
use std::test::Fail;

fn sum_of(bytes: &[u8]) -> Result<u32, Error> {
    let header = Header::parse_with_opts(bytes, &ParseOptions::default())?;
    checksum(bytes, &header)
}

#[test]
fn sums_an_image(rt: HostRuntime) -> Result<(), Fail> {
    let mut bytes = with_functions(rt.alloc())?;
    assert_eq!(rt; sum_of(&bytes)?, 0x7C12);
    // What the field holds is not summed.
    put(&mut bytes, &[(0x98, &[0x11, 0x22, 0x33, 0x44])]);
    assert_eq!(rt; sum_of(&bytes)?, 0x7C12);
    // Two more bytes, and a word with carry.
    put(&mut bytes, &[(0x98, &[0, 0, 0, 0]), (0x201, &[0xFF])]);
    bytes.extend_from_slice(&[0x7F, 0xF1])?;
    assert_eq!(rt; sum_of(&bytes)?, 0x5C95);
    // An odd byte is a word whose high byte is 0; osslsigncode leaves it out.
    bytes.push(0xF3)?;
    assert_eq!(rt; sum_of(&bytes)?, 0x5C95 + 0xF3 + 1);
    Ok(())
}

fn range(offset: usize, length: usize) -> ByteRange {
    ByteRange { offset, length }
}

/// The ranges of a digest are those of the bytes that its slices have: also where parts overlap, touch or have no bytes.
#[test]
fn ranges_are_those_of_the_slices(rt: HostRuntime) -> Result<(), Fail> {
    for (offset, size, ranges) in [
        (
            0x400,
            16,
            [
                range(0, 0x98),
                range(0x9C, 0x4C),
                range(0xF0, 0x310),
                range(0, 0),
            ],
        ),
        (
            0x400,
            8,
            [
                range(0, 0x98),
                range(0x9C, 0x4C),
                range(0xF0, 0x310),
                range(0x408, 8),
            ],
        ),
        (
            0x98,
            0x60,
            [range(0, 0x98), range(0xF8, 0x318), range(0, 0), range(0, 0)],
        ),
        (
            0x9C,
            0x4C,
            [range(0, 0x98), range(0xF0, 0x320), range(0, 0), range(0, 0)],
        ),
        (
            0x200,
            0,
            [
                range(0, 0x98),
                range(0x9C, 0x4C),
                range(0xF0, 0x320),
                range(0, 0),
            ],
        ),
        (
            0,
            u32::MAX,
            [range(0, 0), range(0, 0), range(0, 0), range(0, 0)],
        ),
    ] {
        let mut bytes = with_functions(rt.alloc())?;
        put(
            &mut bytes,
            &[
                (0xE8, &u32::to_le_bytes(offset)),
                (0xEC, &u32::to_le_bytes(size)),
            ],
        );
        let header = Header::parse_with_opts(&bytes, &ParseOptions::default())?;
        let digest = digest_ranges(&bytes, &header)?;
        assert_eq!(rt; digest.ranges, ranges);
        let slices = authenticode_ranges(&bytes, &header)?;
        assert_eq!(rt; digest.zeros, slices.zeros);
        let mut input = Vec::new(rt.alloc());
        for slice in slices.before_certificates {
            input.extend_from_slice(slice)?;
        }
        for slice in slices.after_certificates {
            input.extend_from_slice(slice)?;
        }
        let mut joined = Vec::new(rt.alloc());
        for range in digest.ranges {
            joined.extend_from_slice(&bytes[range.offset..range.offset + range.length])?;
        }
        assert_eq!(rt; &joined[..], &input[..]);
    }
    Ok(())
}

#[test]
fn fills_up_an_unsigned_image(rt: HostRuntime) -> Result<(), Fail> {
    for (extra, zeros) in [(0, 0), (1, 7), (5, 3), (8, 0)] {
        let mut longer = with_functions(rt.alloc())?;
        put(&mut longer, &[(0xE8, &[0, 0, 0, 0, 0, 0, 0, 0])]);
        for _ in 0..extra {
            longer.push(0x55)?;
        }
        let header = Header::parse_with_opts(&longer, &ParseOptions::default())?;
        assert_eq!(rt; authenticode_ranges(&longer, &header)?.zeros, zeros);
    }
    Ok(())
}

#[test]
fn digests_need_an_optional_header(rt: HostRuntime) -> Result<(), Fail> {
    // The size of the optional header is at 0x54.
    let bytes = with_byte(with_functions(rt.alloc())?, 0x54, 0);
    let header = Header::parse_with_opts(&bytes, &ParseOptions::default())?;
    let refused = [
        checksum(&bytes, &header).err(),
        checksum_range(&header).err(),
        left_out(&header).err(),
        digest_ranges(&bytes, &header).err(),
        authenticode_ranges(&bytes, &header).err(),
    ];
    for error in refused {
        assert!(rt; matches!(error, Some(Error::Malformed(Reason::NoOptionalHeader))));
    }
    Ok(())
}

/// A certificate whose body is one byte.
const CERTIFICATE: [u8; 9] = [9, 0, 0, 0, 0, 2, 2, 0, 0x77];

/// What a byte of the buffer is before a call.
pub(crate) const OLD: u8 = 0xEE;

/// Whether these bytes have this part at this offset.
fn has(bytes: &[u8], offset: usize, part: &[u8]) -> bool {
    &bytes[offset..offset + part.len()] == part
}

fn header_of(bytes: &[u8]) -> Result<Header<'_>, Error> {
    Header::parse_with_opts(bytes, &ParseOptions::default())
}

/// The image without its certificate, and with more bytes after its section.
fn unsigned(alloc: Global, more: &[u8]) -> Result<Vec<u8>, Fail> {
    let mut bytes = with_part(with_functions(alloc)?, 0xE8, &[0; 8]);
    bytes.truncate(0x400);
    bytes.extend_from_slice(more)?;
    Ok(bytes)
}

/// What `attach` writes into a buffer of this size.
fn attached(
    alloc: Global,
    bytes: &[u8],
    placement: Placement,
    size: usize,
) -> Result<(Result<usize, SignError>, Vec<u8>), Fail> {
    let mut out = vec![in alloc; OLD; size]?;
    let result = attach(bytes, &header_of(bytes)?, &CERTIFICATE, placement, &mut out);
    Ok((result, out))
}

#[test]
fn refuses_images(rt: HostRuntime) -> Result<(), Fail> {
    let alloc = rt.alloc();
    let image = || with_functions(alloc);
    // Bytes of the image, whose certificate table is at 0x400; the one section's size is at 0x158.
    let cases = [
        (
            with_byte(image()?, 0x54, 0),
            "Image(Malformed(NoOptionalHeader))",
        ),
        (with_byte(image()?, 0xC4, 4), "NoDirectory(4)"),
        (
            with_byte(image()?, 0xEC, 0x11),
            "Image(Malformed(CertificateTable(1041)))",
        ),
        (with_byte(image()?, 0xEC, 8), "TableNotLast(1032)"),
        (
            with_part(image()?, 0xE8, &[0x6F, 1, 0, 0, 0xA1, 2, 0, 0]),
            "Headers(367)",
        ),
        (with_byte(image()?, 0x158, 1), "Section(0)"),
    ];
    for (bytes, error) in &cases {
        let header = header_of(bytes)?;
        let mut out = vec![in alloc; OLD; 0x800]?;
        for placement in [Placement::After, Placement::InPlace] {
            let refused = attach(bytes, &header, &CERTIFICATE, placement, &mut out);
            let found = shown(alloc, &refused.err())?;
            assert_eq!(rt; found, format!(in alloc; "Some({error})")?);
            let refused = attached_len(bytes, &header, &CERTIFICATE, placement);
            let found = shown(alloc, &refused.err())?;
            assert_eq!(rt; found, format!(in alloc; "Some({error})")?);
        }
        let refused = detach(bytes, &header, &mut out);
        let found = shown(alloc, &refused.err())?;
        assert_eq!(rt; found, format!(in alloc; "Some({error})")?);
        let refused = detached_len(bytes, &header);
        let found = shown(alloc, &refused.err())?;
        assert_eq!(rt; found, format!(in alloc; "Some({error})")?);
        assert!(rt; out.iter().all(|byte| *byte == OLD));
    }
    Ok(())
}

/// A certificate table at 0x401, which is not at a multiple of eight.
fn misaligned(alloc: Global) -> Result<Vec<u8>, Fail> {
    Ok(with_part(with_functions(alloc)?, 0xE8, &[1, 4, 0, 0, 0xF, 0, 0, 0]))
}

#[test]
fn refuses_to_attach_after_a_misaligned_table(rt: HostRuntime) -> Result<(), Fail> {
    let bytes = misaligned(rt.alloc())?;
    let (refused, _) = attached(rt.alloc(), &bytes, Placement::After, 0x800)?;
    // shows: pe_sign/src/attachment.rt certified TableOffset
    assert!(rt; matches!(refused, Err(SignError::TableOffset(0x401))));
    // In its place the certificate goes to 0x408, and a byte of zero or more is before it.
    let (written, out) = attached(rt.alloc(), &bytes, Placement::InPlace, 0x418)?;
    assert!(rt; matches!(written, Ok(0x418)));
    assert!(rt; has(&out, 0xE8, &[8, 4, 0, 0, 0x10, 0, 0, 0]));
    assert!(rt; has(&out, 0x400, &[9, 0, 0, 0, 0, 0, 0, 0]));
    let header = header_of(&bytes)?;
    assert!(rt; matches!(detached_len(&bytes, &header), Ok(0x401)));
    Ok(())
}

#[test]
fn refuses_certificates_and_buffers(rt: HostRuntime) -> Result<(), Fail> {
    let bytes = with_functions(rt.alloc())?;
    let header = header_of(&bytes)?;
    let cases: [(&[u8], &str); 3] = [
        (&[], "Some(Image(Short { at: 0, needed: 8 }))"),
        (&CERTIFICATE[..7], "Some(Image(Short { at: 0, needed: 8 }))"),
        (
            &CERTIFICATE[..8],
            "Some(Image(Malformed(CertificateSize(9))))",
        ),
    ];
    for (certificate, error) in cases {
        let refused = attached_len(&bytes, &header, certificate, Placement::After);
        assert_eq!(rt; shown(rt.alloc(), &refused.err())?.as_str(), error);
    }
    for size in [0, 0x41F] {
        let (refused, out) = attached(rt.alloc(), &bytes, Placement::After, size)?;
        let error = format!(in rt.alloc();
            "Some(Image(Malformed(WriteFit {{ end: 1056, length: {size} }})))"
        )?;
        assert_eq!(rt; shown(rt.alloc(), &refused.err())?, error);
        assert!(rt; out.iter().all(|byte| *byte == OLD));
    }
    let refused = detach(&bytes, &header, &mut []);
    let Err(SignError::Image(Error::Malformed(reason))) = refused else {
        return Err(Fail::new("not refused"));
    };
    assert_matches!(rt; reason => Reason::WriteFit { end: 1024, length: 0 });
    Ok(())
}

/// The reason why an image or a certificate is refused.
fn reason_of(refused: Result<usize, SignError>) -> Option<Reason> {
    match refused {
        Err(SignError::Image(Error::Malformed(reason))) => Some(reason),
        _ => None,
    }
}

#[test]
fn numbers_of_reasons(rt: HostRuntime) -> Result<(), Fail> {
    let bytes = with_functions(rt.alloc())?;
    let header = header_of(&bytes)?;
    // shows: pe_sign/src/attachment.rt require_certificate CertificateSize
    let refused = attached_len(&bytes, &header, &CERTIFICATE[..8], Placement::After);
    assert_eq!(rt; reason_of(refused), Some(Reason::CertificateSize(9)));
    let bytes = with_byte(with_functions(rt.alloc())?, 0xEC, 0x11);
    let header = header_of(&bytes)?;
    // shows: pe_sign/src/checks.rt require_table CertificateTable
    let found = reason_of(detached_len(&bytes, &header));
    assert_eq!(rt; found, Some(Reason::CertificateTable(1041)));
    // The end of a table may need 33 bits.
    let bytes = with_part(with_functions(rt.alloc())?, 0xE8, &[0xFF; 8]);
    let header = header_of(&bytes)?;
    let found = reason_of(detached_len(&bytes, &header));
    assert_eq!(rt; found, Some(Reason::CertificateTable(0x1_FFFF_FFFE)));
    Ok(())
}

/// Why a call of an image is refused, by its bytes: `detach` refuses what `attach` does.
fn refusal_of(bytes: &[u8]) -> Result<Option<SignError>, Fail> {
    Ok(detached_len(bytes, &header_of(bytes)?).err())
}

/// The image with three sections. The header of the second is at 0x170, that of the third at 0x198; their data are `sizes`
/// bytes from 0x3F8 on, and the certificates start at 0x400.
fn with_sections(alloc: Global, sizes: [u8; 2]) -> Result<Vec<u8>, Fail> {
    let bytes = with_byte(with_functions(alloc)?, 0x46, 3);
    let second = with_part(bytes, 0x180, &[sizes[0], 0, 0, 0, 0xF8, 3, 0, 0]);
    Ok(with_part(second, 0x1A8, &[sizes[1], 0, 0, 0, 0xF8, 3, 0, 0]))
}

#[test]
fn numbers_of_sign_errors(rt: HostRuntime) -> Result<(), Fail> {
    let alloc = rt.alloc();
    assert!(rt; refusal_of(&with_sections(alloc, [8, 8])?)?.is_none());
    // shows: pe_sign/src/checks.rt require_sections Section
    for (sizes, index) in [([9, 8], 1), ([8, 9], 2), ([9, 9], 1)] {
        let refused = refusal_of(&with_sections(alloc, sizes)?)?;
        assert!(rt; matches!(refused, Some(SignError::Section(at)) if at == index));
    }
    // shows: pe_sign/src/checks.rt require_table NoDirectory
    for count in [3, 4] {
        let refused = refusal_of(&with_byte(with_functions(alloc)?, 0xC4, count))?;
        assert!(rt; matches!(refused, Some(SignError::NoDirectory(n)) if n == count as usize));
    }
    // shows: pe_sign/src/checks.rt require_table TableNotLast
    for (size, end) in [(8, 0x408), (15, 0x40F)] {
        let refused = refusal_of(&with_byte(with_functions(alloc)?, 0xEC, size))?;
        assert!(rt; matches!(refused, Some(SignError::TableNotLast(at)) if at == end));
    }
    // shows: pe_sign/src/checks.rt image Headers
    let signed = with_part(
        with_functions(alloc)?,
        0xE8,
        &[0x6F, 1, 0, 0, 0xA1, 2, 0, 0],
    );
    assert!(rt; matches!(refusal_of(&signed)?, Some(SignError::Headers(0x16F))));
    let mut unsigned = unsigned(alloc, &[])?;
    unsigned.truncate(0x150);
    assert!(rt; matches!(refusal_of(&unsigned)?, Some(SignError::Headers(0x150))));
    Ok(())
}

#[test]
fn texts_of_sign_errors(rt: HostRuntime) -> Result<(), Fail> {
    let alloc = rt.alloc();
    let texts = [
        (
            SignError::NoDirectory(4),
            "no certificate directory: the optional header has 4 data directories",
        ),
        (
            SignError::TableNotLast(0x408),
            "certificate table ends at file offset 0x408, before the end of the file",
        ),
    ];
    for (error, text) in &texts {
        assert_eq!(rt; format!(in alloc; "{error}")?.as_str(), *text);
    }
    Ok(())
}
