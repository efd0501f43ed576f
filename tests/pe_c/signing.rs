//! What signing tools call. The image is one of 1,040 bytes with a section up to 0x400 and a certificate of 9 bytes after
//! it; its checksum is at 0x98, the entry of the certificate directory at 0xE8. What is written follows from the format;
//! the checksums are those that `osslsigncode verify` 2.9 calculates of the same bytes.

use super::made::*;
use crate::directories::pe_c_next_certificate;
use crate::write::{pe_c_attach, pe_c_checksum, pe_c_detach, pe_c_digest_ranges};
use calls_directories::directories::certificates::Certificate;
use calls_write::signing::{ChecksumField, Digest};
use pe_images::{image as bytes_of, with_functions};

/// The placements: after the others, and in their place.
const AFTER: u32 = 0;

const IN_PLACE: u32 = 1;

/// A certificate whose body is one byte.
const CERTIFICATE: [u8; 9] = [9, 0, 0, 0, 0, 2, 2, 0, 0x77];

/// Ranges, and the zeros after them.
type Covered = ([[u64; 2]; 4], u64);

fn digest_of(bytes: &[u8]) -> (u32, Covered) {
    let mut out = Digest {
        ranges: [untouched(); 4],
        zeros: 9,
    };
    let number = pe_c_digest_ranges(&view(bytes, &image(X64), &[]), &mut out);
    let [a, b, c, d] = out.ranges;
    (
        number,
        (
            [of_range(a), of_range(b), of_range(c), of_range(d)],
            out.zeros,
        ),
    )
}

fn checksum_of(bytes: &[u8]) -> (u32, (u64, u32, u32)) {
    let mut out = ChecksumField {
        offset: 5,
        value: 6,
        spare: 7,
    };
    let number = pe_c_checksum(&view(bytes, &image(X64), &[]), &mut out);
    (number, (out.offset, out.value, out.spare))
}

/// The image with a part put at an offset.
pub(crate) fn having(alloc: Global, offset: usize, part: &[u8]) -> Result<Vec<u8>, AllocError> {
    let mut bytes = with_functions(alloc)?;
    put(&mut bytes, &[(offset, part)]);
    Ok(bytes)
}

/// The image without its certificate, and with more bytes after its section.
fn unsigned(alloc: Global, more: &[u8]) -> Result<Vec<u8>, Fail> {
    let mut bytes = having(alloc, 0xE8, &[0; 8])?;
    bytes.truncate(0x400);
    bytes.extend_from_slice(more)?;
    Ok(bytes)
}

/// What `attach` returns and writes into a room of this size, and the length that it says it needs.
fn attached(
    alloc: Global,
    bytes: &[u8],
    certificate: &[u8],
    placement: u32,
    size: usize,
) -> Result<([u32; 2], [u64; 2], Vec<u8>), Fail> {
    let mut room = vec![in alloc; OLD; size]?;
    let (mut written, mut needed) = (OLD_LENGTH, OLD_LENGTH);
    let info = image(X64);
    let first = pe_c_attach(
        &view(bytes, &info, &[]),
        certificate,
        placement,
        &mut [],
        &mut needed,
    );
    let second = pe_c_attach(
        &view(bytes, &info, &[]),
        certificate,
        placement,
        &mut room,
        &mut written,
    );
    Ok(([asked(first), second], [needed, written], room))
}

/// The same of `detach`.
fn detached(
    alloc: Global,
    bytes: &[u8],
    size: usize,
) -> Result<([u32; 2], [u64; 2], Vec<u8>), Fail> {
    let mut room = vec![in alloc; OLD; size]?;
    let (mut written, mut needed) = (OLD_LENGTH, OLD_LENGTH);
    let info = image(X64);
    let first = pe_c_detach(&view(bytes, &info, &[]), &mut [], &mut needed);
    let second = pe_c_detach(&view(bytes, &info, &[]), &mut room, &mut written);
    Ok(([asked(first), second], [needed, written], room))
}

pub(crate) fn has(bytes: &[u8], offset: usize, part: &[u8]) -> bool {
    &bytes[offset..offset + part.len()] == part
}

const EMPTY: [u64; 2] = [0, 0];

#[test]
fn ranges_leave_out_three_parts(rt: HostRuntime) -> Result<(), Fail> {
    let bytes = with_functions(rt.alloc())?;
    let before = [[0, 0x98], [0x9C, 0x4C], [0xF0, 0x310]];
    let [a, b, c] = before;
    assert_eq!(rt; digest_of(&bytes), (DONE, ([a, b, c, EMPTY], 0)));
    // Without certificates the last range goes on to the end of the file, and zeros fill that up.
    for (more, zeros) in [(0, 0), (1, 7), (5, 3), (8, 0)] {
        let longer = unsigned(rt.alloc(), &[0x55; 8][..more])?;
        let last = [0xF0, 0x310 + more as u64];
        assert_eq!(rt; digest_of(&longer), (DONE, ([a, b, last, EMPTY], zeros)));
    }
    // What is after the certificates is a range too: here they have 8 bytes, and 8 of the file follow.
    let shorter = having(rt.alloc(), 0xEC, &[8])?;
    assert_eq!(rt; digest_of(&shorter), (DONE, ([a, b, c, [0x408, 8]], 0)));
    Ok(())
}

#[test]
fn checksums_are_calculated(rt: HostRuntime) -> Result<(), Fail> {
    let mut bytes = with_functions(rt.alloc())?;
    assert_eq!(rt; checksum_of(&bytes), (DONE, (0x98, 0x7C12, 0)));
    // What the field holds is not summed.
    put(&mut bytes, &[(0x98, &[0x11, 0x22, 0x33, 0x44])]);
    assert_eq!(rt; checksum_of(&bytes), (DONE, (0x98, 0x7C12, 0)));
    Ok(())
}

#[test]
fn certificates_are_attached(rt: HostRuntime) -> Result<(), Fail> {
    let bytes = unsigned(rt.alloc(), &[0x55, 0x55, 0x55])?;
    // Only whether the placement is even counts.
    let (numbers, lengths, room) = attached(rt.alloc(), &bytes, &CERTIFICATE, 2, 0x420)?;
    assert_eq!(rt; (numbers, lengths), ([DONE; 2], [0x418; 2]));
    assert!(rt; has(&room, 0x98, &[0x99, 0xD1, 0, 0]));
    assert!(rt; has(&room, 0xE8, &[8, 4, 0, 0, 0x10, 0, 0, 0]));
    assert_eq!(rt; &room[0xF0..0x403], &bytes[0xF0..]);
    assert!(rt; has(&room, 0x403, &[0; 5]));
    assert!(rt; has(&room, 0x408, &CERTIFICATE));
    assert!(rt; has(&room, 0x411, &[0; 7]));
    assert!(rt; has(&room, 0x418, &[OLD; 8]));
    let signed = with_functions(rt.alloc())?;
    let (numbers, lengths, room) = attached(rt.alloc(), &signed, &CERTIFICATE, AFTER, 0x420)?;
    assert_eq!(rt; (numbers, lengths), ([DONE; 2], [0x420; 2]));
    assert!(rt; has(&room, 0x98, &[0xB4, 0x7E, 0, 0]));
    assert!(rt; has(&room, 0xE8, &[0, 4, 0, 0, 0x20, 0, 0, 0]));
    assert_eq!(rt; &room[0x400..0x410], &signed[0x400..]);
    assert!(rt; has(&room, 0x410, &CERTIFICATE));
    let (numbers, lengths, room) = attached(rt.alloc(), &signed, &CERTIFICATE, IN_PLACE, 0x410)?;
    assert_eq!(rt; (numbers, lengths), ([DONE; 2], [0x410; 2]));
    assert!(rt; has(&room, 0x400, &CERTIFICATE));
    Ok(())
}

#[test]
fn certificates_are_detached(rt: HostRuntime) -> Result<(), Fail> {
    let bytes = with_functions(rt.alloc())?;
    let (numbers, lengths, room) = detached(rt.alloc(), &bytes, 0x410)?;
    assert_eq!(rt; (numbers, lengths), ([DONE; 2], [0x400; 2]));
    assert_eq!(rt; &room[..0x98], &bytes[..0x98]);
    assert_eq!(rt; &room[0x9C..0xE8], &bytes[0x9C..0xE8]);
    assert!(rt; has(&room, 0xE8, &[0; 8]));
    assert_eq!(rt; &room[0xF0..0x400], &bytes[0xF0..0x400]);
    assert!(rt; has(&room, 0x400, &[OLD; 0x10]));
    // The checksum is that of what was written.
    let (_, (_, sum, _)) = checksum_of(&room[..0x400]);
    assert!(rt; has(&room, 0x98, &sum.to_le_bytes()));
    // To attach the certificate again gives the image back, but for its checksum.
    let (numbers, _, again) = attached(
        rt.alloc(),
        &room[..0x400],
        &bytes[0x400..],
        IN_PLACE,
        0x410,
    )?;
    assert_eq!(rt; numbers, [DONE; 2]);
    assert_eq!(rt; &again[..0x98], &bytes[..0x98]);
    assert_eq!(rt; &again[0x9C..], &bytes[0x9C..]);
    assert!(rt; has(&again, 0x98, &[0x12, 0x7C, 0, 0]));
    Ok(())
}

/// A write that is refused leaves the room and the length as they were.
#[test]
fn refused_writes_change_nothing(rt: HostRuntime) -> Result<(), Fail> {
    let parts: [(usize, &[u8], u32); 6] = [
        // Four data directories: their count is at 0xC4.
        (0xC4, &[4], SIGN_NO_DIRECTORY),
        (0xED, &[1], CERTIFICATE_TABLE),
        (0xEC, &[8], SIGN_TABLE_NOT_LAST),
        // The table starts in the headers, and in the section.
        (0xE8, &[0x10, 0, 0, 0, 0, 4, 0, 0], SIGN_HEADERS),
        (0xE8, &[0xF8, 3, 0, 0, 0x18, 0, 0, 0], SIGN_SECTION),
        (0xE8, &[1, 4, 0, 0, 0xF, 0, 0, 0], SIGN_TABLE_OFFSET),
    ];
    for (offset, part, number) in parts {
        let bytes = having(rt.alloc(), offset, part)?;
        let (numbers, lengths, room) = attached(rt.alloc(), &bytes, &CERTIFICATE, AFTER, 0x420)?;
        assert_eq!(rt; (numbers, lengths), ([number; 2], [OLD_LENGTH; 2]));
        assert!(rt; room.iter().all(|byte| *byte == OLD));
    }
    // A certificate that says it has more bytes than it has.
    let (bytes, long) = (with_functions(rt.alloc())?, [10, 0, 0, 0, 0, 2, 2, 0, 0x77]);
    let (numbers, ..) = attached(rt.alloc(), &bytes, &long, AFTER, 0x420)?;
    assert_eq!(rt; numbers, [CERTIFICATE_SIZE; 2]);
    // A room of one byte less than the file.
    let (numbers, lengths, room) = attached(rt.alloc(), &bytes, &CERTIFICATE, AFTER, 0x41F)?;
    assert_eq!(rt; (numbers, lengths), ([DONE, ROOM], [0x420; 2]));
    assert!(rt; room.iter().all(|byte| *byte == OLD));
    let (numbers, lengths, room) = detached(rt.alloc(), &bytes, 0x3FF)?;
    assert_eq!(rt; (numbers, lengths), ([DONE, ROOM], [0x400; 2]));
    assert!(rt; room.iter().all(|byte| *byte == OLD));
    let bytes = having(rt.alloc(), 0xC4, &[4])?;
    let (numbers, lengths, _) = detached(rt.alloc(), &bytes, 0x420)?;
    let found = (numbers, lengths);
    assert_eq!(rt; found, ([SIGN_NO_DIRECTORY; 2], [OLD_LENGTH; 2]));
    Ok(())
}

// ---- the certificates of a table, one a step

/// Body, length, revision and type of a certificate.
type Fields = ([u64; 2], u32, u16, u16);

const NO_CERTIFICATE: Fields = (UNTOUCHED, 5, 6, 7);

fn step(bytes: &[u8], walk: &mut Range) -> (u32, Fields, [u64; 2]) {
    let mut out = Certificate {
        body: untouched(),
        length: 5,
        revision: 6,
        certificate_type: 7,
    };
    let answer = pe_c_next_certificate(bytes, walk, &mut out);
    let Certificate {
        body,
        length,
        revision,
        certificate_type,
    } = out;
    let fields = (of_range(body), length, revision, certificate_type);
    (answer, fields, of_range(*walk))
}

/// At offset 8: certificates of 9, 8 and 16 bytes, each with a length u32, a revision u16 and a type u16 before its
/// body, and zeros up to a multiple of eight; and 8 bytes after.
pub(crate) fn three_certificates(alloc: Global) -> Result<Vec<u8>, Fail> {
    Ok(bytes_of(
        alloc,
        56,
        &[
            (8, &[9, 0, 0, 0, 0, 2, 2, 0, 0xAA]),
            (24, &[8, 0, 0, 0, 0, 1, 1, 0]),
            (32, &[16, 0, 0, 0, 0, 2, 4, 0, 1, 2, 3, 4, 5, 6, 7, 8]),
        ],
    )?)
}

const FIRST: Fields = ([16, 1], 9, 0x200, 2);

#[test]
fn certificates_in_turn(rt: HostRuntime) -> Result<(), Fail> {
    let bytes = three_certificates(rt.alloc())?;
    let mut walk = range(8, 40);
    for (fields, after) in [
        (FIRST, [24, 24]),
        (([32, 0], 8, 0x100, 1), [32, 16]),
        (([40, 8], 16, 0x200, 4), OVER),
    ] {
        assert_eq!(rt; step(&bytes, &mut walk), (DONE, fields, after));
    }
    assert_eq!(rt; step(&bytes, &mut walk), (NOTHING, NO_CERTIFICATE, OVER));
    Ok(())
}

/// A certificate starts before the walk's end, and its body may pass it, though not the end of the bytes. The walk is over
/// where the certificate's end, rounded up to eight, is not before its own.
#[test]
fn certificates_at_the_end_of_a_walk(rt: HostRuntime) -> Result<(), Fail> {
    let bytes = three_certificates(rt.alloc())?;
    for (length, after) in [(1, OVER), (16, OVER), (17, [24, 1])] {
        let mut walk = range(8, length);
        let found = step(&bytes, &mut walk);
        assert_eq!(rt; found, (DONE, FIRST, after), "of {length}");
    }
    let mut next = range(24, 1);
    let found = step(&bytes, &mut next);
    assert_eq!(rt; found, (DONE, ([32, 0], 8, 0x100, 1), OVER));
    Ok(())
}

/// After a refusal the walk is over. A damage is bytes at an offset.
#[test]
fn certificates_that_are_refused(rt: HostRuntime) -> Result<(), Fail> {
    let damages: [(usize, &[u8], u32); 3] = [
        (12, &[0, 3], CERTIFICATE_REVISION),
        (14, &[5], CERTIFICATE_TYPE),
        (8, &[49], CERTIFICATE_SIZE),
    ];
    for (offset, damage, number) in damages {
        let mut bytes = three_certificates(rt.alloc())?;
        put(&mut bytes, &[(offset, damage)]);
        let mut walk = range(8, 40);
        let want = (number, NO_CERTIFICATE, OVER);
        assert_eq!(rt; step(&bytes, &mut walk), want, "{damage:?} at {offset}");
    }
    // a length below that of the header is one of no body
    let mut bytes = three_certificates(rt.alloc())?;
    put(&mut bytes, &[(8, &[3])]);
    let empty = (DONE, ([16, 0], 3, 0x200, 2), [16, 32]);
    assert_eq!(rt; step(&bytes, &mut range(8, 40)), empty);
    let mut cut = range(49, 7);
    assert_eq!(rt; step(&bytes, &mut cut), (SHORT, NO_CERTIFICATE, OVER));
    // shows: calls_directories/src/directories/certificates.rt step CertificateTable
    let mut lie = range(8, 49);
    let want = (CERTIFICATE_TABLE, NO_CERTIFICATE, OVER);
    assert_eq!(rt; step(&bytes, &mut lie), want);
    Ok(())
}
