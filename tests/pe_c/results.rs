//! The numbers of results, and their texts.

use super::made::*;
use crate::base::{pe_c_abi_5, pe_c_guid_text, pe_c_text, pe_c_text_in, pe_c_utf16_text};
use calls_base::ended_texts::TextInBytes;
use calls_base::results::{number_of, number_of_directory, number_of_signing, number_of_tree};
use pe_core::{Error, Reason};
use pe_directories::DirectoryError;
use pe_resource::ResourceTreeError;
use pe_sign::SignError;
use std::process::Abort;

/// The numbers that programs in C know are those of tools/errors.toml, of which all lists are made: where one is put between others,
/// the last of its group is another.
#[test]
fn refusals_have_their_numbers(rt: HostRuntime) {
    assert_eq!(rt; number_of(&Error::Memory(AllocError)), 1);
    assert_eq!(rt; number_of(&Error::Short { at: 7, needed: 9 }), 2);
    assert_eq!(rt; number_of(&Error::BadMagic(100)), 3);
    for (number, reason) in [
        (4, Reason::HeaderPointer(100)),
        (22, Reason::FunctionCycle(100)),
        (32, Reason::NoOptionalHeader),
        (38, Reason::ImportsLimit { count: 9, limit: 7 }),
    ] {
        assert_eq!(rt; number_of(&Error::Malformed(reason)), number);
    }
    let fit = || Error::Malformed(Reason::WriteFit { end: 7, length: 9 });
    assert_eq!(rt; number_of_signing(&SignError::Image(fit())), 37);
    assert_eq!(rt; number_of_signing(&SignError::NoDirectory(4)), 201);
    assert_eq!(rt; number_of_signing(&SignError::TooLarge), 206);
    assert_eq!(rt; number_of_directory(&DirectoryError::Image(fit())), 37);
    assert_eq!(rt; number_of_directory(&DirectoryError::BlockSize(9)), 301);
    let found = number_of_directory(&DirectoryError::RelocationOutside(9));
    assert_eq!(rt; found, 310);
    assert_eq!(rt; number_of_tree(&ResourceTreeError::Image(fit())), 37);
    assert_eq!(rt; number_of_tree(&ResourceTreeError::NotDirectory(9)), 401);
    assert_eq!(rt; number_of_tree(&ResourceTreeError::NoEntries(9)), 403);
}

/// The start of the text of an answer.
fn check_text(rt: &impl Abort, answer: u32, want: &str) {
    let mut room = [b'.'; 128];
    let length = pe_c_text(answer, &mut room);
    assert!(rt; want.len() <= length && length < 128, "of {answer}");
    assert_eq!(rt; &room[..want.len()], want.as_bytes(), "of {answer}");
    assert_eq!(rt; room[length], 0, "after {answer}");
    assert!(rt;
        room[length + 1..].iter().all(|byte| *byte == b'.'),
        "after {answer}"
    );
}

/// The first and the last of each group, and results that are no errors.
#[test]
fn results_have_texts(rt: HostRuntime) {
    for (number, text) in [
        (0, "done"),
        (2, "truncated"),
        (38, "image has more imports than the limit"),
        (100, "there is nothing"),
        (107, "pieces of memory overlap or do not ascend"),
        (201, "image has no certificate directory"),
        (206, "image with the certificate has 2^32 bytes or more"),
        (301, "base relocation block size below 8 or odd"),
        (310, "base relocation outside of the image"),
        (401, "resource data entry above the level of languages"),
        (403, "resource directory of names or languages has no"),
        (451, "more than 65,535 resources"),
        (474, "contents of the resources, which share bytes,"),
        (501, "element of a signature truncated before its"),
        (513, "element of a signature has no content"),
        (551, "invalid signature of a minidump"),
        (560, "context of another machine"),
        (601, "a PDB 2.0, which has another layout"),
        (
            627,
            "more than 64 inlined functions at one offset of a procedure",
        ),
    ] {
        check_text(&rt, number, text);
    }
    for unknown in [
        39,
        99,
        108,
        200,
        207,
        300,
        311,
        400,
        404,
        450,
        475,
        500,
        514,
        550,
        561,
        600,
        628,
        u32::MAX,
    ] {
        check_text(&rt, unknown, "unknown result");
    }
}

/// No two results have the same text, also not one that they share with all others.
#[test]
fn texts_differ(rt: HostRuntime) {
    // All others have the text of 39.
    let is_other = |number: u32| {
        39 < number && number < 201
            || 206 < number && number < 301
            || 310 < number && number < 401
            || 403 < number && number < 451
            || 474 < number && number < 501
            || 513 < number && number < 551
            || 560 < number && number < 601
    };
    for one in 0..=627 {
        for other in 0..one {
            if is_other(one) || is_other(other) {
                continue;
            }
            let (mut first, mut second) = ([0; 128], [0; 128]);
            pe_c_text(one, &mut first);
            pe_c_text(other, &mut second);
            assert!(rt; first != second, "of {one} and {other}");
        }
    }
}

#[test]
fn a_text_is_cut_at_the_end_of_its_room(rt: HostRuntime) {
    let mut room = [b'.'; 6];
    assert_eq!(rt; pe_c_text(0, &mut room), 4);
    assert_eq!(rt; &room, b"done\0.");
    assert_eq!(rt; pe_c_text(2, &mut room), 9);
    assert_eq!(rt; &room, b"trunc\0");
    assert_eq!(rt; pe_c_text(2, &mut room[..1]), 9);
    assert_eq!(rt; &room, b"\0runc\0");
    assert_eq!(rt; pe_c_text(2, &mut []), 9);
}

/// The number of the ABI is that of its name.
#[test]
fn number_of_the_abi(rt: HostRuntime) {
    assert_eq!(rt; pe_c_abi_5(), 5);
}

// ---- texts for programs in C: GUIDs, texts in UTF-16, texts that end with a zero where they stand

/// The GUID of the README, as the bytes of a file have it.
const GUID: [u8; 16] = *b"\xF6\x72\x7B\x49\x0A\x39\xFC\x44\x87\x8E\x5A\x2D\x63\xB6\xCC\x4B";

#[test]
fn guids_with_hyphens_and_without(rt: HostRuntime) -> Result<(), Fail> {
    for (form, want) in [
        (0, "497B72F6-390A-44FC-878E-5A2D63B6CC4B"),
        (1, "497B72F6390A44FC878E5A2D63B6CC4B"),
    ] {
        let length = want.len();
        let mut room = [0x55; 40];
        let mut written = 9;
        // more bytes than those of the GUID make no difference
        let mut bytes = [7; 20];
        bytes[..16].copy_from_slice(&GUID);
        assert_eq!(rt; pe_c_guid_text(&bytes, form, &mut room, &mut written), DONE);
        assert_eq!(rt; &room[..length], want.as_bytes());
        let found = (written, room[length], room[length + 1]);
        assert_eq!(rt; found, (length as u64, 0, 0x55));
        // the zero needs room too
        let mut room = [0x55; 40];
        let found = pe_c_guid_text(&GUID, form, &mut room[..length], &mut written);
        assert_eq!(rt; found, ROOM);
        assert_eq!(rt; (written, room), (length as u64 + 1, [0x55; 40]));
    }
    let mut room = [0x55; 40];
    let mut written = 9;
    // shows: pe_c/src/base.rt pe_c_guid_text Short
    let found = pe_c_guid_text(&GUID[..15], 0, &mut room, &mut written);
    assert_eq!(rt; found, SHORT);
    assert_eq!(rt; (written, room), (9, [0x55; 40]));
    Ok(())
}

/// Each digit of a GUID.
#[test]
fn all_digits_of_guids(rt: HostRuntime) -> Result<(), Fail> {
    let mut room = [0; 33];
    let mut written = 0;
    let guid = *b"\x67\x45\x23\x01\xAB\x89\xEF\xCD\x01\x23\x45\x67\x89\xAB\xCD\xEF";
    assert_eq!(rt; pe_c_guid_text(&guid, 1, &mut room, &mut written), DONE);
    assert_eq!(rt; &room[..32], b"0123456789ABCDEF0123456789ABCDEF".as_slice());
    Ok(())
}

/// What the text of a range is, and its length; the room has so many bytes.
fn utf8_of(bytes: &[u8], room: &mut [u8]) -> (u32, u64) {
    let mut written = 99;
    let whole = range(0, bytes.len() as u64);
    let answer = pe_c_utf16_text(bytes, &whole, room, &mut written);
    (answer, written)
}

#[test]
fn texts_in_utf8(rt: HostRuntime) -> Result<(), Fail> {
    // of 1 to 4 bytes: A, e with an acute accent, the euro sign, an emoji as a pair; a zero is a character
    let bytes = b"A\0\xE9\0\xAC\x20\x3D\xD8\x00\xDE\0\0z\0";
    let want = b"A\xC3\xA9\xE2\x82\xAC\xF0\x9F\x98\x80\0z";
    let mut room = [0x55; 20];
    assert_eq!(rt; utf8_of(bytes, &mut room), (DONE, 12));
    assert_eq!(rt; (&room[..12], room[12], room[13]), (&want[..], 0, 0x55));
    let mut room = [0x55; 20];
    assert_eq!(rt; utf8_of(bytes, &mut room[..12]), (ROOM, 13));
    assert_eq!(rt; room, [0x55; 20]);
    Ok(())
}

/// U+FFFD for a surrogate without a partner: at the end, before another first one, before a letter, a second one alone.
#[test]
fn surrogates_without_a_partner(rt: HostRuntime) -> Result<(), Fail> {
    let other = b"\xEF\xBF\xBD";
    let mut room = [0; 20];
    for bytes in [b"\x3D\xD8".as_slice(), b"\x00\xDC\x41"] {
        assert_eq!(rt; utf8_of(bytes, &mut room), (DONE, 3));
        assert_eq!(rt; &room[..4], b"\xEF\xBF\xBD\0".as_slice());
    }
    assert_eq!(rt; utf8_of(b"\x3D\xD8\x3D\xD8\x00\xDE", &mut room), (DONE, 7));
    let found = (&room[..3], &room[3..7]);
    assert_eq!(rt; found, (&other[..], &b"\xF0\x9F\x98\x80"[..]));
    // the last and the first of each kind
    assert_eq!(rt; utf8_of(b"\xFF\xD7\x00\xE0\xFF\xFF", &mut room), (DONE, 9));
    let found = &room[..9];
    assert_eq!(rt; found, b"\xED\x9F\xBF\xEE\x80\x80\xEF\xBF\xBF".as_slice());
    let found = utf8_of(b"\xFF\xDB\xFF\xDF\x00\xD8\x00\xDC", &mut room);
    assert_eq!(rt; found, (DONE, 8));
    assert_eq!(rt; &room[..8], b"\xF4\x8F\xBF\xBF\xF0\x90\x80\x80".as_slice());
    Ok(())
}

#[test]
fn short_texts_and_ranges_that_lie(rt: HostRuntime) -> Result<(), Fail> {
    let mut room = [0x55; 4];
    assert_eq!(rt; utf8_of(b"", &mut room), (DONE, 0));
    assert_eq!(rt; room, [0, 0x55, 0x55, 0x55]);
    assert_eq!(rt; utf8_of(b"A\0B", &mut room), (DONE, 1));
    assert_eq!(rt; room, [b'A', 0, 0x55, 0x55]);
    let mut written = 9;
    let lie = range(1, 8);
    let found = pe_c_utf16_text(&[0x41; 8], &lie, &mut room, &mut written);
    assert_eq!(rt; found, SHORT);
    assert_eq!(rt; (written, room), (9, [b'A', 0, 0x55, 0x55]));
    // a range in the middle
    let answer = pe_c_utf16_text(b"xA\0B\0y", &range(1, 4), &mut room, &mut written);
    assert_eq!(rt; (answer, written, &room[..3]), (DONE, 2, &b"AB\0"[..]));
    Ok(())
}

#[test]
fn texts_where_they_stand(rt: HostRuntime) -> Result<(), Fail> {
    let bytes = b"name\0more\0x";
    for (whole, want, is_terminated) in [
        (range(0, 11), [0, 4], 1),
        (range(0, 4), [0, 4], 1),
        (range(0, 3), [0, 3], 0),
        (range(10, 1), [10, 1], 0),
    ] {
        let mut out = TextInBytes {
            text: range(7, 7),
            is_terminated: 7,
            spare: 7,
        };
        assert_eq!(rt; pe_c_text_in(bytes, &whole, &mut out), DONE);
        let found = (of_range(out.text), out.is_terminated, out.spare);
        assert_eq!(rt; found, (want, is_terminated, 0));
    }
    let mut out = TextInBytes {
        text: range(7, 7),
        is_terminated: 7,
        spare: 7,
    };
    assert_eq!(rt; pe_c_text_in(bytes, &range(1, 11), &mut out), SHORT);
    assert_eq!(rt; (of_range(out.text), out.is_terminated), ([7, 7], 7));
    Ok(())
}
