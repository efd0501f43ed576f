//! The version information of an image, and its manifest; and its blocks: where they are, one a step, and walks that end or go on after an
//! error.

use super::made::*;
use super::shared::VERSION_NAMES;
use super::steps::{pe_c_fixed_version, pe_c_next_version_block, pe_c_version_text};
use crate::resources::{
    pe_c_fixed_version_in, pe_c_manifest, pe_c_version_blocks, pe_c_version_text_in,
};
use crate::write::{pe_c_write_block, pe_c_write_version};
use calls_directories::resources::version_blocks::VersionBlock;
use pe_images::image as bytes_of;
use pe_resource::VsFixedFileInfo;
use pe_version::{LanguageRecord, StringRecord, TableRecord};

/// The first directory has two entries, with the ids 16 and 24, whose data entries stand at 0x20 and 0x30. These lead to
/// the address 0x1044, of bytes that come after, and to the four bytes before that. Read as a directory, a data
/// entry that ends with four zeros has no entries, so the walk ends there.
pub(crate) const TREE: &[(usize, &[u8])] = &[
    (0x0E, &[2, 0]),
    (0x10, &[16, 0, 0, 0, 0x20, 0, 0, 0]),
    (0x18, &[24, 0, 0, 0, 0x30, 0, 0, 0]),
    (0x20, &[0x44, 0x10]),
    (0x30, &[0x40, 0x10, 0, 0, 4]),
    (0x40, b"<a/>"),
];

/// Where version information starts.
const CONTENT: usize = 0x44;

/// A string of version information after the others: its length, that of its value and its type, in two bytes each; the
/// units of its key, and one of zero; the value. Key and value are filled up to a multiple of four. Returns the value's
/// offset.
fn push_string(
    bytes: &mut Vec<u8>,
    key: &str,
    kind: u8,
    value: &[u8],
) -> Result<usize, AllocError> {
    let units = if kind == 1 {
        value.len() / 2
    } else {
        value.len()
    };
    for byte in [1, 0, units as u8, 0, kind, 0] {
        bytes.push(byte)?;
    }
    for byte in key.as_bytes() {
        bytes.push(*byte)?;
        bytes.push(0)?;
    }
    bytes.push(0)?;
    bytes.push(0)?;
    while bytes.len() % 4 != 0 {
        bytes.push(0)?;
    }
    let offset = bytes.len();
    for byte in value {
        bytes.push(*byte)?;
    }
    while bytes.len() % 4 != 0 {
        bytes.push(0)?;
    }
    Ok(offset)
}

/// The tree, and the size of the version information that stands after it, up to the end of the bytes.
fn with_size(mut bytes: Vec<u8>) -> Vec<u8> {
    let size = (bytes.len() - CONTENT) as u16;
    put(&mut bytes, &[(0x24, &size.to_le_bytes())]);
    bytes
}

/// Thirteen numbers of four bytes.
const FIXED: &[u8] = &[
    0xBD, 0x04, 0xEF, 0xFE, 0, 0, 1, 0, 11, 0, 3, 0, 0xF5, 3, 0x4E, 12, 2, 0, 1, 0, 4, 0, 3, 0,
    0x3F, 0, 0, 0, 1, 2, 3, 4, 4, 0, 4, 0, 5, 6, 7, 8, 9, 10, 11, 12, 13, 14, 15, 16, 17, 18, 19,
    20,
];

const WANT: VsFixedFileInfo = VsFixedFileInfo {
    signature: 0xFEEF_04BD,
    struct_version: 0x1_0000,
    file_version_ms: 0x3_000B,
    file_version_ls: 0x0C4E_03F5,
    product_version_ms: 0x1_0002,
    product_version_ls: 0x3_0004,
    file_flags_mask: 0x3F,
    file_flags: 0x0403_0201,
    file_os: 0x4_0004,
    file_type: 0x0807_0605,
    file_subtype: 0x0C0B_0A09,
    file_date_ms: 0x100F_0E0D,
    file_date_ls: 0x1413_1211,
};

/// What fixed file information is before a call that hands out another.
fn no_version() -> VsFixedFileInfo {
    VsFixedFileInfo {
        signature: 9,
        ..WANT
    }
}

/// An image with its resource directory at offset 0, of all of these bytes.
fn with_resources(size: usize) -> Image {
    having(image(X64), 2, directory(0x1000, size as u32))
}

fn fixed_of(bytes: &[u8], image: &Image) -> (u32, VsFixedFileInfo) {
    let mut out = no_version();
    let answer = pe_c_fixed_version(&view(bytes, image, &sections()), &mut out);
    (answer, out)
}

fn text_of(bytes: &[u8], image: &Image, name: u32) -> (u32, [u64; 2]) {
    let mut out = untouched();
    let answer = pe_c_version_text(&view(bytes, image, &sections()), name, &mut out);
    (answer, of_range(out))
}

fn manifest_of(bytes: &[u8], image: &Image) -> (u32, [u64; 2]) {
    let mut out = untouched();
    let answer = pe_c_manifest(&view(bytes, image, &sections()), &mut out);
    (answer, of_range(out))
}

/// The names stand in the other order, each with a unit of zero after up to five others. A value ends at a multiple of
/// four.
#[test]
fn versions_and_manifests(rt: HostRuntime) -> Result<(), Fail> {
    let alloc = rt.alloc();
    let mut bytes = bytes_of(alloc, CONTENT, TREE)?;
    push_string(&mut bytes, "VS_VERSION_INFO", 0, FIXED)?;
    let mut offsets = [0; 12];
    for number in (0..12usize).rev() {
        let value = [b'.', 0, b'.', 0, b'.', 0, b'.', 0, b'.', 0, b'.', 0];
        let text = &value[..2 * (number % 6)];
        let mut units = Vec::new(alloc);
        units.extend_from_slice(text)?;
        units.extend_from_slice(&[0, 0])?;
        offsets[number] = push_string(&mut bytes, VERSION_NAMES[number], 1, &units)?;
    }
    let bytes = with_size(bytes);
    let image = with_resources(bytes.len());
    assert_eq!(rt; fixed_of(&bytes, &image), (DONE, WANT));
    assert_eq!(rt; manifest_of(&bytes, &image), (DONE, [0x40, 4]));
    for number in 0..12usize {
        let length = (2 * (number % 6) as u64 + 2).next_multiple_of(4);
        let want = (DONE, [offsets[number] as u64, length]);
        assert_eq!(rt; text_of(&bytes, &image, number as u32), want, "{number}");
    }
    assert_eq!(rt; text_of(&bytes, &image, 12), (NOTHING, UNTOUCHED));
    // A tree without what is asked for, and a directory that no section maps.
    let mut others = bytes;
    put(&mut others, &[(0x10, &[17]), (0x18, &[25])]);
    assert_eq!(rt; fixed_of(&others, &image), (NOTHING, no_version()));
    assert_eq!(rt; manifest_of(&others, &image), (NOTHING, UNTOUCHED));
    let far = having(image, 2, directory(0x3000, 64));
    assert_eq!(rt; text_of(&others, &far, 0), (UNMAPPED, UNTOUCHED));
    // The first directory is read before it is asked whether all of the data are there.
    let cut = having(image, 2, directory(0x1FF0, 64));
    assert_eq!(rt; text_of(&others, &cut, 0), (SHORT, UNTOUCHED));
    Ok(())
}

/// The tree, fixed file information at 0x6C and a comment of one unit and a zero at 0xB8.
fn with_comment(alloc: Global) -> Result<Vec<u8>, Fail> {
    let mut bytes = bytes_of(alloc, CONTENT, TREE)?;
    push_string(&mut bytes, "VS_VERSION_INFO", 0, FIXED)?;
    push_string(&mut bytes, "Comments", 1, b"B\0\0\0")?;
    Ok(with_size(bytes))
}

const WHOLE: ((u32, VsFixedFileInfo), (u32, [u64; 2])) = ((DONE, WANT), (DONE, [0xB8, 4]));

/// The same of one version information, by its range.
fn reported_in(
    bytes: &[u8],
    content: Range,
    name: u32,
) -> ((u32, VsFixedFileInfo), (u32, [u64; 2])) {
    let (mut fixed, mut text) = (no_version(), untouched());
    let of_fixed = pe_c_fixed_version_in(bytes, &content, &mut fixed);
    let of_text = pe_c_version_text_in(bytes, &content, name, &mut text);
    ((of_fixed, fixed), (of_text, of_range(text)))
}

#[test]
fn versions_at_a_range(rt: HostRuntime) -> Result<(), Fail> {
    let mut bytes = with_comment(rt.alloc())?;
    let size = bytes.len() as u64;
    let content = range(CONTENT as u64, size - CONTENT as u64);
    assert_eq!(rt; reported_in(&bytes, content, 0), WHOLE);
    let nothing = (NOTHING, UNTOUCHED);
    assert_eq!(rt; reported_in(&bytes, content, 11), (WHOLE.0, nothing));
    let lie = range(1, size);
    let want = ((SHORT, no_version()), (SHORT, UNTOUCHED));
    assert_eq!(rt; reported_in(&bytes, lie, 0), want);
    // Another number is no name, whatever the range.
    assert_eq!(rt; reported_in(&bytes, lie, 12).1, nothing);
    put(&mut bytes, &[(0x47, &[1])]);
    let want = (
        (RESOURCE_STRING, no_version()),
        (RESOURCE_STRING, UNTOUCHED),
    );
    assert_eq!(rt; reported_in(&bytes, content, 0), want);
    Ok(())
}

/// At offset 4: a string table, whose string has the key `A` and the value `B`; a block of 8 bytes whose key has no end; one
/// of 10 bytes, at whose end its value of 3 bytes would start; one of 40 bytes, of which 6 are there.
pub(crate) const BLOCKS: [u8; 70] = [
    0xFF, 0xFF, 0xFF, 0xFF, 40, 0, 0, 0, 1, 0, b'0', 0, b'4', 0, b'0', 0, b'7', 0, b'0', 0, b'4',
    0, b'E', 0, b'4', 0, 0, 0, 16, 0, 2, 0, 1, 0, b'A', 0, 0, 0, 0, 0, b'B', 0, 0, 0, 8, 0, 0, 0,
    1, 0, b'X', 0, 10, 0, 3, 0, 0, 0, b'T', 0, 0, 0, 0xFF, 0xFF, 40, 0, 0, 0, 0, 0,
];

/// The result of a step, the key, the value and the children of the block, its four numbers, and what is left.
type Step = (u32, [[u64; 2]; 3], [u32; 4], [u64; 2]);

fn next_block(bytes: &[u8], walk: [u64; 2]) -> Step {
    let mut walk = range(walk[0], walk[1]);
    let mut out = VersionBlock {
        key: untouched(),
        value: untouched(),
        children: untouched(),
        value_type: 7,
        has_language: 8,
        language: 9,
        code_page: 10,
    };
    let answer = pe_c_next_version_block(bytes, &mut walk, &mut out);
    (
        answer,
        [
            of_range(out.key),
            of_range(out.value),
            of_range(out.children),
        ],
        [
            out.value_type,
            out.has_language,
            out.language,
            out.code_page,
        ],
        of_range(walk),
    )
}

/// A step without a block.
fn nothing_but(answer: u32, walk: [u64; 2]) -> Step {
    (answer, [UNTOUCHED; 3], [7, 8, 9, 10], walk)
}

#[test]
fn blocks_in_turn(rt: HostRuntime) -> Result<(), Fail> {
    for (walk, step) in [
        (
            [4, 66],
            (
                DONE,
                [[10, 16], [28, 0], [28, 16]],
                [1, 1, 0x407, 1252],
                [44, 26],
            ),
        ),
        (
            [28, 16],
            (DONE, [[34, 2], [40, 4], [44, 0]], [1, 0, 0, 0], [44, 0]),
        ),
        ([44, 0], nothing_but(NOTHING, [44, 0])),
        // shows: calls_directories/src/resources/version_blocks.rt error_of ResourceString
        ([44, 26], nothing_but(RESOURCE_STRING, [52, 18])),
        (
            [52, 18],
            (DONE, [[58, 2], [62, 0], [62, 0]], [0, 0, 0, 0], [64, 6]),
        ),
        // shows: calls_directories/src/resources/version_blocks.rt error_of Short
        ([64, 6], nothing_but(SHORT, [70, 0])),
        // A length of 0 with bytes after it.
        ([46, 8], nothing_but(NOTHING, [46, 8])),
        // A length of 1.
        ([48, 8], nothing_but(RESOURCE_STRING, [56, 0])),
    ] {
        assert_eq!(rt; next_block(&BLOCKS, walk), step, "{walk:?}");
    }
    // One of 7 bytes without room for a key, and one of 9, of which the last is left for its children.
    let odd = [7, 0, 0, 0, 0, 0, 0, 0, 9, 0, 0, 0, 0, 0, 0, 0, 5];
    let found = next_block(&odd, [0, 17]);
    assert_eq!(rt; found, nothing_but(RESOURCE_STRING, [8, 9]));
    assert_eq!(rt;
        next_block(&odd, [8, 9]),
        (DONE, [[14, 0], [16, 0], [16, 1]], [0, 0, 0, 0], [17, 0])
    );
    Ok(())
}

/// The content of the resource of type 16 is found as that of the manifest is; what it holds is not read.
#[test]
fn where_the_blocks_are(rt: HostRuntime) -> Result<(), Fail> {
    let bytes = tree(rt.alloc())?;
    let image = having(image(X64), 2, directory(0x1000, bytes.len() as u32));
    assert_eq!(rt; blocks_of(&bytes, &image), (DONE, [0x30, 3]));
    let absent = having(image, 2, directory(0, 0));
    assert_eq!(rt; blocks_of(&bytes, &absent), (NOTHING, UNTOUCHED));
    let mut damaged = tree(rt.alloc())?;
    put(&mut damaged, &[(0x24, &[4])]);
    let refused = (RESOURCE_BOUNDS, UNTOUCHED);
    assert_eq!(rt; blocks_of(&damaged, &image), refused);
    Ok(())
}

/// A directory with one entry, of type 16, whose data entry at 0x20 leads to three bytes at 0x30.
fn tree(alloc: Global) -> Result<Vec<u8>, Fail> {
    Ok(bytes_of(
        alloc,
        0x33,
        &[
            (0x0E, &[1]),
            (0x10, &[16, 0, 0, 0, 0x20]),
            (0x20, &[0x30, 0x10, 0, 0, 3]),
        ],
    )?)
}

fn blocks_of(bytes: &[u8], image: &calls_base::image::Image) -> (u32, [u64; 2]) {
    let mut out = untouched();
    let answer = pe_c_version_blocks(&view(bytes, image, &sections()), &mut out);
    (answer, of_range(out))
}

// ---- blocks of version information that are written: the bytes, by Microsoft's page on the members of String, and refusals

/// A text `x` with the key `A`: the key's zero ends at 10, so the value is at 12; it has two code units.
const BYTES: [u8; 16] = *b"\x10\0\x02\0\x01\0A\0\0\0\0\0x\0\0\0";

/// What the call returns and writes into a room of 17 bytes, and the length that is said before.
fn written(
    key: &[u8],
    is_text: u32,
    value: &[u8],
    children: &[u8],
) -> ([u32; 2], [u64; 2], [u8; 17]) {
    let mut room = [OLD; 17];
    let (mut needed, mut length) = (OLD_LENGTH, OLD_LENGTH);
    let first = pe_c_write_block(key, is_text, value, children, &mut [], &mut needed);
    let second = pe_c_write_block(key, is_text, value, children, &mut room, &mut length);
    ([asked(first), second], [needed, length], room)
}

#[test]
fn blocks_are_written(rt: HostRuntime) -> Result<(), Fail> {
    let (numbers, lengths, room) = written(b"A\0", 2, b"x\0\0\0", &[]);
    assert_eq!(rt; (numbers, lengths), ([DONE; 2], [16; 2]));
    assert_eq!(rt; &room[..16], BYTES.as_slice());
    assert_eq!(rt; room[16], OLD);
    // Binary data of three bytes; no block is in it, so nothing but the end is filled up.
    let (numbers, lengths, room) = written(b"A\0", 0, &[1, 2, 3], &[]);
    assert_eq!(rt; numbers, [DONE; 2]);
    assert_eq!(rt; lengths, [16; 2]);
    assert_eq!(rt;
        &room[..16],
        b"\x0F\0\x03\0\0\0A\0\0\0\0\0\x01\x02\x03\0".as_slice()
    );
    // A block in it.
    let (numbers, lengths, room) = written(b"", 0, &[], &[9, 8]);
    assert_eq!(rt; numbers, [DONE; 2]);
    assert_eq!(rt; lengths, [12; 2]);
    assert_eq!(rt; &room[..12], b"\x0A\0\0\0\0\0\0\0\x09\x08\0\0".as_slice());
    Ok(())
}

#[test]
fn blocks_are_refused(rt: HostRuntime) -> Result<(), Fail> {
    let long = [1u8; 65_524];
    for (number, key, is_text, value) in [
        (468, &b"A"[..], 1, &b"x\0\0\0"[..]),
        (468, &b"A\0\0\0"[..], 0, &b""[..]),
        (469, &b"A\0"[..], 1, &b"x\0\0"[..]),
        (470, &b"A\0"[..], 1, &long[..]),
    ] {
        let (numbers, lengths, room) = written(key, is_text, value, &[]);
        assert_eq!(rt; numbers, [number; 2]);
        assert_eq!(rt; lengths, [OLD_LENGTH; 2]);
        assert_eq!(rt; room, [OLD; 17]);
    }
    // The room is too small by one byte: only the write is refused.
    let (numbers, lengths, room) = written(b"A\0", 0, &[1; 8], &[]);
    assert_eq!(rt; numbers, [DONE, ROOM]);
    assert_eq!(rt; lengths, [20; 2]);
    assert_eq!(rt; room, [OLD; 17]);
    Ok(())
}

/// No strings in one table and no translations: the blocks have 24, 36, 32 + 32 and 92 bytes without those in them.
const EMPTY: &[&[u8]] = &[
    b"\xd8\x004\0\0\0V\0S\0_\0V\0E\0R\0S\0I\0O\0N\0_\0I\0N\0F\0O\0\0\0\0\0",
    b"\x01\0\0\0\x02\0\0\0\x03\0\0\0\x04\0\0\0\x05\0\0\0\x06\0\0\0\x07\0\0\0\x08\0\0\0",
    b"\x09\0\0\0\x0a\0\0\0\x0b\0\0\0\x0c\0\0\0\x0d\0\0\0",
    b"\x3c\0\0\0\x01\0S\0t\0r\0i\0n\0g\0F\0i\0l\0e\0I\0n\0f\0o\0\0\0",
    b"\x18\0\0\0\x01\00\04\00\09\00\04\0B\00\0\0\0",
    b"\x40\0\0\0\x01\0V\0a\0r\0F\0i\0l\0e\0I\0n\0f\0o\0\0\0\0\0",
    b"\x20\0\0\0\0\0T\0r\0a\0n\0s\0l\0a\0t\0i\0o\0n\0\0\0\0\0",
];

const ENGLISH: LanguageRecord = LanguageRecord {
    language: 0x409,
    code_page: 1200,
};

const NEW_FIXED: VsFixedFileInfo = VsFixedFileInfo {
    signature: 1,
    struct_version: 2,
    file_version_ms: 3,
    file_version_ls: 4,
    product_version_ms: 5,
    product_version_ls: 6,
    file_flags_mask: 7,
    file_flags: 8,
    file_os: 9,
    file_type: 10,
    file_subtype: 11,
    file_date_ms: 12,
    file_date_ls: 13,
};

/// What the call returns and writes into a room of so many bytes of 220, and the length that is said before.
fn version(
    strings: &[StringRecord],
    count: u32,
    texts: &[u8],
    size: usize,
) -> ([u32; 2], [u64; 2], [u8; 220]) {
    let mut room = [OLD; 220];
    let (mut needed, mut length) = (OLD_LENGTH, OLD_LENGTH);
    let tables = [TableRecord {
        first: 0,
        count,
        language: ENGLISH,
    }];
    let first = pe_c_write_version(
        &NEW_FIXED,
        &tables,
        strings,
        &[],
        texts,
        &mut [],
        &mut needed,
    );
    let second = pe_c_write_version(
        &NEW_FIXED,
        &tables,
        strings,
        &[],
        texts,
        &mut room[..size],
        &mut length,
    );
    ([asked(first), second], [needed, length], room)
}

#[test]
fn versions_are_written(rt: HostRuntime) -> Result<(), Fail> {
    let (numbers, lengths, room) = version(&[], 0, &[], 220);
    assert_eq!(rt; numbers, [DONE; 2]);
    assert_eq!(rt; lengths, [216; 2]);
    let mut at = 0;
    for part in EMPTY {
        assert_eq!(rt; &room[at..at + part.len()], *part);
        at += part.len();
    }
    assert_eq!(rt; at, 216);
    assert_eq!(rt; &room[216..], [OLD; 4].as_slice());
    Ok(())
}

#[test]
fn versions_are_refused(rt: HostRuntime) -> Result<(), Fail> {
    let string = |name, text| StringRecord {
        name: record_range(0, name),
        text: record_range(0, text),
    };
    let long = [1u8; 65_524];
    for (number, name, text, count, texts) in [
        (2, 2, 5, 1, &b"A\0x\0"[..]),
        (468, 1, 4, 1, &b"A\0x\0"[..]),
        (468, 4, 4, 1, &b"A\0\0\0"[..]),
        (469, 2, 3, 1, &b"A\0x\0"[..]),
        (470, 2, 65_524, 1, &long[..]),
    ] {
        let (numbers, lengths, room) = version(&[string(name, text)], count, texts, 220);
        assert_eq!(rt; numbers, [number; 2]);
        assert_eq!(rt; lengths, [OLD_LENGTH; 2]);
        assert_eq!(rt; room, [OLD; 220]);
    }
    // The room is too small by one byte: only the write is refused.
    let (numbers, lengths, room) = version(&[], 0, &[], 215);
    assert_eq!(rt; numbers, [DONE, ROOM]);
    assert_eq!(rt; lengths, [216; 2]);
    assert_eq!(rt; room, [OLD; 220]);
    Ok(())
}
