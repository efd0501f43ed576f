//! Images whose resources are changed. The image has two sections, of which the second has the resources, and five bytes after
//! them. Its checksum is at 0xD0, the entry of the resource directory at 0x110, and the header of the resource section at 0x1A8.
//! The bytes of the section follow from the format.

use super::made::*;
use super::shared::with_two_sections;
use crate::write::pe_c_edit;
use pe_edit::{RecordKey, RecordRange, ResourceRecord};

const LENGTH: usize = 0x605;

/// Names and contents: `AB` in UTF-16, three bytes, and one more.
const DATA: [u8; 8] = *b"A\0B\0abcd";

const NONE: RecordRange = RecordRange {
    offset: 0,
    length: 0,
};

fn id(id: u32) -> RecordKey {
    RecordKey {
        name: NONE,
        id,
        has_name: 0,
    }
}

fn name(offset: u64, length: u64) -> RecordKey {
    RecordKey {
        name: record_range(offset, length),
        id: 0,
        has_name: 1,
    }
}

/// A resource of the type 10 in US English.
fn resource(name: RecordKey, content: RecordRange) -> ResourceRecord {
    ResourceRecord {
        resource_type: id(10),
        name,
        content,
        language: 0x409,
        code_page: 1252,
    }
}

/// The image with a part of it put at an offset.
fn old_image(alloc: Global, offset: usize, part: &[u8]) -> Result<Vec<u8>, AllocError> {
    let mut bytes = with_two_sections(alloc)?;
    put(&mut bytes, &[(offset, part)]);
    Ok(bytes)
}

/// What an edit returns and writes into a room of this size, and the length that it says it needs.
fn edited(
    alloc: Global,
    bytes: &[u8],
    records: &[ResourceRecord],
    data: &[u8],
    size: usize,
) -> Result<([u32; 2], [u64; 2], Vec<u8>), Fail> {
    let mut room = vec![in alloc; OLD; size]?;
    let (mut needed, mut length) = (OLD_LENGTH, OLD_LENGTH);
    let info: Image = image(X64);
    let first = pe_c_edit(
        &view(bytes, &info, &[]),
        records,
        data,
        &mut [],
        &mut needed,
    );
    let second = pe_c_edit(
        &view(bytes, &info, &[]),
        records,
        data,
        &mut room,
        &mut length,
    );
    Ok(([asked(first), second], [needed, length], room))
}

/// Two resources, of a name and an id, over the data of the section: directories of types, names and languages (16 bytes and 8
/// for each entry), data entries, the name, contents at multiples of eight.
#[test]
fn resources_are_written(rt: HostRuntime) -> Result<(), Fail> {
    let bytes = old_image(rt.alloc(), 0, b"MZ")?;
    let records = [
        resource(name(0, 4), record_range(4, 3)),
        resource(id(7), record_range(7, 1)),
    ];
    let (numbers, lengths, room) = edited(rt.alloc(), &bytes, &records, &DATA, LENGTH + 2)?;
    assert_eq!(rt; numbers, [DONE; 2]);
    assert_eq!(rt; lengths, [LENGTH as u64; 2]);
    let section = &room[0x400..0x600];
    // The directory of types: one id, 10, with the directory at 24.
    let found = &section[12..24];
    assert_eq!(rt; found, b"\0\0\x01\0\x0A\0\0\0\x18\0\0\x80".as_slice());
    // That of names: one name, at 136, and one id, with the directories at 56 and 80.
    assert_eq!(rt;
        &section[36..56],
        b"\x01\0\x01\0\x88\0\0\x80\x38\0\0\x80\x07\0\0\0\x50\0\0\x80".as_slice()
    );
    // Those of languages, with the data entries at 104 and 120.
    let found = &section[68..80];
    assert_eq!(rt; found, b"\0\0\x01\0\x09\x04\0\0\x68\0\0\0".as_slice());
    let found = &section[92..104];
    assert_eq!(rt; found, b"\0\0\x01\0\x09\x04\0\0\x78\0\0\0".as_slice());
    // The data entries: the RVA, the size, the code page 1252.
    assert_eq!(rt;
        &section[104..120],
        b"\x90\x20\0\0\x03\0\0\0\xE4\x04\0\0\0\0\0\0".as_slice()
    );
    assert_eq!(rt;
        &section[120..136],
        b"\x98\x20\0\0\x01\0\0\0\xE4\x04\0\0\0\0\0\0".as_slice()
    );
    // The name, of two code units, and the contents.
    assert_eq!(rt;
        &section[136..160],
        b"\x02\0A\0B\0\0\0abc\0\0\0\0\0d\0\0\0\0\0\0\0".as_slice()
    );
    assert!(rt; section[160..].iter().all(|byte| *byte == 0));
    // The size of the directory and that of the section; all else stays.
    assert_eq!(rt; &room[0x114..0x118], b"\xA0\0\0\0".as_slice());
    assert_eq!(rt; &room[0x1B0..0x1B4], b"\xA0\0\0\0".as_slice());
    assert_eq!(rt; &room[..0x114], &bytes[..0x114]);
    assert_eq!(rt; &room[0x118..0x1B0], &bytes[0x118..0x1B0]);
    assert_eq!(rt; &room[0x1B4..0x400], &bytes[0x1B4..0x400]);
    assert_eq!(rt; &room[0x600..LENGTH], b"after".as_slice());
    assert_eq!(rt; &room[LENGTH..], [OLD; 2].as_slice());
    Ok(())
}

/// The number of an edit that is refused, by both calls; the room and the length stay as they were.
fn refused(
    alloc: Global,
    bytes: &[u8],
    records: &[ResourceRecord],
    data: &[u8],
) -> Result<u32, Fail> {
    let ([first, second], lengths, room) = edited(alloc, bytes, records, data, LENGTH)?;
    if first != second {
        return Err("the calls return two numbers".into());
    }
    if lengths != [OLD_LENGTH; 2] {
        return Err("the length has changed".into());
    }
    if !room.iter().all(|byte| *byte == OLD) {
        return Err("the room has changed".into());
    }
    Ok(first)
}

#[test]
fn records_are_refused(rt: HostRuntime) -> Result<(), Fail> {
    let bytes = old_image(rt.alloc(), 0, b"MZ")?;
    let good = resource(id(1), record_range(4, 3));
    let wide = ResourceRecord {
        language: 0x1_0000,
        ..good
    };
    for (number, record) in [
        (466, resource(id(1), record_range(4, 5))),
        (466, resource(name(6, 4), NONE)),
        (466, resource(id(0x1_0000), NONE)),
        (466, wide),
        (452, resource(name(0, 3), NONE)),
        (453, good),
        (453, resource(name(0, 4), NONE)),
    ] {
        let found = refused(rt.alloc(), &bytes, &[good, record], &DATA)?;
        assert_eq!(rt; found, number);
    }
    // The range of no name is not read.
    let unused = RecordKey {
        name: record_range(100, 100),
        id: 2,
        has_name: 0,
    };
    let both = [good, resource(unused, NONE)];
    let (numbers, _, _) = edited(rt.alloc(), &bytes, &both, &DATA, LENGTH)?;
    assert_eq!(rt; numbers, [DONE; 2]);
    Ok(())
}

/// 129 records have one name of 131,070 bytes, which is 16,908,030 bytes in all, more than 16,777,216; 128 have fewer, and are
/// compared.
#[test]
fn names_are_bounded(rt: HostRuntime) -> Result<(), Fail> {
    let bytes = old_image(rt.alloc(), 0, b"MZ")?;
    let data = vec![in rt.alloc(); 1; 131_070]?;
    let record = resource(name(0, 131_070), NONE);
    assert_eq!(rt; refused(rt.alloc(), &bytes, &[record; 129], &data)?, 467);
    assert_eq!(rt; refused(rt.alloc(), &bytes, &[record; 128], &data)?, 453);
    Ok(())
}

/// Records that share one content of 512 KiB: so many bytes are 16 times those of the array and of 1 MiB.
#[test]
fn shared_contents_are_bounded(rt: HostRuntime) -> Result<(), Fail> {
    let bytes = old_image(rt.alloc(), 0, b"MZ")?;
    let data = vec![in rt.alloc(); 1; 0x8_0000]?;
    let record = resource(id(1), record_range(0, 0x8_0000));
    assert_eq!(rt; refused(rt.alloc(), &bytes, &[record; 49], &data)?, 474);
    // The next test is that of their order.
    assert_eq!(rt; refused(rt.alloc(), &bytes, &[record; 48], &data)?, 453);
    Ok(())
}

#[test]
fn images_are_refused(rt: HostRuntime) -> Result<(), Fail> {
    let record = [resource(id(1), record_range(4, 3))];
    for (number, offset, part) in [
        (3, 0, &b"ZM"[..]),
        (32, 0x8C, &[0, 0][..]),
        (456, 0xFC, &[2][..]),
        (457, 0x120, &[0, 6, 0, 0, 8][..]),
        (458, 0x8C, &[0x60][..]),
        (459, 0xB1, &[8][..]),
        (471, 0x111, &[0x30][..]),
        (471, 0x1BD, &[6][..]),
    ] {
        let bytes = old_image(rt.alloc(), offset, part)?;
        assert_eq!(rt; refused(rt.alloc(), &bytes, &record, &DATA)?, number);
    }
    // The file does not fit into the room: only the write is refused.
    let bytes = old_image(rt.alloc(), 0, b"MZ")?;
    let (numbers, lengths, room) = edited(rt.alloc(), &bytes, &record, &DATA, LENGTH - 1)?;
    assert_eq!(rt; numbers, [DONE, ROOM]);
    assert_eq!(rt; lengths, [LENGTH as u64; 2]);
    assert!(rt; room.iter().all(|byte| *byte == OLD));
    Ok(())
}
