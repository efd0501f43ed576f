//! Blocks of version information that are written: their bytes, by Microsoft's page on VS_VERSIONINFO and its children, and
//! refusals.

use crate::images::record_range;
use crate::resources_written::OLD;
use pe_core::Error;
use pe_resource::VsFixedFileInfo;
use pe_version::{
    LanguageRecord, NewBlock, StringRecord, TableRecord, VersionError, VersionRecords, block_len,
    version_len, write_block, write_version,
};
use std::alloc::Global;
use std::test::Fail;

/// A text `x` with the key `A`.
const STRING: NewBlock<'_> = NewBlock {
    key: b"A\0",
    is_text: true,
    value: b"x\0\0\0",
    children: &[],
};

#[test]
fn refusals(rt: HostRuntime) -> Result<(), Fail> {
    let long = [1u8; 65_524];
    for (block, text) in [
        (
            NewBlock {
                key: b"A",
                ..STRING
            },
            "key of a version block has an odd number of bytes, or a code unit of zero",
        ),
        (
            NewBlock {
                value: b"x\0\0",
                ..STRING
            },
            "text of a version block has an odd number of bytes",
        ),
        (
            NewBlock {
                value: &long,
                ..STRING
            },
            "version block has 65536 bytes, more than 65,535",
        ),
    ] {
        let mut out = [OLD; 8];
        let Err(error) = write_block(&block, &mut out) else {
            return Err("a block is written".into());
        };
        let shown = format!(in rt.alloc(); "{error}")?;
        assert_eq!(rt; shown.as_str(), text);
        assert_eq!(rt; out, [OLD; 8]);
    }
    let shorter = NewBlock {
        is_text: false,
        value: &long[1..],
        ..STRING
    };
    assert_eq!(rt; block_len(&shorter)?, 65_536);
    let mut out = [OLD; 15];
    let Err(VersionError::Image(_)) = write_block(&STRING, &mut out) else {
        return Err("a block is written past the end".into());
    };
    assert_eq!(rt; out, [OLD; 15]);
    Ok(())
}

/// A text `x` with the key `A` has 12 bytes before its value. A value above 65,535 bytes is the number itself.
#[test]
fn sizes_of_blocks_that_are_too_long(rt: HostRuntime) -> Result<(), Fail> {
    let texts = vec![in rt.alloc(); 1u8; 70_000]?;
    // shows: pe_version/src/block.rt measured TooLong
    for (length, size) in [(65_524, 65_536), (65_530, 65_542), (70_000, 70_000)] {
        let block = NewBlock {
            value: &texts[..length],
            ..STRING
        };
        let Err(VersionError::TooLong(found)) = block_len(&block) else {
            return Err("a block of more than 65,535 bytes".into());
        };
        assert_eq!(rt; found, size);
    }
    Ok(())
}

/// What windres 2.40 makes of two tables and two translations. Each of its blocks has a multiple of four bytes, so that it does not
/// matter that it counts no zeros after the last one.
const WHOLE: &[&[u8]] = &[
    b"\x5c\x014\0\0\0V\0S\0_\0V\0E\0R\0S\0I\0O\0N\0_\0",
    b"I\0N\0F\0O\0\0\0\0\0",
    b"\xbd\x04\xef\xfe\0\0\x01\0\x02\0\x01\0\x04\0\x03\0\x06\0\x05\0\x08\0\x07\0?\0\0\0",
    b"\x02\0\0\0\x04\0\x04\0\x01\0\0\0\0\0\0\0\0\0\0\0\0\0\0\0",
    b"\xb8\0\0\0\x01\0S\0t\0r\0i\0n\0g\0F\0i\0l\0e\0I\0",
    b"n\0f\0o\0\0\0",
    b"T\0\0\0\x01\00\04\00\09\00\04\0B\00\0\0\0",
    b"(\0\x04\0\x01\0C\0o\0m\0p\0a\0n\0y\0N\0a\0m\0e\0",
    b"\0\0\0\0A\0b\0c\0\0\0",
    b"\x14\0\x02\0\x01\0O\0w\0n\0\0\0\0\0x\0\0\0",
    b"@\0\0\0\x01\00\04\00\07\0A\0B\0C\0D\0\0\0",
    b"(\0\x04\0\x01\0F\0i\0l\0e\0V\0e\0r\0s\0i\0o\0n\0",
    b"\0\0\0\01\0.\02\0\0\0",
    b"H\0\0\0\x01\0V\0a\0r\0F\0i\0l\0e\0I\0n\0f\0o\0",
    b"\0\0\0\0",
    b"(\0\x08\0\0\0T\0r\0a\0n\0s\0l\0a\0t\0i\0o\0n\0",
    b"\0\0\0\0\x09\x04\xb0\x04\x07\x04\xcd\xab",
];

/// Its numbers.
const FIXED: VsFixedFileInfo = VsFixedFileInfo {
    signature: 0xFEEF_04BD,
    struct_version: 0x10000,
    file_version_ms: 0x10002,
    file_version_ls: 0x30004,
    product_version_ms: 0x50006,
    product_version_ls: 0x70008,
    file_flags_mask: 0x3F,
    file_flags: 2,
    file_os: 0x40004,
    file_type: 1,
    file_subtype: 0,
    file_date_ms: 0,
    file_date_ls: 0,
};

/// The bytes of windres.
fn whole(alloc: Global) -> Result<Vec<u8>, Fail> {
    let mut bytes = Vec::new(alloc);
    for part in WHOLE {
        bytes.extend_from_slice(part)?;
    }
    Ok(bytes)
}

/// Names and texts of what windres makes, one after the other: 22, 8, 6, 4, 22 and 8 bytes.
const TEXTS: &[u8] =
    b"C\0o\0m\0p\0a\0n\0y\0N\0a\0m\0e\0A\0b\0c\0\0\0O\0w\0n\0x\0\0\0F\0i\0l\0e\0V\0e\0r\0s\0i\0o\0n\01\0.\02\0\0\0";

fn string(offset: u64, name: u64, text: u64) -> StringRecord {
    StringRecord {
        name: record_range(offset, name),
        text: record_range(offset + name, text),
    }
}

const LANGUAGES: [LanguageRecord; 2] = [
    LanguageRecord {
        language: 0x409,
        code_page: 1200,
    },
    LanguageRecord {
        language: 0x407,
        code_page: 0xABCD,
    },
];

/// The bytes of windres, of records in the caller's order of strings; each refusal leaves the buffer as it was.
#[test]
fn records_are_written(rt: HostRuntime) -> Result<(), Fail> {
    let strings = [string(40, 22, 8), string(0, 22, 8), string(30, 6, 4)];
    let table = |first, count, language| TableRecord {
        first,
        count,
        language,
    };
    let tables = [table(1, 2, LANGUAGES[0]), table(0, 1, LANGUAGES[1])];
    let value = VersionRecords {
        fixed: &FIXED,
        tables: &tables,
        strings: &strings,
        translations: &LANGUAGES,
        texts: TEXTS,
    };
    let mut wanted = whole(rt.alloc())?;
    let size = wanted.len();
    assert_eq!(rt; version_len(&value)?, size);
    let mut out = vec![in rt.alloc(); OLD; size + 3]?;
    assert_eq!(rt; write_version(&value, &mut out)?, size);
    wanted.extend_from_slice(&[OLD; 3])?;
    assert_eq!(rt; out.as_slice(), wanted.as_slice());

    let mut small = vec![in rt.alloc(); OLD; size - 1]?;
    let Err(VersionError::Image(_)) = write_version(&value, &mut small) else {
        return Err("a buffer is too small by one byte".into());
    };
    assert_eq!(rt; small.iter().all(|byte| *byte == OLD), true);
    // A string that ends after the texts, and a table after the strings.
    for (strings, tables, end) in [
        ([string(41, 22, 8), strings[1], strings[2]], tables, 70),
        (strings, [tables[0], table(3, 1, LANGUAGES[1])], 3),
    ] {
        let value = VersionRecords {
            tables: &tables,
            strings: &strings,
            ..value
        };
        // shows: pe_version/src/record.rt require_records Short
        let Err(VersionError::Image(Error::Short { at, needed: 1 })) = version_len(&value) else {
            return Err("a range is outside".into());
        };
        assert_eq!(rt; at, end);
    }
    // Half a code unit as a text of the last table comes before the name with a zero, which no table has.
    let strings = [string(40, 22, 7), strings[1], string(62, 8, 0)];
    let value = VersionRecords {
        tables: &[table(1, 1, LANGUAGES[0]), table(0, 1, LANGUAGES[1])],
        strings: &strings,
        ..value
    };
    let Err(VersionError::Text) = write_version(&value, &mut small) else {
        return Err("half a code unit is accepted".into());
    };
    assert_eq!(rt; small.iter().all(|byte| *byte == OLD), true);
    Ok(())
}

/// The sum of the strings of a table is refused, and an odd name after them before it.
#[test]
fn records_that_are_too_long(rt: HostRuntime) -> Result<(), Fail> {
    let texts = vec![in rt.alloc(); 1u8; 40_000]?;
    let long = StringRecord {
        name: record_range(0, 2),
        text: record_range(0, 32_644),
    };
    let table = TableRecord {
        first: 0,
        count: 2,
        language: LANGUAGES[0],
    };
    let value = VersionRecords {
        fixed: &FIXED,
        tables: &[table],
        strings: &[long, long],
        translations: &[],
        texts: &texts,
    };
    // The table has 24 + 2 * (12 + 32,644) bytes; the other blocks 36, 64 and 92 more.
    assert_eq!(rt; version_len(&value)?, 65_336 + 36 + 64 + 92);
    let longer = StringRecord {
        text: record_range(0, 32_900),
        ..long
    };
    let odd = StringRecord {
        name: record_range(0, 3),
        ..long
    };
    let Err(VersionError::TooLong(_)) = version_len(&VersionRecords {
        strings: &[long, longer],
        ..value
    }) else {
        return Err("a table of more than 65,535 bytes".into());
    };
    // shows: pe_version/src/measure.rt whole_len TooLong
    // A table of 24 bytes and strings of 12 each beside their texts, which by lengths alone would have 65,532 bytes.
    for (count, first, others, size) in [(4, 16_376, 16_364, 65_540), (6, 10_908, 10_908, 65_544)] {
        let text = record_range(0, others);
        let mut strings = vec![in rt.alloc(); StringRecord { text, ..long }; count]?;
        strings[0].text.length = first;
        let Err(VersionError::TooLong(found)) = version_len(&VersionRecords {
            tables: &[TableRecord {
                count: count as u32,
                ..table
            }],
            strings: &strings,
            ..value
        }) else {
            return Err("a table of more than 65,535 bytes".into());
        };
        assert_eq!(rt; found, size);
    }
    let languages = vec![in rt.alloc(); LANGUAGES[0]; 65_538]?;
    // shows: pe_version/src/measure.rt variables_len TooLong
    for count in [65_537, 65_538] {
        let Err(VersionError::TooLong(found)) = version_len(&VersionRecords {
            translations: &languages[..count],
            ..value
        }) else {
            return Err("more translations than a block has bytes".into());
        };
        assert_eq!(rt; found, count);
    }
    // shows: pe_version/src/record.rt require_short TooLong
    // By the lengths of names and texts alone, so that no name is read.
    let Err(VersionError::TooLong(65_536)) = version_len(&VersionRecords {
        tables: &[TableRecord { count: 3, ..table }],
        strings: &[long, longer, odd],
        ..value
    }) else {
        return Err("a name is read".into());
    };
    let Err(VersionError::Key) = version_len(&VersionRecords {
        strings: &[long, odd],
        ..value
    }) else {
        return Err("a name of three bytes".into());
    };
    Ok(())
}

/// Tables that share strings, which share a long name, are refused without a look at each.
#[test]
fn shared_names_are_not_read(rt: HostRuntime) -> Result<(), Fail> {
    let texts = vec![in rt.alloc(); 1; 60_000]?;
    let string = StringRecord {
        name: record_range(0, 60_000),
        text: record_range(0, 0),
    };
    let strings = vec![in rt.alloc(); string; 100_000]?;
    let table = TableRecord {
        first: 0,
        count: 100_000,
        language: LANGUAGES[0],
    };
    let tables = vec![in rt.alloc(); table; 100_000]?;
    let value = VersionRecords {
        fixed: &FIXED,
        tables: &tables,
        strings: &strings,
        translations: &[],
        texts: &texts,
    };
    assert!(rt; matches!(version_len(&value), Err(VersionError::TooLong(_))));
    Ok(())
}
