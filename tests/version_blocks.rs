//! The blocks of version information: the layout of Microsoft's page, byte by byte, lengths that are wrong, and truncated
//! blocks at each place.

use crate::images::{image, short, short_in};
use crate::resources::flat;
use pe_core::{Error, MappedBytes, ParseMode};
use pe_resource::{
    ResourceDataEntry, ResourceEntry, ResourceLeaf, Translation, VersionBlock, VersionBlockError,
    VersionBlocks,
};
use std::alloc::{AllocError, Global};
use std::test::Fail;

/// The length of `page`.
const LENGTH: usize = 296;

/// Version information with two string tables, of US English in UTF-16 and of German in Latin letters; the first has a string
/// with an empty value, and `Translation` names both. Each byte is where Microsoft's page puts it.
pub(crate) fn page(
    alloc: Global,
    changes: &[(usize, &[u8])],
) -> std::result::Result<Vec<u8>, AllocError> {
    let mut bytes = image(
        alloc,
        LENGTH,
        &[
            // VS_VERSION_INFO: 0x128 bytes, of which 52 are the value at 40.
            (0, &[0x28, 1, 52, 0, 0, 0]),
            (6, b"V\0S\0_\0V\0E\0R\0S\0I\0O\0N\0_\0I\0N\0F\0O\0"),
            (40, &[0xBD, 4, 0xEF, 0xFE, 0, 0, 1, 0]),
            (48, &[2, 0, 1, 0, 4, 0, 3, 0]),
            // StringFileInfo at 92.
            (92, &[132, 0, 0, 0, 1, 0]),
            (98, b"S\0t\0r\0i\0n\0g\0F\0i\0l\0e\0I\0n\0f\0o\0"),
            // A table at 128, with the strings `A` at 152 and `Mine` at 168.
            (128, &[56, 0, 0, 0, 1, 0]),
            (134, b"0\x004\x000\x009\x000\x004\0B\x000\0"),
            (152, &[16, 0, 2, 0, 1, 0, 0x41, 0]),
            (164, &[0x42, 0]),
            (168, &[16, 0, 0, 0, 1, 0]),
            (174, b"M\0i\0n\0e\0"),
            // A table at 184, with the string `A` at 208.
            (184, &[40, 0, 0, 0, 1, 0]),
            (190, b"0\x004\x000\x007\x000\x004\0e\x004\0"),
            (208, &[16, 0, 2, 0, 1, 0, 0x41, 0]),
            (220, &[0xC4, 0]),
            // VarFileInfo at 224, with Translation at 256, whose value is at 288.
            (224, &[72, 0, 0, 0, 1, 0]),
            (230, b"V\0a\0r\0F\0i\0l\0e\0I\0n\0f\0o\0"),
            (256, &[40, 0, 8, 0, 0, 0]),
            (262, b"T\0r\0a\0n\0s\0l\0a\0t\0i\0o\0n\0"),
            (288, &[9, 4, 0xB0, 4, 7, 4, 0xE4, 4]),
        ],
    )?;
    for (offset, part) in changes {
        for (slot, byte) in bytes.iter_mut().skip(*offset).zip(part.iter()) {
            *slot = *byte;
        }
    }
    Ok(bytes)
}

/// The block at the start of these bytes.
fn root(bytes: &[u8]) -> std::result::Result<VersionBlock<'_>, Fail> {
    Ok(VersionBlock::parse(bytes)?.ok_or("no block")?)
}

/// The block that a walk comes to next.
fn following<'a>(walk: &mut VersionBlocks<'a>) -> std::result::Result<VersionBlock<'a>, Fail> {
    Ok(walk.next().ok_or("no block")??)
}

/// Whether a block has this key and a value with this text.
fn is(
    alloc: Global,
    block: &VersionBlock<'_>,
    key: &str,
    value: &str,
) -> std::result::Result<bool, AllocError> {
    let named = block
        .key_string(alloc)?
        .is_some_and(|it| it.as_str() == key);
    let text = block.value_string(alloc)?;
    Ok(named && text.is_some_and(|it| it.as_str() == value))
}

/// Fixed file information is the value of the block with its key alone: not where a letter is another, or where one follows.
#[test]
fn fixed_information_of_its_key(rt: HostRuntime) -> std::result::Result<(), Fail> {
    for (offset, unit) in [(6, b"v"), (34, b"x"), (36, b"O")] {
        let bytes = page(rt.alloc(), &[(offset, unit.as_slice())])?;
        let root = root(&bytes)?;
        assert_eq!(rt; root.value.len(), 52);
        assert!(rt; root.fixed_info().is_none(), "{offset}");
    }
    Ok(())
}

#[test]
fn of_the_page(rt: HostRuntime) -> std::result::Result<(), Fail> {
    let bytes = page(rt.alloc(), &[])?;
    let root = root(&bytes)?;
    let found = (root.length, root.value_length, root.value_type);
    assert_eq!(rt; found, (296, 52, 0));
    assert_eq!(rt; Some(root.value), bytes.get(40..92));
    assert_eq!(rt; Some(root.child_bytes), bytes.get(92..));
    let fixed = root.fixed_info().ok_or("no fixed file information")?;
    let version = fixed.file_version();
    assert!(rt; fixed.is_valid());
    assert_eq!(rt; (version.major, version.minor, version.build), (1, 2, 3));
    assert_eq!(rt; version.revision, 4);
    let mut tables = root.string_tables()?;
    assert_eq!(rt; Some(tables.rest()), bytes.get(128..224));
    let english = following(&mut tables)?;
    assert_eq!(rt;
        english.translation(),
        Some(Translation {
            language: 0x409,
            code_page: 1200
        })
    );
    let found = (english.length, english.value_length, english.value_type);
    assert_eq!(rt; found, (56, 0, 1));
    assert_eq!(rt; Some(english.key), bytes.get(134..150));
    let mut strings = english.children();
    let first = following(&mut strings)?;
    assert!(rt; is(rt.alloc(), &first, "A", "B")?);
    assert_eq!(rt; Some(first.value), bytes.get(164..168));
    let second = following(&mut strings)?;
    assert!(rt; is(rt.alloc(), &second, "Mine", "")?);
    assert!(rt; second.value.is_empty() && second.child_bytes.is_empty());
    assert!(rt; second.translation().is_none() && second.fixed_info().is_none());
    assert!(rt; strings.next().is_none() && strings.next().is_none());
    let german = following(&mut tables)?;
    assert_eq!(rt;
        german.translation(),
        Some(Translation {
            language: 0x407,
            code_page: 1252
        })
    );
    let mut strings = german.children();
    assert!(rt; is(rt.alloc(), &following(&mut strings)?, "A", "Ä")?);
    assert!(rt; strings.next().is_none());
    assert!(rt; tables.next().is_none());
    let mut languages = root.translations()?;
    for (language, code_page) in [(0x409u16, 1200u16), (0x407, 1252)] {
        assert_matches!(rt; languages.next().ok_or("no language")?? =>
            Translation { language, code_page });
    }
    assert!(rt; languages.next().is_none());
    Ok(())
}

/// A wrong length in the middle ends its list, and a key without its end costs its block; what is before it and in other
/// lists is read.
#[test]
fn wrong_in_the_middle(rt: HostRuntime) -> std::result::Result<(), Fail> {
    let alloc = rt.alloc();
    // shows: pe_resource/src/version_block.rt own_bytes BelowHead
    // shows: pe_resource/src/version_block.rt own_bytes PastEnd
    // shows: pe_resource/src/version_block.rt whole KeyEnd
    let short = page(alloc, &[(168, &[5])])?;
    let mut tables = root(&short)?.string_tables()?;
    let mut strings = following(&mut tables)?.children();
    assert!(rt; is(alloc, &following(&mut strings)?, "A", "B")?);
    assert!(rt; matches!(strings.next(), Some(Err(VersionBlockError::BelowHead(5)))));
    assert!(rt; strings.rest().is_empty() && strings.next().is_none());
    let german = following(&mut tables)?;
    assert!(rt; is(alloc, &following(&mut german.children())?, "A", "Ä")?);
    let long = page(alloc, &[(152, &[33])])?;
    let mut tables = root(&long)?.string_tables()?;
    let mut strings = following(&mut tables)?.children();
    assert_matches!(rt; strings.next() =>
        Some(Err(VersionBlockError::PastEnd { length: 33, left: 32 })));
    assert!(rt; strings.next().is_none());
    assert!(rt; following(&mut tables)?.translation().is_some());
    let endless = page(alloc, &[(160, b"C\0D\0E\0F\0")])?;
    let mut tables = root(&endless)?.string_tables()?;
    let mut strings = following(&mut tables)?.children();
    assert!(rt; matches!(strings.next(), Some(Err(VersionBlockError::KeyEnd(16)))));
    assert!(rt; is(alloc, &following(&mut strings)?, "Mine", "")?);
    assert!(rt; strings.next().is_none());
    Ok(())
}

/// A length of 0 ends a list, as padding does, whatever follows.
#[test]
fn padding_ends(rt: HostRuntime) -> std::result::Result<(), Fail> {
    let bytes = page(rt.alloc(), &[(168, &[0, 0])])?;
    let mut tables = root(&bytes)?.string_tables()?;
    let mut strings = following(&mut tables)?.children();
    assert!(rt; is(rt.alloc(), &following(&mut strings)?, "A", "B")?);
    assert!(rt; strings.next().is_none() && strings.rest().is_empty());
    assert!(rt; VersionBlock::parse(&[0, 0, 1, 2, 3, 4, 5, 6])?.is_none());
    assert!(rt; VersionBlock::parse(&[])?.is_none());
    Ok(())
}

/// A block of 10 bytes is padded to 12: the next one starts there, and the last one needs no padding.
#[test]
fn each_at_a_multiple_of_four(rt: HostRuntime) -> std::result::Result<(), Fail> {
    let bytes = [
        10, 0, 0, 0, 1, 0, 0x41, 0, 0, 0, 0xFF, 0xFF, 10, 0, 0, 0, 1, 0, 0x42, 0, 0, 0,
    ];
    let mut blocks = VersionBlocks::new(&bytes);
    assert!(rt; is(rt.alloc(), &following(&mut blocks)?, "A", "")?);
    assert_eq!(rt; Some(blocks.rest()), bytes.get(12..));
    assert!(rt; is(rt.alloc(), &following(&mut blocks)?, "B", "")?);
    assert!(rt; blocks.next().is_none());
    Ok(())
}

/// The whole, truncated after each number of bytes, and the same with a length that says so.
#[test]
fn truncated_at_each_byte(rt: HostRuntime) -> std::result::Result<(), Fail> {
    let bytes = page(rt.alloc(), &[])?;
    for n in 1..LENGTH {
        let item = VersionBlock::parse(bytes.get(..n).ok_or("fewer bytes")?);
        let as_wanted = match item {
            Err(VersionBlockError::Image(Error::Short { at: 0, needed: 6 })) => n < 6,
            Err(VersionBlockError::PastEnd { length: 296, left }) => 6 <= n && left == n,
            _ => false,
        };
        assert!(rt; as_wanted, "{n}");
    }
    for n in 1..LENGTH {
        let length = u16::to_le_bytes(u16::try_from(n).unwrap_or(0));
        let short = page(rt.alloc(), &[(0, length.as_slice())])?;
        let as_wanted = match VersionBlock::parse(&short) {
            Err(VersionBlockError::BelowHead(length)) => n < 6 && usize::from(length) == n,
            Err(VersionBlockError::KeyEnd(length)) => {
                6 <= n && n < 38 && usize::from(length) == n
            }
            Ok(Some(block)) => {
                38 <= n
                    && block.value.len() == n.saturating_sub(40).min(52)
                    && block.child_bytes.len() == n.saturating_sub(92)
                    && block.fixed_info().is_some() == (92 <= n)
            }
            _ => false,
        };
        assert!(rt; as_wanted, "{n}");
    }
    Ok(())
}

/// A block is found after one that is not read; without one the first error is returned.
#[test]
fn found_after_an_error(rt: HostRuntime) -> std::result::Result<(), Fail> {
    let alloc = rt.alloc();
    // In place of StringFileInfo two blocks: one of 8 bytes whose key `X` has no end, one with the key `Y`.
    let first = page(
        alloc,
        &[(92, b"\x08\0\0\0\x01\0X\0\x7C\0\0\0\x01\0Y\0\0\0")],
    )?;
    let block = root(&first)?;
    let mut children = block.children();
    assert!(rt; matches!(children.next(), Some(Err(VersionBlockError::KeyEnd(8)))));
    assert!(rt; is(alloc, &following(&mut children)?, "Y", "")?);
    assert!(rt; block.translations()?.next().is_some());
    assert!(rt; matches!(block.string_tables(), Err(VersionBlockError::KeyEnd(8))));
    let none = page(alloc, &[(98, &[0x58])])?;
    let block = root(&none)?;
    assert!(rt; block.string_tables()?.next().is_none());
    assert!(rt; block.translations()?.next().is_some());
    let both = page(alloc, &[(92, &[132, 0, 0, 0, 1, 0, 0x58]), (224, &[3, 0])])?;
    let block = root(&both)?;
    assert!(rt; matches!(block.string_tables(), Err(VersionBlockError::BelowHead(3))));
    assert!(rt; matches!(block.translations(), Err(VersionBlockError::BelowHead(3))));
    let inner = page(alloc, &[(256, &[41])])?;
    let block = root(&inner)?;
    assert!(rt; block.string_tables().is_ok());
    assert_matches!(rt; block.translations() =>
        Err(VersionBlockError::PastEnd { length: 41, left: 40 }));
    Ok(())
}

/// The length of a value passes the end of its block, as where a tool states it in bytes; an odd one; a pair that is
/// truncated.
#[test]
fn values_of_other_lengths(rt: HostRuntime) -> std::result::Result<(), Fail> {
    let alloc = rt.alloc();
    let in_bytes = page(alloc, &[(154, &[4])])?;
    let mut tables = root(&in_bytes)?.string_tables()?;
    let string = following(&mut following(&mut tables)?.children())?;
    let found = (string.value_length, string.value);
    assert_eq!(rt; found, (4, [0x42, 0, 0, 0].as_slice()));
    assert!(rt; is(alloc, &string, "A", "B")? && string.child_bytes.is_empty());
    let most = page(alloc, &[(154, &[0xFF, 0xFF])])?;
    let mut tables = root(&most)?.string_tables()?;
    let string = following(&mut following(&mut tables)?.children())?;
    assert_eq!(rt; string.value.len(), 4);
    let odd = page(alloc, &[(154, &[3, 0, 0])])?;
    let mut tables = root(&odd)?.string_tables()?;
    let string = following(&mut following(&mut tables)?.children())?;
    let found = (string.value_type, string.value);
    assert_eq!(rt; found, (0, [0x42, 0, 0].as_slice()));
    assert!(rt; string.value_string(alloc)?.is_none() && string.child_bytes.is_empty());
    let cut = page(alloc, &[(258, &[6])])?;
    let mut languages = root(&cut)?.translations()?;
    assert!(rt; languages.next().is_some_and(|it| it.is_ok()));
    assert_eq!(rt; short_in(languages.next()), short(0, 4));
    assert!(rt; languages.next().is_none());
    Ok(())
}

/// A key is a language and a code page if it is eight hexadecimal digits, of either case.
#[test]
fn languages_of_keys(rt: HostRuntime) -> std::result::Result<(), Fail> {
    let bytes = page(rt.alloc(), &[])?;
    let mut table = following(&mut root(&bytes)?.string_tables()?)?;
    for (key, want) in [
        (
            b"0\x000\x000\x000\x000\x000\x000\x000\0".as_slice(),
            Some((0u16, 0u16)),
        ),
        (b"F\0f\0F\0f\0A\0a\x009\x000\0", Some((0xFFFF, 0xAA90))),
        (b"0\x004\x000\x009\x000\x004\0B\0G\0", None),
        (b"0\x004\x000\x009\x000\x004\0B\0`\0", None),
        (b"0\x004\x000\x009\x000\x004\0B\0@\0", None),
        (b"0\x004\x000\x009\x000\x004\0B\0:\0", None),
        (b"0\x004\x000\x009\x000\x004\0B\0/\0", None),
        (b"0\x004\x000\x009\x000\x004\0B\0g\0", None),
        (b"0\x004\x000\x009\x000\x004\0B\x000\x01", None),
        (b"0\x004\x000\x009\x000\x004\0B\0", None),
        (b"0\x004\x000\x009\x000\x004\0B\x000\x000\0", None),
    ] {
        table.key = key;
        let want = want.map(|(language, code_page)| Translation {
            language,
            code_page,
        });
        assert_eq!(rt; table.translation(), want);
    }
    Ok(())
}

/// The leaf of a type with this id, with its content at these offsets.
fn leaf(id: u32, offset_to_data: u32, size: u32) -> ResourceLeaf {
    ResourceLeaf {
        resource_type: ResourceEntry {
            name_or_id: id,
            offset_to_data_or_directory: 0,
        },
        name: ResourceEntry::default(),
        language: ResourceEntry::default(),
        data_entry: ResourceDataEntry {
            offset_to_data,
            size,
            code_page: 0,
            reserved: 0,
        },
    }
}

#[test]
fn of_a_leaf(rt: HostRuntime) -> std::result::Result<(), Fail> {
    let bytes = page(rt.alloc(), &[])?;
    let image = MappedBytes::new(&bytes, &[], 0, &flat(ParseMode::Strict));
    let whole = leaf(16, 0, 296).version_block(&image)?;
    assert_eq!(rt; whole, VersionBlock::parse(&bytes)?);
    assert!(rt; whole.is_some());
    assert!(rt; leaf(24, 0, 296).version_block(&image)?.is_none());
    assert!(rt; leaf(16, 296, 0).version_block(&image)?.is_none());
    let short = leaf(16, 0, 295).version_block(&image);
    assert_matches!(rt; short => Err(VersionBlockError::PastEnd { length: 296, left: 295 }));
    let outside = leaf(16, 1, 296).version_block(&image);
    assert!(rt; matches!(outside, Err(VersionBlockError::Image(Error::Malformed(_)))));
    Ok(())
}

#[test]
fn texts(rt: HostRuntime) -> std::result::Result<(), Fail> {
    let alloc = rt.alloc();
    let error = VersionBlockError::PastEnd {
        length: 33,
        left: 32,
    };
    let text = format!(in alloc; "{error}")?;
    let want = "version block truncated: 33 bytes needed, 32 left";
    assert_eq!(rt; text.as_str(), want);
    let bytes = [14, 0, 1, 0, 0, 0, 0x41, 0, 0, 0, 0, 0, 7, 0];
    let block = root(&bytes)?;
    assert_eq!(rt;
        format!(in alloc; "{block:?}")?.as_str(),
        "VersionBlock { length: 14, value_length: 1, value_type: 0, key: [65, 0], value: [7], child_bytes: [] }"
    );
    let found = format!(in alloc; "{:?}", VersionBlocks::new(&[1, 2]))?;
    assert_eq!(rt; found.as_str(), "VersionBlocks { left: [1, 2] }");
    let cut = page(alloc, &[(258, &[4])])?;
    let languages = root(&cut)?.translations()?;
    let found = format!(in alloc; "{languages:?}")?;
    assert_eq!(rt; found.as_str(), "Translations { bytes: [9, 4, 176, 4] }");
    assert_eq!(rt;
        format!(in alloc;
            "{:?}",
            Translation {
                language: 1033,
                code_page: 1200
            }
        )?
        .as_str(),
        "Translation { language: 1033, code_page: 1200 }"
    );
    Ok(())
}
