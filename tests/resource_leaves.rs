//! The leaves of a resource tree: their order, trees of other shapes, and what a walk costs.

use crate::images::{directory_at, image, range_at, short, short_in};
use crate::resources::flat;
use pe_core::{ByteRange, Error, MappedBytes, ParseMode};
use pe_resource::{LeafPosition, ResourceData, ResourceEntry, ResourceLeaves, ResourceTreeError};
use std::alloc::{AllocError, Global};
use std::test::Fail;

/// The walk over the tree at the start of the bytes.
fn leaves(bytes: &[u8]) -> pe_core::Result<ResourceLeaves<'_>> {
    let directory = directory_at(0, bytes.len() as u32);
    let image = MappedBytes::new(bytes, &[], 0, &flat(ParseMode::Strict));
    ResourceData::leaves(&image, directory)
}

/// A type with the name `AB`, whose name 1 has two languages, and a type with the id 3, which leads to a data entry. Each
/// byte is where Microsoft's page puts it.
fn small_tree(alloc: Global) -> std::result::Result<Vec<u8>, AllocError> {
    image(
        alloc,
        0x8E,
        &[
            (0x0C, &[1, 0, 1, 0]),
            (0x10, &[0x88, 0, 0, 0x80, 0x20, 0, 0, 0x80]),
            (0x18, &[3, 0, 0, 0, 0x68, 0, 0, 0]),
            (0x2E, &[1, 0]),
            (0x30, &[1, 0, 0, 0, 0x38, 0, 0, 0x80]),
            (0x46, &[2, 0]),
            (0x48, &[0x09, 0x04, 0, 0, 0x58, 0, 0, 0]),
            (0x50, &[0x07, 0x04, 0, 0, 0x68, 0, 0, 0]),
            (0x58, &[0x10, 0x20, 0, 0, 5, 0, 0, 0, 0xE4, 0x04]),
            (0x68, &[0x20, 0x20, 0, 0, 6, 0, 0, 0]),
            (0x88, &[2, 0, 0x41, 0, 0x42, 0]),
        ],
    )
}

#[test]
fn in_the_order_of_entries(rt: HostRuntime) -> std::result::Result<(), Fail> {
    let bytes = small_tree(rt.alloc())?;
    let mut walk = leaves(&bytes)?;
    let data = walk.data();
    for (language, rva, size, code_page) in [
        (0x409u16, 0x2010u32, 5u32, 1252u32),
        (0x407, 0x2020, 6, 0),
    ] {
        let Some(Ok(leaf)) = walk.next() else {
            return Err("no leaf".into());
        };
        let found = leaf.resource_type.name_units(data)?;
        assert_eq!(rt; found, Some(b"A\0B\0".as_slice()));
        assert_eq!(rt; leaf.name.id(), Some(1));
        assert_eq!(rt; leaf.name.name_units(data)?, None);
        assert_eq!(rt; leaf.language.id(), Some(language));
        assert_eq!(rt; leaf.data_entry.offset_to_data, rva);
        assert_eq!(rt; leaf.data_entry.size, size);
        assert_eq!(rt; leaf.data_entry.code_page, code_page);
    }
    // shows: pe_resource/src/leaves.rt table_below NotDirectory
    assert_matches!(rt; walk.next() => Some(Err(ResourceTreeError::NotDirectory(0x68))));
    assert!(rt; walk.next().is_none());
    assert!(rt; walk.next().is_none());
    Ok(())
}

#[test]
fn truncated_names(rt: HostRuntime) -> std::result::Result<(), Fail> {
    let bytes = small_tree(rt.alloc())?;
    let named = ResourceEntry::from(0x8000_0088_0000_0000);
    let text = bytes.get(..0x8D).ok_or("fewer bytes")?;
    assert_eq!(rt; short_in(named.name_units(text)), short(0x8A, 4));
    let count = bytes.get(..0x89).ok_or("fewer bytes")?;
    assert_eq!(rt; short_in(named.name_units(count)), short(0x88, 2));
    Ok(())
}

/// An entry without a leaf costs one item: directories that are empty or truncated, and data entries that are.
#[test]
fn goes_on_after_an_error(rt: HostRuntime) -> std::result::Result<(), Fail> {
    let bytes = image(
        rt.alloc(),
        0x68,
        &[
            (0x0E, &[4, 0]),
            (0x10, &[1, 0, 0, 0, 0x38, 0, 0, 0x80]),
            (0x18, &[2, 0, 0, 0, 0x60, 0, 0, 0x80]),
            (0x20, &[3, 0, 0, 0, 0, 0, 0, 0x80]),
            (0x28, &[4, 0, 0, 0, 0x48, 0, 0, 0x80]),
            (0x56, &[1, 0]),
            (0x58, &[1, 0, 0, 0, 0x48, 0, 0, 0x80]),
        ],
    )?;
    // shows: pe_resource/src/leaves.rt table_below NoEntries
    // shows: pe_resource/src/leaves.rt leaf_of NotData
    let mut walk = leaves(&bytes)?;
    assert!(rt; matches!(walk.next(), Some(Err(ResourceTreeError::NoEntries(0x38)))));
    let short = walk.next();
    assert_matches!(rt; short =>
        Some(Err(ResourceTreeError::Image(Error::Short { at: 0x60, needed: 16 }))));
    // The names of type 3 are the types again: no entries, a truncated directory, four languages, one language.
    assert!(rt; matches!(walk.next(), Some(Err(ResourceTreeError::NoEntries(0x38)))));
    assert!(rt; matches!(walk.next(), Some(Err(ResourceTreeError::Image(_)))));
    for offset in [0x38u32, 0x60, 0, 0x48, 0x48] {
        let item = walk.next();
        assert!(rt; matches!(item, Some(Err(ResourceTreeError::NotData(at))) if at == offset));
    }
    // The directory of type 4 leads to itself.
    assert!(rt; matches!(walk.next(), Some(Err(ResourceTreeError::NotData(0x48)))));
    assert!(rt; walk.next().is_none());
    Ok(())
}

#[test]
fn truncated_data_entries(rt: HostRuntime) -> std::result::Result<(), Fail> {
    let bytes = small_tree(rt.alloc())?;
    let mut walk = leaves(bytes.get(..0x77).ok_or("fewer bytes")?)?;
    assert!(rt; matches!(walk.next(), Some(Ok(_))));
    let second = walk.next();
    assert_matches!(rt; second =>
        Some(Err(ResourceTreeError::Image(Error::Short { at: 0x68, needed: 16 }))));
    Ok(())
}

/// The position before the first leaf of the tree at the start of the bytes.
fn position(bytes: &[u8], mode: ParseMode) -> pe_core::Result<Option<(ByteRange, LeafPosition)>> {
    let directory = directory_at(0, bytes.len() as u32);
    let image = MappedBytes::new(bytes, &[], 0, &flat(mode));
    ResourceData::leaf_position(&image, directory)
}

/// A position outside the data is one error; in permissive mode data without a directory have no position.
#[test]
fn positions_outside(rt: HostRuntime) -> std::result::Result<(), Fail> {
    let bytes = small_tree(rt.alloc())?;
    let outside = range_at(0x8E, 1);
    let end = LeafPosition::default();
    for mut position in [
        LeafPosition {
            types: outside,
            ..end
        },
        LeafPosition {
            names: outside,
            ..end
        },
        LeafPosition {
            languages: outside,
            ..end
        },
    ] {
        let refused = position.next(&bytes);
        assert_matches!(rt; refused =>
            Some(Err(ResourceTreeError::Image(Error::Short { at: 0x8E, needed: 1 }))));
        assert_eq!(rt; position, end);
        assert!(rt; position.next(&bytes).is_none());
    }
    let data = bytes.get(..16).ok_or("fewer bytes")?;
    let (_, mut empty) = position(data, ParseMode::Permissive)?.ok_or("no tree")?;
    assert!(rt; empty.next(data).is_none());
    Ok(())
}

/// A directory of so many entries, each of which leads to the directory itself.
fn shared(alloc: Global, count: u8) -> std::result::Result<Vec<u8>, AllocError> {
    let mut bytes = Vec::new(alloc);
    bytes.extend_from_slice(&[0, 0, 0, 0, 0, 0, 0, 0, 0, 0, 0, 0, 0, 0, count, 0])?;
    for id in 0..count {
        bytes.extend_from_slice(&[id, 0, 0, 0, 0, 0, 0, 0x80])?;
    }
    Ok(bytes)
}

/// A tree that is its own branch ends at the third level, and a caller may end it before.
#[test]
fn rings_end(rt: HostRuntime) -> std::result::Result<(), Fail> {
    for count in [1u8, 2, 7, 40] {
        let bytes = shared(rt.alloc(), count)?;
        let all = leaves(&bytes)?.count();
        let each = usize::from(count);
        assert_eq!(rt; all, each * each * each);
        assert_eq!(rt; leaves(&bytes)?.take(5).count(), all.min(5));
    }
    Ok(())
}

/// A tree with version information, which has fixed file information and one string, and a manifest.
pub(crate) fn version_and_manifest(alloc: Global) -> std::result::Result<Vec<u8>, AllocError> {
    image(
        alloc,
        0x11B,
        &[
            (0x0E, &[2, 0]),
            (0x10, &[16, 0, 0, 0, 0x20, 0, 0, 0x80]),
            (0x18, &[24, 0, 0, 0, 0x38, 0, 0, 0x80]),
            (0x2E, &[1, 0, 1, 0, 0, 0, 0x50, 0, 0, 0x80]),
            (0x46, &[1, 0, 1, 0, 0, 0, 0x68, 0, 0, 0x80]),
            (0x5E, &[1, 0, 9, 4, 0, 0, 0x80, 0, 0, 0]),
            (0x76, &[1, 0, 9, 4, 0, 0, 0x90, 0, 0, 0]),
            (0x80, &[0xA0, 0, 0, 0, 0x78]),
            (0x90, &[0x18, 1, 0, 0, 3]),
            (
                0xA0,
                b"\x5C\0\x34\0\0\0V\0S\0_\0V\0E\0R\0S\0I\0O\0N\0_\0I\0N\0F\0O\0",
            ),
            (
                0xC8,
                &[
                    0xBD, 4, 0xEF, 0xFE, 0, 0, 1, 0, 0x0B, 0, 3, 0, 0, 0, 0x4E, 0x0C,
                ],
            ),
            (0xFC, b"\x1C\0\x02\0\x01\0C\0o\0m\0m\0e\0n\0t\0s\0\0\0B\0"),
            (0x118, b"<a>"),
        ],
    )
}

#[test]
fn contents_and_version_information(rt: HostRuntime) -> std::result::Result<(), Fail> {
    let bytes = version_and_manifest(rt.alloc())?;
    let image = MappedBytes::new(&bytes, &[], 0, &flat(ParseMode::Strict));
    let mut walk = leaves(&bytes)?;
    let Some(Ok(version)) = walk.next() else {
        return Err("no version".into());
    };
    let range = version.content_range(&image)?;
    assert_eq!(rt; range, range_at(0xA0, 0x78));
    let info = version
        .version_info(&image)?
        .ok_or("no version information")?;
    let comments = info.string_info.comments(rt.alloc())?.ok_or("no comments")?;
    assert_eq!(rt; comments.as_str(), "B");
    let Some(Ok(manifest)) = walk.next() else {
        return Err("no manifest".into());
    };
    let range = manifest.content_range(&image)?;
    assert_eq!(rt; range, range_at(0x118, 3));
    assert!(rt; manifest.version_info(&image)?.is_none());
    assert!(rt; walk.next().is_none());
    Ok(())
}

#[test]
fn texts(rt: HostRuntime) -> std::result::Result<(), Fail> {
    let shown = format!(in rt.alloc(); "{}", ResourceTreeError::NotDirectory(0x68))?;
    let want = "resource data entry at 0x68 above the level of languages";
    assert_eq!(rt; shown.as_str(), want);
    Ok(())
}
