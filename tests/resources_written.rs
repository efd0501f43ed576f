//! Resource sections that are written: their bytes, numbers in refusals, and contents that are empty. The bytes follow from
//! Microsoft's page, the order of the parts from the definition.

use crate::images::{directory_at, image};
use crate::resources::flat;
use pe_core::{Error, MappedBytes, ParseMode, Reason};
use pe_edit::{
    EditError, Leaves, RecordError, RecordKey, RecordRange, Resource, ResourceKey, ResourceRecord,
    require_records, section_len, write_section,
};
use pe_resource::ResourceData;
use std::alloc::Global;
use std::test::Fail;

/// The RVA of the sections.
const RVA: u32 = 0x3000;

/// What a byte of a buffer is before a call.
pub(crate) const OLD: u8 = 0xAA;

pub(crate) fn list<'a>(leaves: &'a [Resource<'a>]) -> Leaves<'a> {
    Leaves::Values(leaves)
}

/// A resource with ids and no code page.
fn resource(kind: u16, name: u16, language: u16, content: &[u8]) -> Resource<'_> {
    Resource {
        resource_type: ResourceKey::Id(kind),
        name: ResourceKey::Id(name),
        language,
        code_page: 0,
        content,
    }
}

/// A type with a name, of which one resource has two languages, the second with an empty content; and the type 3 with a
/// resource that has a name.
fn three_leaves() -> [Resource<'static>; 3] {
    let first = Resource {
        resource_type: ResourceKey::Name(b"A\0B\0"),
        name: ResourceKey::Id(1),
        language: 0x407,
        code_page: 1252,
        content: b"abcde",
    };
    let second = Resource {
        language: 0x409,
        code_page: 0,
        content: b"",
        ..first
    };
    let third = Resource {
        resource_type: ResourceKey::Id(3),
        name: ResourceKey::Name(b"C\0"),
        language: 0,
        code_page: 0,
        content: b"0123456789",
    };
    [first, second, third]
}

/// The error of leaves without a section, the same by both calls; the buffer stays as it was.
fn refused(alloc: Global, leaves: &[Resource<'_>]) -> Result<String, Fail> {
    let mut out = [OLD; 16];
    let Err(error) = write_section(&list(leaves), RVA, &mut out) else {
        return Err("a section is written".into());
    };
    if out != [OLD; 16] {
        return Err("the buffer has changed".into());
    }
    let Err(same) = section_len(&list(leaves), RVA) else {
        return Err("a section has a length".into());
    };
    let shown = format!(in alloc; "{error:?}")?;
    if shown != format!(in alloc; "{same:?}")? {
        return Err("the calls return two errors".into());
    }
    Ok(shown)
}

/// A section without leaves is one directory without entries.
#[test]
fn no_leaves(rt: HostRuntime) -> Result<(), Fail> {
    let mut out = [OLD; 17];
    assert_eq!(rt; write_section(&list(&[]), RVA, &mut out)?, 16);
    assert_eq!(rt; &out[..16], [0; 16].as_slice());
    assert_eq!(rt; out[16], OLD);
    Ok(())
}

/// The content of the last leaf is empty, and the section ends with its eight zeros: its RVA is mapped.
#[test]
fn an_empty_last_content_is_mapped(rt: HostRuntime) -> Result<(), Fail> {
    let leaves = [resource(10, 1, 0, b"")];
    let mut out = [OLD; 0x60];
    let length = write_section(&list(&leaves), 0, &mut out)?;
    assert_eq!(rt; length, 0x60);
    let directory = directory_at(0, length as u32);
    let opts = flat(ParseMode::Strict);
    let image = MappedBytes::new(&out, &[], 0, &opts);
    let mut walk = ResourceData::leaves(&image, directory)?;
    let Some(Ok(leaf)) = walk.next() else {
        return Err("no leaf".into());
    };
    assert_eq!(rt; leaf.data_entry.offset_to_data, 0x58);
    assert_eq!(rt; leaf.data_entry.size, 0);
    Ok(())
}

#[test]
fn a_buffer_that_is_too_small(rt: HostRuntime) -> Result<(), Fail> {
    let mut out = [OLD; 0xE7];
    let Err(EditError::Image(Error::Malformed(Reason::WriteFit { end, length }))) = write_section(
        &list(&three_leaves()),
        RVA,
        &mut out,
    ) else {
        return Err("no refusal".into());
    };
    assert_eq!(rt; (end, length), (0xE8, 0xE7));
    assert_eq!(rt; out, [OLD; 0xE7]);
    Ok(())
}

#[test]
fn numbers_in_refusals(rt: HostRuntime) -> Result<(), Fail> {
    let [first, second, third] = three_leaves();
    let odd = Resource {
        name: ResourceKey::Name(b"C\0D"),
        ..third
    };
    let named = Resource {
        name: ResourceKey::Name(b"B\x01"),
        ..third
    };
    let before = Resource {
        name: ResourceKey::Name(b"C\0"),
        ..third
    };
    // shows: pe_edit/src/section.rt require_names Name
    // shows: pe_edit/src/section.rt require_order Order
    for (leaves, text) in [
        (&[first, second, odd][..], "Name(2)"),
        (&[first, second, third, second][..], "Order(3)"),
        (&[first, second, second][..], "Order(2)"),
        (&[second, first][..], "Order(1)"),
        (&[first, named, before][..], "Order(2)"),
        (
            &[resource(3, 1, 0, b""), resource(3, 1, 0, b"x")][..],
            "Order(1)",
        ),
        (
            &[resource(3, 2, 0, b""), resource(3, 1, 1, b"x")][..],
            "Order(1)",
        ),
        (&[third, first][..], "Order(1)"),
    ] {
        let shown = refused(rt.alloc(), leaves)?;
        assert_eq!(rt; shown.as_str(), text);
    }
    Ok(())
}

const fn key(id: u32) -> RecordKey {
    RecordKey {
        name: bytes_at(0, 0),
        id,
        has_name: 0,
    }
}

const fn bytes_at(offset: u64, length: u64) -> RecordRange {
    RecordRange { offset, length }
}

/// One of three records has a range outside of the array, or an id or a language of more than 16 bits.
#[test]
fn records_that_do_not_fit(rt: HostRuntime) -> Result<(), Fail> {
    let record = ResourceRecord {
        resource_type: key(10),
        name: key(1),
        content: bytes_at(1, 3),
        language: 0x409,
        code_page: 0,
    };
    let named = RecordKey {
        name: bytes_at(3, 2),
        has_name: 1,
        ..key(0)
    };
    // shows: pe_edit/src/record.rt require_fits Record
    for (wrong, index) in [
        (
            ResourceRecord {
                content: bytes_at(2, 3),
                ..record
            },
            2,
        ),
        (
            ResourceRecord {
                name: named,
                ..record
            },
            1,
        ),
        (
            ResourceRecord {
                resource_type: key(0x1_0000),
                ..record
            },
            2,
        ),
        (
            ResourceRecord {
                language: 0x1_0000,
                ..record
            },
            1,
        ),
    ] {
        let mut records = [record; 3];
        records[index] = wrong;
        let Err(RecordError::Record(found)) = require_records(&records, b"abcd") else {
            return Err("a record that does not fit is taken".into());
        };
        assert_eq!(rt; found, index);
    }
    Ok(())
}

#[test]
fn texts_of_refusals(rt: HostRuntime) -> Result<(), Fail> {
    for (error, text) in [
        (
            EditError::Name(7),
            "type or name of resource 7 has an odd number of bytes, or more than 65,535 code units",
        ),
        (
            EditError::TablesTooLarge(0x8000_0010),
            "directories and names of the resources have 0x80000010 bytes, 0x80000000 or more",
        ),
    ] {
        let shown = format!(in rt.alloc(); "{error}")?;
        assert_eq!(rt; shown.as_str(), text);
    }
    Ok(())
}

/// 65,535 leaves are written, and read; one more is refused.
#[test]
fn as_many_leaves_as_there_are_types(rt: HostRuntime) -> Result<(), Fail> {
    let mut leaves = Vec::new(rt.alloc());
    for kind in 0..=65_535u32 {
        leaves.push(resource(kind as u16, 1, 0, b""))?;
    }
    // shows: pe_edit/src/section.rt section_layout TooMany
    let shown = refused(rt.alloc(), &leaves)?;
    assert_eq!(rt; shown.as_str(), "TooMany(65536)");
    leaves.push(resource(65_535, 2, 0, b""))?;
    let shown = refused(rt.alloc(), &leaves)?;
    assert_eq!(rt; shown.as_str(), "TooMany(65537)");
    leaves.truncate(65_536);
    let length = section_len(&list(&leaves[1..]), 0)?;
    // A directory of types, and for each type two directories of one entry, a data entry and eight zeros.
    assert_eq!(rt; length, 16 + 65_535 * (8 + 24 + 24 + 16 + 8));
    let mut out = vec![in rt.alloc(); OLD; length]?;
    assert_eq!(rt; write_section(&list(&leaves[1..]), 0, &mut out)?, length);
    let directory = directory_at(0, length as u32);
    let opts = flat(ParseMode::Strict);
    let image = MappedBytes::new(&out, &[], 0, &opts);
    let mut count = 0u32;
    for item in ResourceData::leaves(&image, directory)? {
        let Ok(leaf) = item else {
            return Err("an item is an error".into());
        };
        count += 1;
        assert_eq!(rt; leaf.resource_type.id(), Some(count as u16));
    }
    assert_eq!(rt; count, 65_535);
    Ok(())
}

/// The names of 16,384 types have 65,535 code units each, which end at 2 GB.
#[test]
fn names_of_two_gigabytes(rt: HostRuntime) -> Result<(), Fail> {
    let mut units = Vec::new(rt.alloc());
    for unit in 0..81_919u32 {
        units.push((unit % 256) as u8)?;
        units.push((unit / 256 % 256) as u8)?;
    }
    let mut leaves = Vec::new(rt.alloc());
    for index in 0..16_384 {
        leaves.push(Resource {
            resource_type: ResourceKey::Name(&units[2 * index..2 * index + 131_070]),
            ..resource(1, 1, 0, b"")
        })?;
    }
    // shows: pe_edit/src/section.rt section_layout TablesTooLarge
    let shown = refused(rt.alloc(), &leaves)?;
    let size = 16 + 16_384usize * (8 + 24 + 24 + 16 + 131_072);
    let text = format!(in rt.alloc(); "TablesTooLarge({size})")?;
    assert_eq!(rt; shown.as_str(), text.as_str());
    Ok(())
}

/// 256 contents of 16 MB each, the same bytes: with the directories the section ends after 4 GB.
#[test]
fn contents_of_four_gigabytes(rt: HostRuntime) -> Result<(), Fail> {
    let content = vec![in rt.alloc(); 0u8; 1 << 24]?;
    let mut leaves = Vec::new(rt.alloc());
    for name in 0..256u32 {
        leaves.push(resource(10, name as u16, 0, &content))?;
    }
    let shown = refused(rt.alloc(), &leaves)?;
    assert_eq!(rt; shown.as_str(), "TooLarge");
    // 255 of them fit at this RVA, and not at one that is 4 GB less 255 contents.
    let found = section_len(&list(&leaves[1..]), RVA)?;
    assert_eq!(rt; found, 255 * (1 << 24) + 16 + 8 + 16 + 255 * (8 + 24 + 16));
    let Err(EditError::TooLarge) = section_len(&list(&leaves[1..]), 1 << 24) else {
        return Err("a section that ends after 4 GB has a length".into());
    };
    Ok(())
}
