//! Resources: the worked image, its damaged forms in both modes, version fields, and version strings by their names.

use crate::images::{MODES, directory_at, image, reason_in, short, short_in};
use crate::refusing::Refusing;
use crate::shared::VERSION_NAMES;
use linked_list_allocator::LocalHeap;
use pe_core::{Error, ParseMode, ParseOptions, Reason, Result};
use pe_resource::{
    ImageResourceDirectory, RT_MANIFEST, RT_VERSION, ResourceData, ResourceEntry, ResourceString,
    ResourceStringIterator, StringFileInfo, VersionField, VsFixedFileInfo,
};
use std::alloc::{AllocError, Global};
use std::test::Fail;

/// Options under which an RVA is a file offset.
pub(crate) fn flat(mode: ParseMode) -> ParseOptions {
    ParseOptions {
        resolve_rva: false,
        ..ParseOptions::default().with_parse_mode(mode)
    }
}

/// A resource directory with version information, which has fixed file information and one string, and a manifest.
fn version_and_manifest(
    alloc: Global,
    len: usize,
    changes: &[(usize, &[u8])],
) -> std::result::Result<Vec<u8>, AllocError> {
    let bytes = image(
        alloc,
        len,
        &[
            (0x0E, &[2, 0]),
            (
                0x10,
                &[
                    0x10, 0, 0, 0, 0x20, 0, 0, 0x80, 0x18, 0, 0, 0, 0x38, 0, 0, 0x80,
                ],
            ),
            (0x2E, &[1, 0]),
            (0x30, &[9, 4, 0, 0, 0x50, 0, 0, 0]),
            (0x46, &[1, 0]),
            (0x48, &[9, 4, 0, 0, 0x60, 0, 0, 0]),
            (0x50, &[0x70, 0, 0, 0, 0x78, 0, 0, 0]),
            (0x60, &[0xE8, 0, 0, 0, 3, 0, 0, 0]),
            (
                0x70,
                b"\x5C\0\x34\0\0\0V\0S\0_\0V\0E\0R\0S\0I\0O\0N\0_\0I\0N\0F\0O\0",
            ),
            (
                0x98,
                &[
                    0xBD, 4, 0xEF, 0xFE, 0, 0, 1, 0, 0x0B, 0, 3, 0, 0, 0, 0x4E, 0x0C,
                ],
            ),
            (0xCC, b"\x1C\0\x02\0\x01\0C\0o\0m\0m\0e\0n\0t\0s\0\0\0B\0"),
            (0xE8, b"<a>"),
        ],
    )?;
    changed(bytes, changes)
}

fn changed(
    mut bytes: Vec<u8>,
    changes: &[(usize, &[u8])],
) -> std::result::Result<Vec<u8>, AllocError> {
    for (offset, part) in changes {
        for (byte, slot) in part.iter().zip(bytes.iter_mut().skip(*offset)) {
            *slot = *byte;
        }
    }
    Ok(bytes)
}

/// The resources at offset 0 with this size, from a heap that returns nothing.
pub(crate) fn resources<'a>(
    rt: HostRuntime,
    bytes: &'a [u8],
    size: u32,
    mode: ParseMode,
) -> Result<ResourceData<'a>> {
    let heap = LocalHeap::new(rt.alloc(), 0)?;
    let directory = directory_at(0, size);
    ResourceData::parse_with_opts(&heap, bytes, directory, &[], 0, &flat(mode))
}

#[test]
fn whole_resources(rt: HostRuntime) -> std::result::Result<(), Fail> {
    let bytes = version_and_manifest(rt.alloc(), 0xEB, &[])?;
    for mode in MODES {
        let data = resources(rt, &bytes, 0xEB, mode)?;
        assert_eq!(rt; data.count(), 2);
        let mut entries = data.entries();
        assert_eq!(rt; entries.len(), 2);
        assert!(rt; matches!(entries.next(), Some(Ok(entry)) if entry.id() == Some(RT_VERSION)));
        assert!(rt; matches!(entries.next(), Some(Ok(entry)) if entry.id() == Some(RT_MANIFEST)));
        assert!(rt; entries.next().is_none() && entries.next().is_none());
        let version = data.version_info.ok_or("no version information")?;
        let fixed = version.fixed_info.ok_or("no fixed file information")?;
        assert!(rt; fixed.is_valid());
        let found = fixed.file_version().to_string(rt.alloc())?;
        assert_eq!(rt; found.as_str(), "3.11.3150.0");
        let found = fixed.product_version().to_string(rt.alloc())?;
        assert_eq!(rt; found.as_str(), "0.0.0.0");
        let comments = version.string_info.comments(rt.alloc())?;
        assert!(rt; comments.is_some_and(|text| text.as_str() == "B"));
        assert!(rt; version.string_info.company_name(rt.alloc())?.is_none());
        let manifest = data.manifest_data.ok_or("no manifest")?;
        assert_eq!(rt; manifest.bytes, [0x3C, 0x61, 0x3E].as_slice());
        let by_default = ResourceData::parse(rt.alloc(), &bytes, directory_at(0, 0xEB), &[], 0);
        assert!(rt; matches!(by_default, Err(Error::Malformed(Reason::Unmapped(0)))));
    }
    Ok(())
}

#[test]
fn bounds_by_mode(rt: HostRuntime) -> std::result::Result<(), Fail> {
    let bytes = version_and_manifest(rt.alloc(), 0xEB, &[])?;
    for mode in MODES {
        let past_the_end = resources(rt, &bytes, 0xEC, mode);
        assert_eq!(rt; reason_in(past_the_end), Some(Reason::ResourceBounds(0xEC)));
    }
    for (size, count) in [(15, 0), (24, 2)] {
        let refused = resources(rt, &bytes, size, ParseMode::Strict);
        assert!(rt; matches!(refused, Err(Error::Malformed(Reason::ResourceBounds(_)))));
        let data = resources(rt, &bytes, size, ParseMode::Permissive)?;
        assert_eq!(rt; data.count(), count);
        assert_eq!(rt; data.entries().len(), 0);
        assert!(rt; data.version_info.is_none() && data.manifest_data.is_none());
    }
    let short = resources(rt, &bytes, 15, ParseMode::Permissive)?;
    let found = short.image_resource_directory;
    assert_eq!(rt; found, ImageResourceDirectory::default());
    Ok(())
}

/// The entries are those that the parse took, whatever the public directory says afterwards.
#[test]
fn entries_of_the_parse(rt: HostRuntime) -> std::result::Result<(), Fail> {
    let bytes = version_and_manifest(rt.alloc(), 0xEB, &[])?;
    let mut data = resources(rt, &bytes, 0xEB, ParseMode::Strict)?;
    data.image_resource_directory.number_of_id_entries = 65535;
    assert_eq!(rt; data.count(), 65535);
    assert_eq!(rt; data.entries().len(), 2);
    let entry = data.entries().find_by_id(RT_MANIFEST)?;
    assert_eq!(rt; entry, Some(ResourceEntry::from(0x18_8000_0038)));
    assert_eq!(rt; data.entries().find_by_id(9)?, None);
    Ok(())
}

#[test]
fn faults_of_version_information(rt: HostRuntime) -> std::result::Result<(), Fail> {
    for mode in MODES {
        let bytes = version_and_manifest(rt.alloc(), 0xEB, &[(0x34, &[0x20, 0, 0, 0x80])])?;
        let endless = resources(rt, &bytes, 0xEB, mode);
        assert!(rt; matches!(endless, Err(Error::Malformed(Reason::ResourceCycle(0x20)))));
        let bytes = version_and_manifest(rt.alloc(), 0xEB, &[(0x72, &[0xFF, 0xFF])])?;
        let too_long = resources(rt, &bytes, 0xEB, mode);
        assert!(rt; matches!(too_long, Err(Error::Malformed(Reason::ResourceString(0)))));
        let bytes = version_and_manifest(rt.alloc(), 0xEB, &[(0xD2, b"c")])?;
        let data = resources(rt, &bytes, 0xEB, mode)?;
        let version = data.version_info.ok_or("no version information")?;
        assert!(rt; version.string_info.comments(rt.alloc())?.is_none());
        let bytes = version_and_manifest(
            rt.alloc(),
            0xCB,
            &[(0x72, &[0x33, 0]), (0x50, &[0x70, 0, 0, 0, 0x5B, 0, 0, 0])],
        )?;
        let cut = resources(rt, &bytes, 0xCB, mode);
        assert!(rt; matches!(cut, Err(Error::Short { at: 40, needed: 52 })));
        let bytes = version_and_manifest(rt.alloc(), 0xEB, &[(0x54, &[0x7C])])?;
        let outside = resources(rt, &bytes, 0xEB, mode);
        assert!(rt; matches!(outside, Err(Error::Malformed(Reason::ResourceBounds(0xEC)))));
        let bytes = version_and_manifest(rt.alloc(), 0xEB, &[(0x34, &[0xE0, 0, 0, 0])])?;
        let no_data_entry = resources(rt, &bytes, 0xEB, mode);
        assert_eq!(rt; short_in(no_data_entry), short(0xE0, 16));
    }
    Ok(())
}

/// Without an entry, or where a walk ends at a directory, there is none.
#[test]
fn no_version_information(rt: HostRuntime) -> std::result::Result<(), Fail> {
    for changes in [(0x10, [0x11, 0]), (0x2E, [0, 0])] {
        let (offset, part) = changes;
        let bytes = version_and_manifest(rt.alloc(), 0xEB, &[(offset, part.as_slice())])?;
        let data = resources(rt, &bytes, 0xEB, ParseMode::Strict)?;
        assert!(rt; data.version_info.is_none() && data.manifest_data.is_some());
    }
    Ok(())
}

#[test]
fn entries_and_their_numbers(rt: HostRuntime) {
    let named = ResourceEntry::from(0x8000_1838_8000_2938);
    assert!(rt; named.name_is_string() && named.data_is_directory());
    assert_eq!(rt; named.name_offset(), 0x1838);
    assert_eq!(rt; named.id(), None);
    assert_eq!(rt; named.offset_to_directory(), 0x2938);
    assert_eq!(rt; named.offset_to_data(), None);
    assert_eq!(rt; named.value(), 0x8000_1838_8000_2938);
    let with_id = ResourceEntry::from(0x2088_0000_8080);
    assert_eq!(rt; with_id.id(), Some(8328));
    assert!(rt; !with_id.data_is_directory() && !with_id.name_is_string());
    assert_eq!(rt; with_id.offset_to_data(), Some(0x8080));
}

#[test]
fn version_fields(rt: HostRuntime) -> std::result::Result<(), Fail> {
    let version = VersionField::from_ms_ls(0x0004_0002, 0x0003_0001);
    let VersionField {
        major,
        minor,
        build,
        revision,
    } = version;
    assert_eq!(rt; (major, minor, build, revision), (4, 2, 3, 1));
    assert_eq!(rt; version.to_string(rt.alloc())?.as_str(), "4.2.3.1");
    assert_eq!(rt; version.to_ms(), 0x0004_0002);
    assert_eq!(rt; version.to_ls(), 0x0003_0001);
    assert!(rt; version < VersionField::from_ms_ls(0x0004_0003, 0));
    assert!(rt; VersionField::from_ms_ls(0x0003_FFFF, 0xFFFF_FFFF) < version);
    let fixed = VsFixedFileInfo {
        file_version_ms: 0x0003_000B,
        file_version_ls: 0x0C4E_0000,
        ..VsFixedFileInfo::default()
    };
    assert!(rt; !fixed.is_valid());
    let found = fixed.file_version().to_string(rt.alloc())?;
    assert_eq!(rt; found.as_str(), "3.11.3150.0");
    Ok(())
}

/// A version string whose value is this text: it starts at a multiple of four.
pub(crate) fn push_string(
    out: &mut Vec<u8>,
    key: &str,
    text: &str,
) -> std::result::Result<(), AllocError> {
    let units = text.len().wrapping_add(1);
    for number in [40, (units % 65536) as u16, 1] {
        out.extend_from_slice(&u16::to_le_bytes(number))?;
    }
    push_units(out, key)?;
    push_units(out, text)
}

fn push_units(out: &mut Vec<u8>, text: &str) -> std::result::Result<(), AllocError> {
    for byte in text.as_bytes() {
        out.extend_from_slice(&[*byte, 0])?;
    }
    out.extend_from_slice(&[0, 0])?;
    if out.len() % 4 != 0 {
        out.extend_from_slice(&[0, 0])?;
    }
    Ok(())
}

/// A resource directory of one entry, whose version information is these bytes.
pub(crate) fn version_alone(
    alloc: Global,
    strings: &[u8],
) -> std::result::Result<Vec<u8>, AllocError> {
    let mut bytes = image(
        alloc,
        0x28,
        &[
            (0x0E, &[1]),
            (0x10, &[0x10, 0, 0, 0, 0x18]),
            (0x18, &[0x28]),
        ],
    )?;
    let size = u32::try_from(strings.len()).unwrap_or(0);
    for (byte, slot) in u32::to_le_bytes(size)
        .iter()
        .zip(bytes.iter_mut().skip(0x1C))
    {
        *slot = *byte;
    }
    bytes.extend_from_slice(strings)?;
    Ok(bytes)
}

/// The texts of all names, in their order.
pub(crate) fn texts_of(
    alloc: Global,
    info: &StringFileInfo,
) -> std::result::Result<[Option<String>; 12], AllocError> {
    Ok([
        info.comments(alloc)?,
        info.company_name(alloc)?,
        info.file_description(alloc)?,
        info.file_version(alloc)?,
        info.internal_name(alloc)?,
        info.legal_copyright(alloc)?,
        info.legal_trademarks(alloc)?,
        info.original_filename(alloc)?,
        info.private_build(alloc)?,
        info.product_name(alloc)?,
        info.product_version(alloc)?,
        info.special_build(alloc)?,
    ])
}

/// A string for each name, whose value is the name with a sign before it, and after them all names once more.
#[test]
fn twelve_names(rt: HostRuntime) -> std::result::Result<(), Fail> {
    let mut strings = Vec::new(rt.alloc());
    for name in VERSION_NAMES {
        let value = format!(in rt.alloc(); "={name}")?;
        push_string(&mut strings, name, value.as_str())?;
    }
    for name in VERSION_NAMES {
        push_string(&mut strings, name, "again")?;
    }
    let bytes = version_alone(rt.alloc(), strings.as_slice())?;
    let size = u32::try_from(bytes.len())?;
    let data = resources(rt, &bytes, size, ParseMode::Strict)?;
    let version = data.version_info.ok_or("no version information")?;
    assert!(rt; version.fixed_info.is_none());
    let texts = texts_of(rt.alloc(), &version.string_info)?;
    for (text, name) in texts.iter().zip(VERSION_NAMES) {
        let value = format!(in rt.alloc(); "={name}")?;
        assert!(rt;
            matches!(text, Some(found) if found.as_str() == value.as_str()),
            "{name}"
        );
    }
    Ok(())
}

// ---- version strings: one alone, their texts, and the strings of a table against a plain program that collects them

#[test]
fn strings_alone(rt: HostRuntime) -> std::result::Result<(), Fail> {
    let bytes = [0x10, 0, 2, 0, 1, 0, 0x41, 0, 0, 0, 0, 0, 0x42, 0, 0, 0];
    let mut offset = 0;
    let string = ResourceString::parse(&bytes, &mut offset)?.ok_or("no string")?;
    assert_eq!(rt; offset, 16);
    let found = (string.len, string.value_len, string.text_type);
    assert_eq!(rt; found, (16, 2, 1));
    assert!(rt; string.is_text_data() && !string.is_binary_data());
    assert_eq!(rt; string.value, [0x42, 0, 0, 0].as_slice());
    assert!(rt;
        string
            .key_string(rt.alloc())?
            .is_some_and(|text| text.as_str() == "A")
    );
    assert!(rt;
        string
            .value_string(rt.alloc())?
            .is_some_and(|text| text.as_str() == "B")
    );
    let mut long = bytes;
    long[2] = 0;
    long[3] = 0x80;
    let mut offset = 0;
    let refused = ResourceString::parse(&long, &mut offset);
    assert!(rt; matches!(refused, Err(Error::Malformed(Reason::ResourceString(0)))));
    assert_eq!(rt; offset, 0);
    let odd = [0x0F, 0, 3, 0, 0, 0, 0x41, 0, 0, 0, 0, 0, 1, 2, 3];
    let mut offset = 0;
    let string = ResourceString::parse(&odd, &mut offset)?.ok_or("no string")?;
    assert!(rt; string.is_binary_data() && !string.is_text_data());
    assert_eq!(rt; string.value, [1, 2, 3].as_slice());
    let refusing = Refusing::new(rt.alloc(), 0);
    assert!(rt; string.value_string(&refusing)?.is_none());
    assert!(rt; !refusing.has_refused());
    let mut ended = bytes;
    ended[0] = 0;
    let mut left = ResourceStringIterator::new(&ended);
    assert!(rt; left.next().is_none() && left.next().is_none());
    let mut offset = 0;
    assert!(rt; ResourceString::parse(&ended, &mut offset)?.is_none());
    assert_eq!(rt; offset, 2);
    let mut cut = ResourceStringIterator::new(&[5]);
    assert!(rt; matches!(cut.next(), Some(Err(Error::Short { at: 0, needed: 2 }))));
    assert!(rt; cut.next().is_none() && cut.next().is_none());
    Ok(())
}

/// Bytes of a length that only a string which is no text may have.
#[test]
fn longest_value_of_bytes(rt: HostRuntime) -> std::result::Result<(), Fail> {
    let mut bytes = Vec::new(rt.alloc());
    bytes.extend_from_slice(&[1, 0, 0xFF, 0xFF, 0, 0, 0, 0])?;
    for _ in 0..65535 {
        bytes.push(7)?;
    }
    let mut offset = 0;
    let string = ResourceString::parse(&bytes, &mut offset)?.ok_or("no string")?;
    assert_eq!(rt; string.value.len(), 65535);
    assert_eq!(rt; offset, 65543);
    let mut offset = 0;
    let mut as_text = bytes;
    if let Some(slot) = as_text.get_mut(4) {
        *slot = 1;
    }
    let refused = ResourceString::parse(&as_text, &mut offset);
    assert!(rt; matches!(refused, Err(Error::Malformed(Reason::ResourceString(0)))));
    Ok(())
}

/// A string with an empty key and an empty value.
pub(crate) const EMPTY: [u8; 8] = [8, 0, 0, 0, 1, 0, 0, 0];

/// The text of a value with these bytes, of a string that is read from others.
fn text_of<'a>(
    alloc: Global,
    empty: &'a [u8],
    value: &'a [u8],
) -> std::result::Result<Option<String>, Fail> {
    let mut offset = 0;
    let mut string = ResourceString::parse(empty, &mut offset)?.ok_or("no string")?;
    string.value = value;
    Ok(string.value_string(alloc)?)
}

#[test]
fn texts_of_values(rt: HostRuntime) -> std::result::Result<(), Fail> {
    for (value, want) in [
        ([].as_slice(), ""),
        (&[0, 0], ""),
        (b"H\0e\0l\0l\0o\0", "Hello"),
        (b"H\0i\0", "Hi"),
        (b"H\0i\0\0\0e\0x\0", "Hi"),
        (
            &[0x53, 0x30, 0x93, 0x30, 0x6B, 0x30, 0x61, 0x30, 0x6F, 0x30],
            "こんにちは",
        ),
        (&[0x3E, 0xD8, 0x80, 0xDD], "🦀"),
        (&[0x41, 0, 0xE5, 0x65, 0x2C, 0x67, 0x42, 0], "A日本B"),
        (&[0x41, 0, 0, 0, 0, 0], "A"),
    ] {
        let text = text_of(rt.alloc(), &EMPTY, value)?;
        assert!(rt; text.is_some_and(|found| found.as_str() == want), "{want}");
    }
    for value in [[0x48, 0, 0x65].as_slice(), &[0x3D, 0xD8, 0x41, 0]] {
        assert!(rt; text_of(rt.alloc(), &EMPTY, value)?.is_none());
    }
    let mut value = Vec::new(rt.alloc());
    let mut letters = String::new(rt.alloc());
    for i in 0..1000u32 {
        let letter = (0x41 + i % 26) as u8;
        value.extend_from_slice(&[letter, 0])?;
        letters.push(char::from(letter))?;
    }
    let text = text_of(rt.alloc(), &EMPTY, &value)?;
    assert!(rt; text.is_some_and(|found| found.as_str() == letters.as_str()));
    Ok(())
}
