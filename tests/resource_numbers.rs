//! The numbers in refusals of resources.

use crate::exports::one_section;
use crate::images::{MODES, directory_at, image, range_at, reason_in, with_part};
use crate::resources::{flat, push_string, version_alone};
use pe_core::{
    ByteRange, Error, MappedBytes, ParseMode, ParseOptions, Reason, Result, SectionTable,
};
use pe_resource::{
    ImageResourceDirectory, ResourceData, ResourceString, ResourceStringIterator, VersionName,
    VsFixedFileInfo,
};
use std::alloc::{AllocError, Global};
use std::test::Fail;

/// A resource directory at 0x260, for the address 0x1060, whose one entry has the id 24. Its data entry has the address
/// 0x1148 and three bytes, at 0x348. Addresses from 0x1000 to 0x1200 stand at 0x200, and the file ends there.
fn one_resource(alloc: Global) -> std::result::Result<Vec<u8>, AllocError> {
    image(
        alloc,
        0x400,
        &[
            (0x26E, &[1]),
            (0x270, &[24, 0, 0, 0, 0x20, 0, 0, 0]),
            (0x280, &[0x48, 0x11, 0, 0, 3]),
        ],
    )
}

/// The range of the resource with the id 24 after a directory at an address.
fn range_of(
    bytes: &[u8],
    virtual_address: u32,
    size: u32,
    mode: ParseMode,
) -> Result<Option<ByteRange>> {
    let directory = directory_at(virtual_address, size);
    let opts = ParseOptions::default().with_parse_mode(mode);
    let sections = one_section();
    let image = MappedBytes::new(bytes, &sections, 0x200, &opts);
    ResourceData::content_range(&image, directory, 24)
}

/// The address of the directory is reported, and that of the bytes of a data entry.
#[test]
fn rvas_that_are_unmapped(rt: HostRuntime) -> std::result::Result<(), Fail> {
    let bytes = one_resource(rt.alloc())?;
    let elsewhere = with_part(one_resource(rt.alloc())?, 0x280, &[0x56, 0x34, 0x12]);
    for mode in MODES {
        let content = range_at(0x348, 3);
        assert_eq!(rt; range_of(&bytes, 0x1060, 0x100, mode)?, Some(content));
        let refused = range_of(&bytes, 0x3B60, 0x100, mode);
        assert!(rt; matches!(refused, Err(Error::Malformed(Reason::Unmapped(0x3B60)))));
        let refused = range_of(&elsewhere, 0x1060, 0x100, mode);
        assert!(rt; matches!(refused, Err(Error::Malformed(Reason::Unmapped(0x12_3456)))));
    }
    Ok(())
}

#[test]
fn address_of_a_directory_alone(rt: HostRuntime) {
    let directory = directory_at(0x3B60, 0x100);
    let sections: [SectionTable; 1] = one_section();
    let refused = ImageResourceDirectory::parse(&[0; 0x400], directory, &sections, 0x200);
    assert!(rt; matches!(refused, Err(Error::Malformed(Reason::Unmapped(0x3B60)))));
}

/// The end in the file is reported, of the directory's data and of the bytes of a data entry.
#[test]
fn ends_of_bytes(rt: HostRuntime) -> std::result::Result<(), Fail> {
    let bytes = one_resource(rt.alloc())?;
    let longer = with_part(one_resource(rt.alloc())?, 0x284, &[0xB9]);
    for mode in MODES {
        // shows: pe_resource/src/content.rt file_range ResourceBounds
        let refused = range_of(&bytes, 0x1060, 0x1A1, mode);
        assert_eq!(rt; reason_in(refused), Some(Reason::ResourceBounds(0x401)));
        let refused = range_of(&longer, 0x1060, 0x100, mode);
        assert_eq!(rt; reason_in(refused), Some(Reason::ResourceBounds(0x401)));
    }
    Ok(())
}

/// Where the entries end in the file is reported: 16 bytes and 8 for each entry after the start of the directory, whether its
/// data are shorter than the directory or than its entries.
#[test]
fn ends_of_entries(rt: HostRuntime) -> std::result::Result<(), Fail> {
    let opts = flat(ParseMode::Strict);
    // One entry with a name and two with an id; and 65,535 of both, which count as so many in all.
    for (counts, end) in [
        ([1, 0, 2, 0], 16 + 8 * 3),
        ([0xFF, 0xFF, 0xFF, 0xFF], 16 + 8 * 65_535),
    ] {
        let bytes = image(rt.alloc(), 64, &[(0x0C, &counts)])?;
        for size in [0, 15, 16, 39] {
            let directory = directory_at(0, size);
            let image = MappedBytes::new(&bytes, &[], 0, &opts);
            let refused = ResourceData::content_range(&image, directory, 24);
            // shows: pe_resource/src/resource.rt first_entries ResourceBounds
            assert!(rt;
                matches!(refused, Err(Error::Malformed(Reason::ResourceBounds(reported))) if reported == end),
                "{size} bytes"
            );
        }
    }
    let bytes = one_resource(rt.alloc())?;
    for size in [0, 15, 16, 23] {
        let refused = range_of(&bytes, 0x1060, size, ParseMode::Strict);
        assert!(rt;
            matches!(
                refused,
                Err(Error::Malformed(Reason::ResourceBounds(0x278)))
            ),
            "{size} bytes"
        );
    }
    Ok(())
}

/// A string that is read at an offset: offsets count from the bytes that were passed. The offset stays.
#[test]
fn strings_at_an_offset(rt: HostRuntime) {
    let bytes = [0, 0, 0, 0, 0, 0, 8, 0, 9, 0, 0, 0, 0, 0, 1, 2, 3];
    let mut offset = 6;
    let refused = ResourceString::parse(&bytes, &mut offset);
    // shows: pe_resource/src/string.rt parse ResourceString
    assert!(rt; matches!(refused, Err(Error::Malformed(Reason::ResourceString(6)))));
    assert_eq!(rt; offset, 6);
    let long = [0, 0, 0, 0, 8, 0, 0, 0x80, 1, 0, 0, 0];
    let mut offset = 4;
    let refused = ResourceString::parse(&long, &mut offset);
    assert!(rt; matches!(refused, Err(Error::Malformed(Reason::ResourceString(4)))));
    assert_eq!(rt; offset, 4);
    for (start, wanted, size) in [(16, 16, 2), (17, 17, 2), (40, 40, 2), (12, 14, 4)] {
        let cut = [0, 0, 0, 0, 0, 0, 0, 0, 0, 0, 0, 0, 5, 0, 1, 0, 0];
        let mut offset = start;
        let refused = ResourceString::parse(&cut, &mut offset);
        assert!(rt;
            matches!(refused, Err(Error::Short { at, needed }) if at == wanted && needed == size),
            "from {start}"
        );
        assert_eq!(rt; offset, start);
    }
}

/// After a string of 36 bytes stands one that doesn't read. Its offset counts from the start of the version
/// information, and for an iterator's item from the start of what the iterator has left.
#[test]
fn strings_of_version_information(rt: HostRuntime) -> std::result::Result<(), Fail> {
    let alloc = rt.alloc();
    let mut strings = Vec::new(alloc);
    push_string(&mut strings, "Comments", "some")?;
    assert_eq!(rt; strings.len(), 36);
    strings.extend_from_slice(&[8, 0, 9, 0, 0, 0, 0, 0, 1, 2, 3, 4])?;
    // shows: pe_resource/src/string.rt counted_from ResourceString
    let is_reported = |error: &Error| matches!(error, Error::Malformed(Reason::ResourceString(36)));
    let refused = VsFixedFileInfo::of_strings(&strings).err().ok_or("read")?;
    assert!(rt; is_reported(&refused));
    let refused = VersionName::Comments.value_range(&strings).err();
    assert!(rt; is_reported(&refused.ok_or("read")?));
    let bytes = version_alone(alloc, strings.as_slice())?;
    let directory = directory_at(0, u32::try_from(bytes.len())?);
    let opts = flat(ParseMode::Strict);
    let data = ResourceData::parse_with_opts(alloc, &bytes, directory, &[], 0, &opts);
    assert!(rt; is_reported(&data.err().ok_or("read")?));
    // shows: pe_resource/src/string.rt counted_from Short
    for (len, offset, size) in [(37, 36, 2), (41, 38, 4)] {
        let cut = strings.as_slice().get(..len).ok_or("fewer bytes")?;
        let refused = VsFixedFileInfo::of_strings(cut).err();
        assert!(rt;
            matches!(refused, Some(Error::Short { at, needed }) if at == offset && needed == size),
            "of {len} bytes"
        );
    }
    let mut items = ResourceStringIterator::new(&strings);
    assert!(rt; matches!(items.next(), Some(Ok(_))));
    assert_eq!(rt; reason_in(items.next()), Some(Reason::ResourceString(0)));
    Ok(())
}

/// After a string of 36 bytes comes `VS_VERSION_INFO`, whose value starts 6 + 32 bytes further, at a multiple of four, and has
/// four bytes. Its offset counts from the start of the version information.
#[test]
fn fixed_information_in_version_information(rt: HostRuntime) -> std::result::Result<(), Fail> {
    let alloc = rt.alloc();
    let mut strings = Vec::new(alloc);
    push_string(&mut strings, "Comments", "some")?;
    assert_eq!(rt; strings.len(), 36);
    strings.extend_from_slice(&[44, 0, 4, 0, 0, 0])?;
    for unit in "VS_VERSION_INFO".as_bytes() {
        strings.extend_from_slice(&[*unit, 0])?;
    }
    strings.extend_from_slice(&[0, 0, 0, 0, 1, 2, 3, 4])?;
    assert_eq!(rt; strings.len(), 36 + 44);
    // shows: pe_resource/src/version.rt fixed_info_in Short
    let is_reported = |error: &Error| matches!(error, Error::Short { at: 76, needed: 52 });
    let refused = VsFixedFileInfo::of_strings(&strings).err().ok_or("read")?;
    assert!(rt; is_reported(&refused));
    let refused = VersionName::Comments.value_range(&strings).err();
    assert!(rt; is_reported(&refused.ok_or("read")?));
    let bytes = version_alone(alloc, strings.as_slice())?;
    let directory = directory_at(0, u32::try_from(bytes.len())?);
    let opts = flat(ParseMode::Strict);
    let data = ResourceData::parse_with_opts(alloc, &bytes, directory, &[], 0, &opts);
    assert!(rt; is_reported(&data.err().ok_or("read")?));
    Ok(())
}
