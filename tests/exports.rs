//! Exports: the directory, its list, and what refuses the one and is left out of the other.

use crate::images::{image, with_byte};
use crate::shared::section;
use pe_core::{
    DataDirectory, Error, Export, ExportAddress, ExportAddresses, ExportData, MappedBytes,
    ParseOptions, Reason, SectionTable, lies_in,
};
use std::alloc::{AllocError, Global};
use std::process::Abort;
use std::test::Fail;

pub(crate) const ALIGNMENT: u32 = 0x200;

/// One section: the addresses from 0x1000 on stand at 0x200.
pub(crate) fn one_section() -> [SectionTable; 1] {
    [section(0x1000, 0x1000, 0x200, 0x200)]
}

const DIRECTORY: DataDirectory = DataDirectory {
    virtual_address: 0x1060,
    size: 0x28,
};

/// Two names, `f` with ordinal 0 and another with ordinal 5, of which the address table has one entry.
fn exporting(alloc: Global, len: usize) -> Result<Vec<u8>, AllocError> {
    image(
        alloc,
        len,
        &[
            (
                0x26C,
                &[0x90, 0x10, 0, 0, 1, 0, 0, 0, 1, 0, 0, 0, 2, 0, 0, 0],
            ),
            (
                0x27C,
                &[0xA0, 0x10, 0, 0, 0xB0, 0x10, 0, 0, 0xC0, 0x10, 0, 0],
            ),
            (0x290, b"a.dll\0"),
            (0x2A0, &[0x20, 0x10]),
            (0x2B0, &[0xD0, 0x10, 0, 0, 0xD0, 0x10]),
            (0x2C0, &[0, 0, 5, 0]),
            (0x2D0, b"f\0"),
        ],
    )
}

/// The name, the address and the offset of each export.
fn check_exports(
    rt: &impl Abort,
    alloc: Global,
    bytes: &[u8],
    want: &[(&str, u32, Option<usize>)],
) -> Result<(), Fail> {
    let sections = one_section();
    let opts = ParseOptions::default();
    let data = ExportData::parse(bytes, DIRECTORY, &sections, ALIGNMENT)?;
    let exports = Export::parse_with_opts(alloc, bytes, &data, &sections, ALIGNMENT, &opts)?;
    assert_eq!(rt; exports.len(), want.len());
    for (export, (name, rva, offset)) in exports.iter().zip(want) {
        assert_eq!(rt; export.name, *name);
        assert_eq!(rt; export.rva, *rva);
        assert_eq!(rt; export.offset, *offset);
    }
    Ok(())
}

#[test]
fn lists_exports(rt: HostRuntime) -> Result<(), Fail> {
    let bytes = exporting(rt.alloc(), 0x410)?;
    let data = ExportData::parse(&bytes, DIRECTORY, &one_section(), ALIGNMENT)?;
    assert_eq!(rt; data.name, Some("a.dll"));
    assert_eq!(rt; data.directory.ordinal_base, 1);
    assert_eq!(rt; data.directory.number_of_name_pointers, 2);
    assert!(rt; data.addresses == [0x20, 0x10, 0, 0].as_slice());
    assert!(rt; data.names == [0xD0, 0x10, 0, 0, 0xD0, 0x10, 0, 0].as_slice());
    assert!(rt; data.ordinals == [0, 0, 5, 0].as_slice());
    check_exports(&rt, rt.alloc(), &bytes, &[("f", 0x1020, Some(0x220))])
}

/// An address that no section maps is exported all the same.
#[test]
fn exports_what_has_no_offset(rt: HostRuntime) -> Result<(), Fail> {
    let bytes = with_byte(exporting(rt.alloc(), 0x410)?, 0x2A1, 0x30);
    check_exports(&rt, rt.alloc(), &bytes, &[("f", 0x3020, None)])
}

/// Whether the image has a name, with these bytes at these offsets.
fn is_named(alloc: Global, len: usize, parts: &[(usize, u8)]) -> Result<bool, Fail> {
    let mut bytes = exporting(alloc, len)?;
    for (offset, byte) in parts {
        bytes = with_byte(bytes, *offset, *byte);
    }
    let data = ExportData::parse(&bytes, DIRECTORY, &one_section(), ALIGNMENT)?;
    Ok(data.name.is_some())
}

/// The image has no name if its address is 0 or is unmapped, if no zero follows, or if the bytes are not UTF-8.
#[test]
fn no_name_of_the_image(rt: HostRuntime) -> Result<(), Fail> {
    let alloc = rt.alloc();
    assert!(rt; is_named(alloc, 0x410, &[])?);
    assert!(rt; !is_named(alloc, 0x410, &[(0x26C, 0), (0x26D, 0)])?);
    assert!(rt; !is_named(alloc, 0x410, &[(0x26D, 0x30)])?);
    assert!(rt; is_named(alloc, 0x2D2, &[(0x26C, 0xD0)])?);
    assert!(rt; !is_named(alloc, 0x2D1, &[(0x26C, 0xD0)])?);
    assert!(rt; !is_named(alloc, 0x410, &[(0x292, 0xFF)])?);
    Ok(())
}

/// A name that is unmapped, no end or is not UTF-8 leaves its export out, and not the others.
#[test]
fn leaves_out_names(rt: HostRuntime) -> Result<(), Fail> {
    let alloc = rt.alloc();
    let both: [(&str, u32, Option<usize>); 2] = [
        ("f", 0x1020, Some(0x220)),
        ("a.dll", 0x1020, Some(0x220)),
    ];
    let bytes = with_byte(exporting(alloc, 0x410)?, 0x2C2, 0);
    let bytes = with_byte(bytes, 0x2B4, 0x90);
    check_exports(&rt, alloc, &bytes, &both)?;
    let unmapped = with_byte(bytes, 0x2B1, 0x30);
    check_exports(&rt, alloc, &unmapped, &both[1..])?;
    let not_text = with_byte(with_byte(unmapped, 0x2B1, 0x10), 0x2D0, 0xFF);
    check_exports(&rt, alloc, &not_text, &both[1..])?;
    let bytes = with_byte(exporting(alloc, 0x2D1)?, 0x2C2, 0);
    let unterminated = with_byte(bytes, 0x2B4, 0x90);
    check_exports(&rt, alloc, &unterminated, &both[1..])
}

/// What refuses the directory.
fn refusal(bytes: &[u8], directory: DataDirectory) -> Result<Error, Fail> {
    let data = ExportData::parse(bytes, directory, &one_section(), ALIGNMENT);
    Ok(data.err().ok_or("given")?)
}

#[test]
fn refuses_directories(rt: HostRuntime) -> Result<(), Fail> {
    let bytes = exporting(rt.alloc(), 0x410)?;
    let directory = |virtual_address| DataDirectory {
        virtual_address,
        size: 0x28,
    };
    assert_matches!(rt; refusal(&bytes, directory(0x3000))? =>
        Error::Malformed(Reason::Unmapped(0x3000)));
    assert_matches!(rt; refusal(&bytes, directory(0x11F0))? =>
        Error::Short { at: 0x3F0, needed: 40 });
    let unmapped = with_byte(bytes, 0x27D, 0x30);
    // shows: pe_core/src/section_index.rt offset_of Unmapped
    assert_matches!(rt; refusal(&unmapped, DIRECTORY)? =>
        Error::Malformed(Reason::Unmapped(0x30A0)));
    let short = with_byte(with_byte(unmapped, 0x27D, 0x10), 0x275, 1);
    assert_matches!(rt; refusal(&short, DIRECTORY)? => Error::Short { at: 0x2A0, needed: 0x404 });
    let names = with_byte(with_byte(short, 0x275, 0), 0x281, 0x30);
    assert_matches!(rt; refusal(&names, DIRECTORY)? => Error::Malformed(Reason::Unmapped(0x30B0)));
    let ordinals = with_byte(with_byte(names, 0x281, 0x10), 0x285, 0x30);
    assert_matches!(rt; refusal(&ordinals, DIRECTORY)? =>
        Error::Malformed(Reason::Unmapped(0x30C0)));
    Ok(())
}

/// A file whose names all lie in one text of 2 MiB, after as many sections as there may be. Name by name, and section
/// by section, this would take minutes.
#[test]
fn many_names_in_one_text(rt: HostRuntime) -> Result<(), Fail> {
    let alloc = rt.alloc();
    let count: u32 = 400_000;
    let text: u32 = 0x20_0000;
    let mut bytes = vec![in alloc; b'a'; text as usize]?;
    bytes.push(0)?;
    let mut names = Vec::new(alloc);
    for i in 0..count {
        names.extend_from_slice(&u32::to_le_bytes((count - i) * 4))?;
    }
    let mut sections = Vec::new(alloc);
    for _ in 0..65_534u32 {
        sections.push(SectionTable {
            size_of_raw_data: 0,
            ..one_section()[0]
        })?;
    }
    sections.push(SectionTable {
        virtual_address: 0,
        virtual_size: 0,
        size_of_raw_data: text + 0x200,
        pointer_to_raw_data: 0,
        ..one_section()[0]
    })?;
    let ordinals = vec![in alloc; 0; 2 * count as usize]?;
    let small = exporting(alloc, 0x410)?;
    let whole = ExportData::parse(&small, DIRECTORY, &one_section(), ALIGNMENT)?;
    let data = ExportData {
        names: &names,
        ordinals: &ordinals,
        ..whole
    };
    let opts = ParseOptions::default();
    let exports = Export::parse_with_opts(alloc, &bytes, &data, &sections, ALIGNMENT, &opts)?;
    assert_eq!(rt; exports.len(), count as usize);
    Ok(())
}

// ---- exports by index

/// The directory with all that it leads to: the RVAs from 0x1060 up to 0x10E0.
const WIDE: DataDirectory = DataDirectory {
    virtual_address: 0x1060,
    size: 0x80,
};

/// The image with three entries of the address table: `f`, one that is not used, and a forwarder whose text is `a.dll`.
fn forwarding(alloc: Global) -> Result<Vec<u8>, AllocError> {
    let mut bytes = exporting(alloc, 0x410)?;
    for (offset, byte) in [(0x274, 3), (0x2A8, 0x90), (0x2A9, 0x10)] {
        bytes = with_byte(bytes, offset, byte);
    }
    Ok(bytes)
}

fn address(ordinal: u64, rva: u32, is_forwarder: bool) -> ExportAddress {
    ExportAddress {
        ordinal,
        rva,
        is_forwarder,
    }
}

#[test]
fn exports_by_index(rt: HostRuntime) -> Result<(), Fail> {
    let bytes = forwarding(rt.alloc())?;
    let data = ExportData::parse(&bytes, WIDE, &one_section(), ALIGNMENT)?;
    let exports = ExportAddresses::new(&data, WIDE);
    let want = [
        address(1, 0x1020, false),
        address(2, 0, false),
        address(3, 0x1090, true),
    ];
    assert_eq!(rt; (exports.len(), exports.is_empty()), (3, false));
    let mut all = exports.iter();
    for (index, want) in want.iter().enumerate() {
        assert_eq!(rt; exports.at(index), Some(*want));
        let found = (all.len(), all.size_hint());
        assert_eq!(rt; found, (3 - index, (3 - index, Some(3 - index))));
        assert_eq!(rt; all.next(), Some(*want));
    }
    assert!(rt; all.next().is_none() && all.next().is_none());
    for index in [3, 1 << 62, usize::MAX] {
        assert_eq!(rt; exports.at(index), None);
    }
    // Without the bytes after its header the directory has no forwarders.
    let narrow = ExportAddresses::new(&data, DIRECTORY);
    assert_eq!(rt; narrow.at(2), Some(address(3, 0x1090, false)));
    // A truncated last entry is none. The greatest base and the next ordinal after it.
    let short = ExportAddresses {
        addresses: &data.addresses[..11],
        ordinal_base: u32::MAX,
        ..exports
    };
    assert_eq!(rt; (short.len(), short.at(2)), (2, None));
    assert_eq!(rt; short.at(1), Some(address(0x1_0000_0000, 0, false)));
    let none = ExportAddresses {
        addresses: &[],
        ..exports
    };
    assert!(rt; none.is_empty() && none.at(0).is_none() && none.iter().next().is_none());
    Ok(())
}

#[test]
fn forwarders_have_texts(rt: HostRuntime) -> Result<(), Fail> {
    let bytes = forwarding(rt.alloc())?;
    let sections = one_section();
    let opts = ParseOptions::default();
    let image = MappedBytes::new(&bytes, &sections, ALIGNMENT, &opts);
    let data = ExportData::parse(&bytes, WIDE, &sections, ALIGNMENT)?;
    let exports = ExportAddresses::new(&data, WIDE);
    for (rva, want) in [
        (0x1090, Some("a.dll")),
        (0x105F, None),
        (0x10DF, Some("")),
        (0x10E0, None),
    ] {
        assert_eq!(rt; exports.forwarder(rva, &image), want, "at {rva:#x}");
    }
    Ok(())
}

/// The end of a directory may pass the greatest RVA, and does not wrap around.
#[test]
fn directories_end_past_the_address_space(rt: HostRuntime) -> Result<(), Fail> {
    let last = DataDirectory {
        virtual_address: u32::MAX,
        size: u32::MAX,
    };
    assert!(rt; lies_in(last, u32::MAX));
    assert!(rt; !lies_in(last, 0) && !lies_in(last, u32::MAX - 1));
    assert!(rt; lies_in(WIDE, 0x1060) && lies_in(WIDE, 0x10DF));
    assert!(rt; !lies_in(WIDE, 0x105F) && !lies_in(WIDE, 0x10E0));
    Ok(())
}
