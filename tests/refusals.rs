//! The name, the text and the numbers of each refusal.

use crate::images::{MODES, directory_at, reason_in, short, short_in};
use pe_core::Reason::{
    Arm64Cut, Arm64Stream, Arm64Version, CertificateRevision, CertificateSize, CertificateTable,
    CertificateType, DebugBounds, DebugSize, ExceptionBounds, ExceptionOffset, ExceptionSize,
    FunctionCycle, FunctionIndex, FunctionLink, HeaderPointer, ImportName, ImportsLimit,
    NoOptionalHeader, PogoName, PogoSize, ResourceBounds, ResourceCycle, ResourceString,
    StringTable, TeSize, Unmapped, UnwindCode, UnwindVersion, WriteAlignment, WriteFit,
    WriteOverlap, WriteSection, WriteSymbols,
};
use pe_core::{Error, ParseOptions, Reason, require_room, slice_at, u8_at, u16_at, u32_at, u64_at};
use pe_records::{
    CodeviewPDB20DebugInfo, DebugData, ImageDebugDirectory, ImageDebugDirectoryIterator,
    POGOEntryIterator, ReproInfo, VCFeatureInfo,
};
use std::alloc::AllocError;
use std::test::Fail;

/// What a reader of a file meets, a writer of an image and a reader of a TE one, and the limit of a call.
const REASONS: [Reason; 35] = [
    HeaderPointer(0x30),
    ImportName(0x2010),
    StringTable(4),
    CertificateRevision(0x300),
    CertificateType(9),
    CertificateSize(24),
    CertificateTable(0x411),
    Unmapped(0x3000),
    DebugBounds(0x500),
    DebugSize(20),
    Reason::DebugData(64),
    PogoSize(4),
    PogoName {
        needed: 0x18,
        length: 0x17,
    },
    ExceptionSize(32),
    ExceptionOffset(0x602),
    ExceptionBounds(0x618),
    FunctionIndex(7),
    FunctionLink(0x1005),
    FunctionCycle(3),
    UnwindVersion(3),
    UnwindCode(0x4B),
    Arm64Version(1),
    Arm64Stream {
        length: 65_540,
        start: 0x10,
    },
    Arm64Cut(0x20),
    ResourceBounds(0x700),
    ResourceCycle(0x18),
    ResourceString(0x70),
    TeSize(39),
    NoOptionalHeader,
    WriteAlignment(0x300),
    WriteSymbols(0x800),
    WriteOverlap(1, 2),
    WriteSection(3),
    WriteFit {
        end: 0x410,
        length: 1_039,
    },
    ImportsLimit {
        count: 1_716_571_632,
        limit: 1_000_000,
    },
];

/// Of each its name and its text.
const TEXTS: &str = "\
HeaderPointer: PE header offset 0x30 lies inside the DOS header's 64 bytes
ImportName: import name at RVA 0x2010 is not NUL-terminated or not UTF-8
StringTable: string not NUL-terminated, not UTF-8 or truncated (at offset 0x4 of the string table, unless it is an inline name)
CertificateRevision: invalid certificate revision 0x300
CertificateType: invalid certificate type 0x9
CertificateSize: certificate truncated: 24 bytes needed
CertificateTable: certificate table ends at file offset 0x411, past the end of the file
Unmapped: RVA 0x3000 maps to no file offset: no section covers it, or the file alignment is not a power of two
DebugBounds: debug directory ends at file offset 0x500, past the end of the file
DebugSize: debug record of 20 bytes is too small for its type
DebugData: debug record truncated: 64 bytes needed
PogoSize: POGO record of 4 bytes has no entries
PogoName: POGO entry truncated: 24 bytes needed up to the end of its padded name, 23 left
ExceptionSize: exception directory size of 32 bytes is not a multiple of the entry size
ExceptionOffset: exception directory at file offset 0x602 is not aligned to 4 bytes
ExceptionBounds: exception directory ends at file offset 0x618, past the end of the file
FunctionIndex: function index 7 is out of range
FunctionLink: link to RVA 0x1005 leads to no function entry
FunctionCycle: loop in unwind links or chained records, found after 3 steps
UnwindVersion: unknown unwind record version 3
UnwindCode: invalid unwind code 0x4b
Arm64Version: unknown ARM64 unwind record version 1
Arm64Stream: no ARM64 unwind code stream in 65540 bytes from offset 0x10
Arm64Cut: ARM64 unwind code truncated at offset 0x20 of its stream
ResourceBounds: resource data ends at file offset 0x700, past the bytes that hold it
ResourceCycle: loop in the resource tree through the directory at offset 0x18
ResourceString: version string at offset 0x70: value missing, or its length above 32,767
TeSize: stripped size of 39 bytes is smaller than the 40 bytes of a TE header
NoOptionalHeader: image has no optional header
WriteAlignment: images with alignment 0x300 cannot be written
WriteSymbols: images with COFF symbols cannot be written (symbol table at file offset 0x800)
WriteOverlap: sections 1 and 2 overlap in the file and are not equal
WriteSection: data of section 3 is not in the source bytes
WriteFit: write ends at offset 0x410, past a buffer of 1039 bytes
ImportsLimit: image has 1716571632 imports, more than the limit of 1000000
";

#[test]
fn texts_of_reasons(rt: HostRuntime) -> Result<(), Fail> {
    let mut texts = String::new(rt.alloc());
    for reason in REASONS {
        let error = Error::Malformed(reason);
        assert_eq!(rt; error.name(), reason.name());
        let text = reason.to_string(rt.alloc())?;
        assert_eq!(rt; error.to_string(rt.alloc())?.as_str(), text.as_str());
        texts.push_str(format!(in rt.alloc(); "{}: {text}\n", reason.name())?.as_str())?;
    }
    assert_eq!(rt; texts.as_str(), TEXTS);
    Ok(())
}

// Its `Debug` is written by hand.
#[test]
fn reasons_are_shown_as_by_a_derive(rt: HostRuntime) -> Result<(), Fail> {
    let alloc = rt.alloc();
    for (reason, shown) in [
        (HeaderPointer(0x30), "HeaderPointer(48)"),
        (REASONS[12], "PogoName { needed: 24, length: 23 }"),
        (WriteOverlap(1, 2), "WriteOverlap(1, 2)"),
        (NoOptionalHeader, "NoOptionalHeader"),
    ] {
        assert_eq!(rt; format!(in alloc; "{reason:?}")?.as_str(), shown);
    }
    let lines = format!(in alloc; "{:#?}", HeaderPointer(0x30))?;
    assert_eq!(rt; lines.as_str(), "HeaderPointer(\n    48,\n)");
    Ok(())
}

#[test]
fn texts_of_errors(rt: HostRuntime) -> Result<(), Fail> {
    let magic = Error::BadMagic(0x5A3D).to_string(rt.alloc())?;
    assert_eq!(rt; magic.as_str(), "invalid magic number 0x5a3d");
    assert_eq!(rt; Error::BadMagic(1).name(), "BadMagic");
    assert_eq!(rt; Error::Short { at: 0, needed: 1 }.name(), "Short");
    let short = Error::Short {
        at: 0x78,
        needed: 4,
    }
    .to_string(rt.alloc())?;
    assert_eq!(rt; short.as_str(), "truncated: 4 bytes needed at offset 0x78");
    let memory = Error::from(AllocError).to_string(rt.alloc())?;
    assert_eq!(rt; memory.as_str(), "out of memory");
    assert_eq!(rt; Error::from(AllocError).name(), "Memory");
    Ok(())
}

#[test]
fn of_reads(rt: HostRuntime) {
    let bytes = [0u8; 9];
    for (refusal, offset, size) in [
        (u8_at(&bytes, 9).err(), 9, 1),
        (u16_at(&bytes, 8).err(), 8, 2),
        (u32_at(&bytes, 6).err(), 6, 4),
        (u64_at(&bytes, 2).err(), 2, 8),
        (slice_at(&bytes, 10, 0).err(), 10, 0),
        (slice_at(&bytes, 5, 7).err(), 5, 7),
    ] {
        // shows: pe_core/src/bytes.rt require_bytes Short
        assert!(rt;
            matches!(refusal, Some(Error::Short { at, needed }) if at == offset && needed == size),
            "{size} bytes at {offset}"
        );
    }
}

/// The end of what is written, and the buffer's length. An end past the greatest number is the greatest.
#[test]
fn of_writes(rt: HostRuntime) {
    let buffer = [0x55u8; 4];
    for (offset, n, want) in [
        (4, 1, 5),
        (3, 2, 5),
        (2, 4, 6),
        (1, 8, 9),
        (5, 0, 5),
        (2, 3, 5),
        (usize::MAX, 1, u64::MAX),
    ] {
        let refusal = require_room(&buffer, offset, n).err();
        // shows: pe_core/src/bytes.rt require_room WriteFit
        assert!(rt;
            matches!(
                refusal,
                Some(Error::Malformed(Reason::WriteFit { end, length: 4 })) if end == want
            ),
            "up to {want}"
        );
    }
}

#[test]
fn of_debug_directories(rt: HostRuntime) {
    for mode in MODES {
        let opts = ParseOptions::default().with_parse_mode(mode);
        let directory = directory_at(0x3000, 28);
        let refusal = DebugData::parse_with_opts(&[0; 64], directory, &[], 512, &opts).err();
        assert!(rt; matches!(refusal, Some(Error::Malformed(Reason::Unmapped(0x3000)))));
    }
}

/// A table of one entry and a byte: the second entry is truncated, and needs 28 bytes from its start.
#[test]
fn of_cut_debug_entries(rt: HostRuntime) {
    let bytes = [0u8; 29];
    let mut entries = ImageDebugDirectoryIterator::new(&bytes, 0);
    assert!(rt; matches!(entries.next(), Some(Ok(_))));
    assert_eq!(rt; short_in(entries.next()), short(0, 28));
    assert!(rt; entries.next().is_none());
}

fn entry(pointer_to_raw_data: u32, size_of_data: u32) -> ImageDebugDirectory {
    ImageDebugDirectory {
        size_of_data,
        pointer_to_raw_data,
        ..ImageDebugDirectory::default()
    }
}

/// The record starts at 4 and has its 16 bytes of numbers, and 4 bytes of a name.
#[test]
fn of_pdb_20(rt: HostRuntime) -> Result<(), Fail> {
    let bytes = b"\0\0\0\0NB10\0\0\0\0\x78\x56\x34\x12\x02\0\0\0a.p\0";
    for mode in MODES {
        let opts = ParseOptions::default().with_parse_mode(mode);
        let given = CodeviewPDB20DebugInfo::parse_with_opts(bytes, &entry(4, 20), &opts)?;
        assert!(rt; given.is_some());
        let refusal = CodeviewPDB20DebugInfo::parse_with_opts(bytes, &entry(4, 21), &opts).err();
        assert!(rt; matches!(refusal, Some(Error::Malformed(Reason::DebugData(21)))));
        let short = bytes.split_at(19).0;
        let refusal = CodeviewPDB20DebugInfo::parse_with_opts(short, &entry(4, 16), &opts).err();
        assert!(rt; matches!(refusal, Some(Error::Short { at: 8, needed: 12 })));
    }
    let refusal = CodeviewPDB20DebugInfo::parse(bytes, &entry(4, 15)).err();
    assert!(rt; matches!(refusal, Some(Error::Malformed(Reason::DebugSize(15)))));
    Ok(())
}

#[test]
fn of_other_records(rt: HostRuntime) {
    let refusal = VCFeatureInfo::parse(&[0; 24], &entry(5, 0)).err();
    assert!(rt; matches!(refusal, Some(Error::Short { at: 5, needed: 20 })));
    let refusal = ReproInfo::parse(&[0; 8], &entry(6, 1)).err();
    assert!(rt; matches!(refusal, Some(Error::Short { at: 6, needed: 4 })));
    let refusal = ReproInfo::parse(&[3, 0, 0, 0, 1, 2], &entry(0, 1)).err();
    assert!(rt; matches!(refusal, Some(Error::Malformed(Reason::DebugData(3)))));
}

/// A name without a zero would need one byte more than are left, and what follows up to a multiple of four.
#[test]
fn of_parts(rt: HostRuntime) {
    let mut parts = POGOEntryIterator::new(b"\0\x10\0\0\x03\0\0\0ab");
    assert_matches!(rt; reason_in(parts.next()) =>
        Some(Reason::PogoName { needed: 12, length: 10 }));
    assert!(rt; parts.next().is_none());
    let mut parts = POGOEntryIterator::new(b"\0\x10\0\0\x03\0\0");
    assert!(rt; matches!(parts.next(), Some(Err(Error::Short { at: 0, needed: 8 }))));
}
