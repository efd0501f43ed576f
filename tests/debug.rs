//! Debug data: entries, the six records and POGO entries.

use crate::images::{MODES, directory_at, image, reason_in, with_byte, with_debug};
use crate::resources::flat;
use pe_core::{ByteRange, DataDirectory, Error, Header, ParseMode, ParseOptions, Reason, Result};
use pe_records::{
    CodeviewPDB20DebugInfo, CodeviewPDB70DebugInfo, DebugData, EmbeddedPdb,
    ExDllCharacteristicsInfo, IMAGE_DEBUG_TYPE_CODEVIEW, IMAGE_DEBUG_TYPE_REPRO,
    ImageDebugDirectory, POGOEntryIterator, POGOInfo, POGOInfoEntry, PdbChecksum, ReproInfo,
    VCFeatureInfo,
};
use std::alloc::{AllocError, Global};
use std::test::Fail;

/// The debug data of an image.
fn debug_of<'a>(
    alloc: Global,
    bytes: &'a [u8],
    opts: &ParseOptions,
    fixup: u32,
) -> Result<DebugData<'a>> {
    let header = Header::parse_with_opts(bytes, opts)?;
    let sections = header.sections(alloc, bytes)?;
    let Some(optional) = header.optional_header else {
        return Err(Error::Malformed(Reason::NoOptionalHeader));
    };
    let Some(directory) = optional.data_directories.get_debug_table() else {
        return Ok(DebugData::default());
    };
    let alignment = optional.windows_fields.file_alignment;
    DebugData::parse_with_opts_and_fixup(bytes, directory, &sections, alignment, opts, fixup)
}

#[test]
fn one_repro_entry(rt: HostRuntime) -> std::result::Result<(), Fail> {
    let bytes = with_debug(rt.alloc())?;
    for mode in MODES {
        let opts = ParseOptions::default().with_parse_mode(mode);
        let debug = debug_of(rt.alloc(), &bytes, &opts, 0)?;
        let said = debug.repro_info;
        assert_eq!(rt; said, Some(ReproInfo::TimeDateStamp(0x1122_3344)));
        assert!(rt; debug.codeview_pdb70_debug_info.is_none() && debug.guid().is_none());
        assert!(rt; debug.codeview_pdb20_debug_info.is_none());
        assert!(rt; debug.vcfeature_info.is_none() && debug.ex_dll_characteristics_info.is_none());
        assert!(rt; debug.pogo_info.is_none());
        let entry = ImageDebugDirectory {
            time_date_stamp: 0x1122_3344,
            data_type: 16,
            ..ImageDebugDirectory::default()
        };
        assert_eq!(rt; debug.find_type(IMAGE_DEBUG_TYPE_REPRO), Some(entry));
        assert_eq!(rt; debug.find_type(IMAGE_DEBUG_TYPE_CODEVIEW), None);
        let mut entries = debug.entries();
        assert_eq!(rt; entries.len(), 1);
        assert!(rt; matches!(entries.next(), Some(Ok(found)) if found == entry));
        assert!(rt; entries.next().is_none() && entries.next().is_none());
        let reduced = debug_of(rt.alloc(), &bytes, &opts, 1)?;
        let entry = reduced.find_type(16).ok_or("no entry")?;
        assert_eq!(rt; entry.address_of_raw_data, 0xFFFF_FFFF);
        assert_eq!(rt; entry.pointer_to_raw_data, 0xFFFF_FFFF);
    }
    Ok(())
}

/// The table and the records of five entries; the CodeView record, of PDB 7.0 or of PDB 2.0, says this size.
fn five_entries(
    alloc: Global,
    codeview: &[u8],
    size: u8,
) -> std::result::Result<Vec<u8>, AllocError> {
    let mut bytes = image(
        alloc,
        0xE0,
        &[
            (0x0C, &[2, 0, 0, 0, 0, 0, 0, 0, 0x90]),
            (0x28, &[12, 0, 0, 0, 20, 0, 0, 0, 0xB0]),
            (0x44, &[20, 0, 0, 0, 4, 0, 0, 0, 0xC4]),
            (0x60, &[16, 0, 0, 0, 7, 0, 0, 0, 0xC8]),
            (0x7C, &[13, 0, 0, 0, 16, 0, 0, 0, 0xD0]),
            (0xB0, &[1, 0, 0, 0, 2, 0, 0, 0, 3, 0, 0, 0, 4, 0, 0, 0, 5]),
            (0xC4, &[0x41, 0, 0, 0, 3, 0, 0, 0, 0xAA, 0xBB, 0xCC]),
            (0xD0, b"GCTL\0\x10\0\0\x03\0\0\0.a\0\0"),
        ],
    )?;
    for (byte, slot) in codeview.iter().zip(bytes.iter_mut().skip(0x90)) {
        *slot = *byte;
    }
    Ok(with_byte(bytes, 0x10, size))
}

const PDB70: &[u8] =
    b"RSDS\x10\x11\x12\x13\x14\x15\x16\x17\x18\x19\x1A\x1B\x1C\x1D\x1E\x1F\x09\0\0\0a.pdb\0";

/// The directory of the five entries.
const TABLE: DataDirectory = DataDirectory {
    virtual_address: 0,
    size: 140,
};

/// What the five entries have after their first.
fn has_other_records(debug: &DebugData) -> bool {
    let features = VCFeatureInfo {
        pre_vc_plusplus_count: 1,
        c_and_cplusplus_count: 2,
        guard_stack_count: 3,
        sdl_count: 4,
        guard_count: 5,
    };
    let characteristics = ExDllCharacteristicsInfo {
        characteristics_ex: 0x41,
    };
    let repro = ReproInfo::Buffer {
        length: 3,
        buffer: &[0xAA, 0xBB, 0xCC],
    };
    let pogo = POGOInfo {
        signature: 0x4C54_4347,
        bytes: b"\0\x10\0\0\x03\0\0\0.a\0\0",
    };
    debug.vcfeature_info == Some(features)
        && debug.ex_dll_characteristics_info == Some(characteristics)
        && debug.repro_info == Some(repro)
        && debug.pogo_info == Some(pogo)
}

#[test]
fn sizes_of_a_record(rt: HostRuntime) -> std::result::Result<(), Fail> {
    let strict = flat(ParseMode::Strict);
    let permissive = flat(ParseMode::Permissive);
    let bytes = five_entries(rt.alloc(), PDB70, 23)?;
    let refusal = DebugData::parse_with_opts(&bytes, TABLE, &[], 0, &strict).err();
    // shows: pe_records/src/debug/codeview.rt at DebugSize
    assert!(rt; matches!(refusal, Some(Error::Malformed(Reason::DebugSize(23)))));
    let debug = DebugData::parse_with_opts(&bytes, TABLE, &[], 0, &permissive)?;
    assert!(rt; debug.codeview_pdb70_debug_info.is_none() && has_other_records(&debug));
    for opts in [strict, permissive] {
        for (size, name) in [(24, 0), (0x50, 0x38)] {
            let bytes = five_entries(rt.alloc(), PDB70, size)?;
            let debug = DebugData::parse_with_opts(&bytes, TABLE, &[], 0, &opts)?;
            let record = debug.codeview_pdb70_debug_info.ok_or("no record")?;
            assert_eq!(rt; record.filename.len(), name);
        }
        let bytes = five_entries(rt.alloc(), PDB70, 0x51)?;
        let refusal = DebugData::parse_with_opts(&bytes, TABLE, &[], 0, &opts).err();
        // shows: pe_records/src/debug/codeview.rt at DebugData
        assert!(rt; matches!(refusal, Some(Error::Malformed(Reason::DebugData(0x51)))));
    }
    Ok(())
}

#[test]
fn bounds_of_the_table(rt: HostRuntime) -> std::result::Result<(), Fail> {
    let bytes = five_entries(rt.alloc(), PDB70, 30)?;
    for (virtual_address, size, count, end) in [
        (0, 0xE1, 8, 0xE1),
        (0xA8, 0x39, 2, 0xE1),
        (0xE1, 0, 0, 0xE1),
        (0xA9, 0x38, 2, 0xE1),
    ] {
        let directory = directory_at(virtual_address, size);
        let refusal = DebugData::parse_with_opts(
            &bytes,
            directory,
            &[],
            0,
            &flat(ParseMode::Strict),
        ).err();
        // shows: pe_records/src/debug.rt table_range DebugBounds
        assert_matches!(rt; refusal =>
            Some(Error::Malformed(Reason::DebugBounds(at))) if at == end);
        let opts = flat(ParseMode::Permissive);
        let offset = virtual_address.min(0xE0) as usize;
        let length = 0xE0 - offset;
        let range = DebugData::table_range(&bytes, directory, &[], 0, &opts)?;
        assert_eq!(rt; range, ByteRange { offset, length });
        let debug = DebugData::parse_with_opts(&bytes, directory, &[], 0, &opts)?;
        assert_eq!(rt; debug.entries().len(), count, "at {virtual_address:#x}");
        let unmapped = DebugData::parse(&bytes, directory, &[], 512).err();
        assert!(rt; matches!(unmapped, Some(Error::Malformed(Reason::Unmapped(_)))));
    }
    Ok(())
}

/// A byte after five whole entries is a sixth that is truncated.
#[test]
fn counts_a_cut_entry(rt: HostRuntime) -> std::result::Result<(), Fail> {
    let bytes = five_entries(rt.alloc(), PDB70, 30)?;
    let cut = directory_at(0, 141);
    let debug = DebugData::parse_with_opts(&bytes, cut, &[], 0, &flat(ParseMode::Strict))?;
    let mut entries = debug.entries();
    for left in [6, 5, 4, 3, 2] {
        assert_eq!(rt; entries.size_hint(), (left, Some(left)));
        assert!(rt; matches!(entries.next(), Some(Ok(_))));
    }
    assert_eq!(rt; entries.len(), 1);
    assert!(rt; matches!(entries.next(), Some(Err(Error::Short { .. }))));
    assert!(rt; entries.next().is_none() && entries.next().is_none());
    Ok(())
}

/// PDB 2.0 of 20 bytes is too short for PDB 7.0, which is asked first.
#[test]
fn a_short_record_of_pdb_20(rt: HostRuntime) -> std::result::Result<(), Fail> {
    let bytes = b"NB10\0\0\0\0\x78\x56\x34\x12\x02\0\0\0a.p\0";
    let entry = ImageDebugDirectory {
        data_type: 2,
        size_of_data: 20,
        ..ImageDebugDirectory::default()
    };
    for mode in MODES {
        let opts = ParseOptions::default().with_parse_mode(mode);
        let record = CodeviewPDB20DebugInfo::parse_with_opts(bytes, &entry, &opts)?;
        let record = record.ok_or("no record")?;
        assert_eq!(rt; (record.signature, record.age), (0x1234_5678, 2));
        assert_eq!(rt; record.filename, b"a.p\0".as_slice());
        let other = CodeviewPDB70DebugInfo::parse_with_opts(bytes, &entry, &opts);
        match mode {
            ParseMode::Strict => {
                assert!(rt; matches!(other, Err(Error::Malformed(Reason::DebugSize(20)))))
            }
            ParseMode::Permissive => assert!(rt; matches!(other, Ok(None))),
        }
    }
    Ok(())
}

/// Each record by the default options, at its pointer and not at its address.
#[test]
fn records_at_their_pointers(rt: HostRuntime) -> std::result::Result<(), Fail> {
    let bytes = five_entries(rt.alloc(), PDB70, 30)?;
    let at = |pointer_to_raw_data: u32, size_of_data: u32| ImageDebugDirectory {
        size_of_data,
        address_of_raw_data: 1,
        pointer_to_raw_data,
        ..ImageDebugDirectory::default()
    };
    let pdb70 = CodeviewPDB70DebugInfo::parse(&bytes, &at(0x90, 30))?;
    assert!(rt; matches!(pdb70, Some(record) if record.age == 9));
    assert!(rt; CodeviewPDB20DebugInfo::parse(&bytes, &at(0x90, 30))?.is_none());
    assert_eq!(rt; VCFeatureInfo::parse(&bytes, &at(0xB0, 0))?.guard_count, 5);
    let flags = ExDllCharacteristicsInfo::parse(&bytes, &at(0xC4, 0))?;
    assert_eq!(rt; flags.characteristics_ex, 0x41);
    let repro = ReproInfo::parse(&bytes, &at(0xC8, 1))?;
    assert!(rt; matches!(repro, ReproInfo::Buffer { length: 3, .. }));
    let refusal = ReproInfo::parse(&bytes, &at(0xDC, 1)).err();
    // shows: pe_records/src/debug/records.rt at DebugData
    assert_eq!(rt; reason_in(refusal), Some(Reason::DebugData(0x0000_612E)));
    let refusal = POGOInfo::parse(&bytes, &at(0xD0, 4)).err();
    // shows: pe_records/src/debug/pogo.rt at PogoSize
    assert!(rt; matches!(refusal, Some(Error::Malformed(Reason::PogoSize(4)))));
    let refusal = POGOInfo::parse(&bytes, &at(0xD0, 17)).err();
    // shows: pe_records/src/debug/pogo.rt at DebugData
    assert!(rt; matches!(refusal, Some(Error::Malformed(Reason::DebugData(17)))));
    for offset in [0xDD, 0xFFFF_FFFF] {
        let found = POGOInfo::parse(&bytes, &at(offset, 0));
        assert!(rt; matches!(found, Err(Error::Short { .. })));
        let refusal = ExDllCharacteristicsInfo::parse(&bytes, &at(offset, 0)).err();
        assert!(rt; matches!(refusal, Some(Error::Short { .. })));
    }
    Ok(())
}

const STREAM: &[u8] =
    b"\x00\x10\x00\x00\x03\x00\x00\x00.text$mn\0\0\0\0\x00\x20\x00\x00\xA8\x00\x00\x00.rdata\0\0\xA8\x20\x00\x00\x18\x00\x00\x00.rdata$voltmd\0\0\0\xC0\x20\x00\x00\xCC\x00\x00\x00.rdata$zzzdbg\0\0";

#[test]
fn entries_of_a_stream(rt: HostRuntime) {
    assert_eq!(rt; STREAM.len(), 83);
    let mut entries = POGOEntryIterator::new(STREAM);
    for (rva, size, name) in [
        (0x1000, 3, b".text$mn\0".as_slice()),
        (0x2000, 0xA8, b".rdata\0".as_slice()),
        (0x20A8, 0x18, b".rdata$voltmd\0".as_slice()),
    ] {
        let want = POGOInfoEntry { rva, size, name };
        assert!(rt; matches!(entries.next(), Some(Ok(entry)) if entry == want));
    }
    // shows: pe_records/src/debug/pogo.rt entry_at PogoName
    let refusal = entries.next();
    assert_matches!(rt; reason_in(refusal) =>
        Some(Reason::PogoName { needed: 0x18, length: 0x17 }));
    assert!(rt; entries.next().is_none() && entries.next().is_none());
    let mut cut = POGOEntryIterator::new(b"\x00\x10\x00\x00\x03\x00\x00");
    assert!(rt; matches!(cut.next(), Some(Err(Error::Short { .. }))));
    assert!(rt; cut.next().is_none());
    let mut unterminated = POGOEntryIterator::new(b"\x00\x10\x00\x00\x03\x00\x00\x00ab");
    assert_matches!(rt; reason_in(unterminated.next()) =>
        Some(Reason::PogoName { needed: 12, length: 10 }));
    assert!(rt; unterminated.next().is_none());
    assert!(rt; POGOEntryIterator::new(b"").next().is_none());
}

/// An entry whose record has `size` bytes at the offset, or at the RVA.
fn entry_at(
    pointer_to_raw_data: u32,
    address_of_raw_data: u32,
    size_of_data: u32,
) -> ImageDebugDirectory {
    ImageDebugDirectory {
        pointer_to_raw_data,
        address_of_raw_data,
        size_of_data,
        ..ImageDebugDirectory::default()
    }
}

/// An embedded PDB by the layout of .NET's PE-COFF, from offset 4 on: 300 bytes once it is decompressed.
#[test]
fn embedded_pdbs(rt: HostRuntime) -> std::result::Result<(), Fail> {
    let bytes = b"pad.MPDB\x2C\x01\0\0deflate";
    for mode in MODES {
        let opts = ParseOptions::default().with_parse_mode(mode);
        let pdb = EmbeddedPdb {
            uncompressed_size: 300,
            compressed: b"deflate",
        };
        let entry = entry_at(4, 9, 15);
        assert_eq!(rt; EmbeddedPdb::parse_with_opts(bytes, &entry, &opts)?, pdb);
        assert_eq!(rt; EmbeddedPdb::parse(bytes, &entry)?, pdb);
        let entry = entry_at(9, 4, 8);
        let empty = EmbeddedPdb::parse_with_opts(bytes, &entry, &flat(mode))?;
        assert_eq!(rt; (empty.uncompressed_size, empty.compressed.len()), (300, 0));
        // shows: pe_records/src/debug/managed.rt at DebugSize
        let found = reason_in(EmbeddedPdb::parse_with_opts(bytes, &entry_at(90, 0, 7), &opts));
        assert_eq!(rt; found, Some(Reason::DebugSize(7)));
        let found = EmbeddedPdb::parse_with_opts(bytes, &entry_at(12, 0, 90), &opts);
        assert!(rt; matches!(found, Err(Error::Short { at: 12, needed: 8 })));
        // shows: pe_records/src/debug/managed.rt at BadMagic
        let found = EmbeddedPdb::parse_with_opts(bytes, &entry_at(5, 0, 90), &opts);
        assert!(rt; matches!(found, Err(Error::BadMagic(0x2C42_4450))));
        // shows: pe_records/src/debug/managed.rt at DebugData
        let found = reason_in(EmbeddedPdb::parse_with_opts(bytes, &entry_at(4, 0, 16), &opts));
        assert_eq!(rt; found, Some(Reason::DebugData(16)));
    }
    Ok(())
}

/// A checksum by the same layout: the name of the algorithm, a zero, and the bytes, of which one may be zero.
#[test]
fn checksums_of_pdbs(rt: HostRuntime) -> std::result::Result<(), Fail> {
    let bytes = b"pad.SHA256\0\x01\0\x02tail";
    for mode in MODES {
        let opts = ParseOptions::default().with_parse_mode(mode);
        let sum = PdbChecksum {
            algorithm: b"SHA256",
            checksum: b"\x01\0\x02",
        };
        let found = PdbChecksum::parse_with_opts(bytes, &entry_at(4, 9, 10), &opts)?;
        assert_eq!(rt; found, sum);
        assert_eq!(rt; PdbChecksum::parse(bytes, &entry_at(4, 9, 10))?, sum);
        let empty = PdbChecksum::parse_with_opts(bytes, &entry_at(90, 10, 1), &flat(mode))?;
        assert!(rt; empty.algorithm.is_empty() && empty.checksum.is_empty());
        // shows: pe_records/src/debug/managed.rt of_data DebugSize
        let found = reason_in(PdbChecksum::parse_with_opts(bytes, &entry_at(4, 0, 6), &opts));
        assert_eq!(rt; found, Some(Reason::DebugSize(6)));
        let found = reason_in(PdbChecksum::parse_with_opts(bytes, &entry_at(4, 0, 15), &opts));
        assert_eq!(rt; found, Some(Reason::DebugData(15)));
    }
    Ok(())
}
