//! Minidumps. What is said to be Wine's are bytes of a dump that its dbghelp (8.0) wrote of a program that crashed, and what
//! obj2yaml 14.0.6 prints of them; all others are made by hand from minidumpapiset.h and winnt.h.

use crate::errors::refused;
use crate::images::image;
use pe_minidump::{
    AddressIndex, AddressRange, ContextArm64, ContextX64, Dump, DumpError, Location,
};
use std::alloc::{AllocError, Global};
use std::test::Fail;

/// A header with one entry of a directory after it, and the stream after that, at offset 44.
pub(crate) fn with_stream(
    alloc: Global,
    stream_type: u8,
    stream: &[u8],
) -> Result<Vec<u8>, AllocError> {
    image(
        alloc,
        44 + stream.len(),
        &[
            (0, b"MDMP\x93\xA7\0\0\x01\0\0\0\x20\0\0\0"),
            (32, &[stream_type]),
            (36, &u32::to_le_bytes(stream.len() as u32)),
            (40, &[44]),
            (44, stream),
        ],
    )
}

/// The bytes 0, 1, 2 .. from an offset on.
fn counting(alloc: Global, len: usize, from: usize) -> Result<Vec<u8>, AllocError> {
    let mut bytes = vec![in alloc; 0u8; len]?;
    for (slot, number) in bytes.iter_mut().skip(from).zip(0u8..=255) {
        *slot = number;
    }
    Ok(bytes)
}

fn location(rva: u64, size: u64, length: usize) -> DumpError {
    DumpError::Location { rva, size, length }
}

fn list_size(count: u64, size: usize) -> DumpError {
    DumpError::ListSize { count, size }
}

fn entry_size(size: u32, needed: usize) -> DumpError {
    DumpError::EntrySize { size, needed }
}

fn short(needed: usize, length: usize) -> DumpError {
    DumpError::Short { needed, length }
}

fn directory(rva: u32, count: u32, length: usize) -> DumpError {
    DumpError::Directory { rva, count, length }
}

/// The header and the directory of a dump of Wine.
const OF_WINE: &[u8; 128] =
    b"MDMP\x93\xA7\0\0\x08\0\0\0 \0\0\0\0\0\0\0\x09\xCD\x08k&\x18\0\0\0\0\0\0\
    \x07\0\0\08\0\0\0\x80\0\0\0\x03\0\0\0d\0\0\0!\x01\0\0\x04\0\0\0 \x02\0\0%\x0B\0\0\xF0\xFF\0\0d\x03\0\0\xB9\x0E\0\0\
    \x0F\0\0\0\x18\0\0\0a\x14\0\0\x06\0\0\0\xA8\0\0\0y\x14\0\0\x09\0\0\0\xC0\x03\0\0\xF1\x19\0\0\0\0\0\0\0\0\0\0\0\0\0\0";

#[test]
fn reads_the_header_and_the_directory(rt: HostRuntime) -> Result<(), Fail> {
    let dump = Dump::parse(OF_WINE)?;
    assert_eq!(rt; dump.header.flags, 0x1826);
    assert_eq!(rt; dump.header.time_date_stamp, 0x6B08_CD09);
    let found = (
        dump.header.number_of_streams,
        dump.header.stream_directory_rva,
    );
    assert_eq!(rt; found, (8, 32));
    let kinds = [7, 3, 4, 0xFFF0, 15, 6, 9, 0];
    assert_eq!(rt; dump.directory().len(), 8);
    for (entry, kind) in dump.directory().iter().zip(kinds) {
        assert_eq!(rt; entry.stream_type, kind);
    }
    let Some(last) = dump.directory().get(6) else {
        return Err(Fail::new("no entry 6"));
    };
    assert_matches!(rt; last.location => Location { size: 960, rva: 6641 });
    assert!(rt; dump.directory().get(8).is_none());
    // shows: pe_minidump/src/location.rt located Location
    // The file ends after the directory.
    assert!(rt; refused(dump.threads(), location(289, 100, 128)));
    assert!(rt; dump.memory_list()?.is_none());
    Ok(())
}

#[test]
fn damaged_headers_are_refused(rt: HostRuntime) -> Result<(), Fail> {
    // shows: pe_minidump/src/location.rt require_fields Short
    // shows: pe_minidump/src/dump.rt parse Signature
    // shows: pe_minidump/src/dump.rt parse Version
    // shows: pe_minidump/src/dump.rt directory_bytes Directory
    let bytes = with_stream(rt.alloc(), 3, b"")?;
    assert!(rt; refused(Dump::parse(&bytes[..31]), short(32, 31)));
    let other = image(rt.alloc(), 40, &[(0, b"MDMQ\x93\xA7")])?;
    assert!(rt; refused(Dump::parse(&other), DumpError::Signature(0x514D_444D)));
    let other = image(rt.alloc(), 40, &[(0, b"MDMP\x94\xA7\x01\0")])?;
    assert!(rt; refused(Dump::parse(&other), DumpError::Version(0x1_A794)));
    let other = image(
        rt.alloc(),
        67,
        &[(0, b"MDMP\x93\xA7\0\0\x03\0\0\0\x20\0\0\0")],
    )?;
    assert!(rt; refused(Dump::parse(&other), directory(32, 3, 67)));
    Ok(())
}

#[test]
fn lists_have_the_size_of_their_entries(rt: HostRuntime) -> Result<(), Fail> {
    let stream = image(rt.alloc(), 56, &[(0, &[1])])?;
    // shows: pe_minidump/src/list.rt counted_list ListSize
    for length in [51usize, 53, 55] {
        let bytes = with_stream(rt.alloc(), 3, stream.get(..length).unwrap_or_default())?;
        assert!(rt; refused(Dump::parse(&bytes)?.threads(), list_size(1, length)));
    }
    Ok(())
}

/// Streams of a byte less than their fields have.
#[test]
fn truncated_streams_are_refused(rt: HostRuntime) -> Result<(), Fail> {
    let short = |needed: usize| short(needed, needed - 1);
    let bytes = with_stream(rt.alloc(), 4, &[2, 0, 0])?;
    assert!(rt; refused(Dump::parse(&bytes)?.modules(), short(4)));
    let bytes = with_stream(rt.alloc(), 6, &[0; 167])?;
    assert!(rt; refused(Dump::parse(&bytes)?.exception(), short(168)));
    let bytes = with_stream(rt.alloc(), 7, &[0; 55])?;
    assert!(rt; refused(Dump::parse(&bytes)?.system_info(), short(56)));
    let bytes = with_stream(rt.alloc(), 15, &[0; 23])?;
    assert!(rt; refused(Dump::parse(&bytes)?.misc_info(), short(24)));
    let bytes = with_stream(rt.alloc(), 12, &[0; 15])?;
    assert!(rt; refused(Dump::parse(&bytes)?.handles(), short(16)));
    let bytes = with_stream(rt.alloc(), 14, &[0; 11])?;
    assert!(rt; refused(Dump::parse(&bytes)?.unloaded_modules(), short(12)));
    let bytes = with_stream(rt.alloc(), 17, &[1; 11])?;
    assert!(rt; refused(Dump::parse(&bytes)?.thread_infos(), short(12)));
    Ok(())
}

/// Two pieces of a file that was truncated: the first has 3 of its 5 bytes, the second none of its 7.
#[test]
fn truncated_memory_is_kept(rt: HostRuntime) -> Result<(), Fail> {
    let stream =
        b"\x02\0\0\0\0\x10\0\0\x01\0\0\0\x05\0\0\0\x50\0\0\0\0\x20\0\0\0\0\0\0\x07\0\0\0\x60\0\0\0abc";
    let mut bytes = with_stream(rt.alloc(), 5, stream)?;
    // The stream ends before the letters, which stand at offset 80.
    crate::images::put(&mut bytes, &[(36, &[36])]);
    let dump = Dump::parse(&bytes)?;
    let Some(list) = dump.memory_list()? else {
        return Err(Fail::new("no memory"));
    };
    let mut pieces = list.iter();
    let (Some(first), Some(second)) = (pieces.next(), pieces.next()) else {
        return Err(Fail::new("no two pieces"));
    };
    let first = dump.piece(first);
    let want: &[u8] = b"abc";
    let found = (first.start, first.offset, first.bytes, first.lost);
    assert_eq!(rt; found, (0x1_0000_1000, 80, want, 2));
    let second = dump.piece(second);
    let none: &[u8] = b"";
    let found = (second.start, second.offset, second.bytes, second.lost);
    assert_eq!(rt; found, (0x2000, 96, none, 7));
    let ranges = dump.memory_ranges(rt.alloc(), &list)?;
    let want: &[AddressRange] = &[range(0x1_0000_1000, 3), range(0x2000, 0)];
    assert_eq!(rt; ranges.as_slice(), want);
    Ok(())
}

/// A sum that is 2^64 - 1, one that is 2^64, and lists of wrong sizes.
#[test]
fn offsets_past_64_bits_are_refused(rt: HostRuntime) -> Result<(), Fail> {
    let stream = image(
        rt.alloc(),
        48,
        &[(0, &[2]), (8, &[0xFD]), (24, &[0xFF; 8]), (40, &[1])],
    )?;
    let mut bytes = with_stream(rt.alloc(), 9, &stream)?;
    // shows: pe_minidump/src/memory64.rt parse Location
    // shows: pe_minidump/src/memory64.rt parse ListSize
    let wrong = location(0xFD, u64::MAX, 92);
    assert!(rt; refused(Dump::parse(&bytes)?.memory64_list(), wrong));
    // FDh + (2^64 - 255) + 1 is 2^64 - 1.
    crate::images::put(&mut bytes, &[(44 + 24, &[1])]);
    assert!(rt; Dump::parse(&bytes)?.memory64_list()?.is_some());
    crate::images::put(&mut bytes, &[(44 + 24, &[2])]);
    assert!(rt; refused(Dump::parse(&bytes)?.memory64_list(), wrong));
    crate::images::put(&mut bytes, &[(44, &[3])]);
    assert!(rt; refused(Dump::parse(&bytes)?.memory64_list(), list_size(3, 48)));
    let bytes = with_stream(rt.alloc(), 9, &[0; 15])?;
    assert!(rt; refused(Dump::parse(&bytes)?.memory64_list(), short(16, 15)));
    Ok(())
}

/// Two handles whose entries have 40 bytes, after a header of 20.
#[test]
fn entries_may_be_larger_than_their_fields(rt: HostRuntime) -> Result<(), Fail> {
    let mut stream = counting(rt.alloc(), 100, 20)?;
    crate::images::put(&mut stream, &[(0, b"\x14\0\0\0\x28\0\0\0\x02\0\0\0")]);
    let bytes = with_stream(rt.alloc(), 12, &stream)?;
    let Some(handles) = Dump::parse(&bytes)?.handles()? else {
        return Err(Fail::new("no handles"));
    };
    let (Some(first), Some(second)) = (handles.get(0), handles.get(1)) else {
        return Err(Fail::new("no two handles"));
    };
    let found = (first.handle, first.type_name_rva);
    assert_eq!(rt; found, (0x0706_0504_0302_0100, 0x0B0A_0908));
    let found = (first.object_name_rva, first.attributes);
    assert_eq!(rt; found, (0x0F0E_0D0C, 0x1312_1110));
    assert_eq!(rt; first.granted_access, 0x1716_1514);
    let found = (first.handle_count, first.pointer_count);
    assert_eq!(rt; found, (0x1B1A_1918, 0x1F1E_1D1C));
    assert_eq!(rt; second.handle, 0x2F2E_2D2C_2B2A_2928);
    assert!(rt; handles.get(2).is_none());
    Ok(())
}

/// A list shows how many records it has, which are 48 bytes each, and what is left of them where the next one is.
#[test]
fn shows_lists_by_their_numbers(rt: HostRuntime) -> Result<(), Fail> {
    let bytes = with_stream(rt.alloc(), 3, counting(rt.alloc(), 148, 0)?.as_slice())?;
    let bytes = crate::images::with_part(bytes, 44, &[3, 0, 0, 0]);
    let list = Dump::parse(&bytes)?.threads()?.ok_or("no threads")?;
    let mut records = list.iter();
    let shown = format!(in rt.alloc(); "{list:?} {records:?}")?;
    assert_eq!(rt;
        shown.as_str(),
        "DumpThreads { count: 3 } DumpThreads { next: 0, count: 3 }"
    );
    records.next();
    records.next();
    let shown = format!(in rt.alloc(); "{records:?}")?;
    assert_eq!(rt; shown.as_str(), "DumpThreads { next: 2, count: 3 }");
    Ok(())
}

#[test]
fn damaged_headers_of_lists_are_refused(rt: HostRuntime) -> Result<(), Fail> {
    let mut bytes = with_stream(rt.alloc(), 12, &[0; 100])?;
    // shows: pe_minidump/src/list.rt list_with EntrySize
    // shows: pe_minidump/src/list.rt list_with ListSize
    for (part, error) in [
        (b"\x10\0\0\0\x1F\0\0\0\x02\0\0\0", entry_size(31, 32)),
        (b"\x0F\0\0\0\x20\0\0\0\x02\0\0\0", list_size(2, 100)),
        (b"\x10\0\0\0\x2B\0\0\0\x02\0\0\0", list_size(2, 100)),
        (
            b"\x10\0\0\0\xFF\xFF\xFF\xFF\xFE\xFF\xFF\xFF",
            list_size(0xFFFF_FFFE, 100),
        ),
    ] {
        crate::images::put(&mut bytes, &[(44, part)]);
        assert!(rt; refused(Dump::parse(&bytes)?.handles(), error));
    }
    // 2^64 - 1 entries of 48 bytes.
    let stream = image(rt.alloc(), 64, &[(0, &[16]), (4, &[48]), (8, &[0xFF; 8])])?;
    let bytes = with_stream(rt.alloc(), 16, &stream)?;
    let wanted = list_size(u64::MAX, 64);
    assert!(rt; refused(Dump::parse(&bytes)?.memory_regions(), wanted));
    Ok(())
}

/// A text at offset 60, an odd length, and texts that pass the end of the file.
#[test]
fn reads_texts(rt: HostRuntime) -> Result<(), Fail> {
    let stream = b"\x01\0\0\0\x07\0\0\0\x3C\0\0\0\0\0\0\0\x04\0\0\0w\0k\0";
    let mut bytes = with_stream(rt.alloc(), 24, stream)?;
    crate::images::put(&mut bytes, &[(36, &[16])]);
    let dump = Dump::parse(&bytes)?;
    let want: &[u8] = b"w\0k\0";
    assert_eq!(rt; dump.text(60)?, want);
    assert!(rt; refused(dump.text(65), location(65, 4, 68)));
    assert!(rt; refused(dump.text(u64::MAX), location(u64::MAX, 4, 68)));
    let mut odd = bytes.clone()?;
    // shows: pe_minidump/src/text.rt text_at Text
    crate::images::put(&mut odd, &[(60, &[3])]);
    let wanted = DumpError::Text { rva: 60, size: 3 };
    assert!(rt; refused(Dump::parse(&odd)?.text(60), wanted));
    crate::images::put(&mut odd, &[(60, &[6])]);
    assert!(rt; refused(Dump::parse(&odd)?.text(60), location(64, 6, 68)));
    Ok(())
}

#[test]
fn refuses_contexts_of_x64(rt: HostRuntime) -> Result<(), Fail> {
    let mut bytes = image(rt.alloc(), 0x4D0, &[(0x30, b"\x0A\0\x10\0")])?;
    // shows: pe_minidump/src/context_x64.rt parse ContextFlags
    // shows: pe_minidump/src/context_x64.rt parse Machine
    let flags = DumpError::ContextFlags(0x10_000A);
    assert!(rt; refused(ContextX64::parse(&bytes), flags));
    crate::images::put(&mut bytes, &[(0x30, &[0x0B, 0, 0x40])]);
    assert!(rt; refused(ContextX64::parse(&bytes), DumpError::Machine(0x40_000B)));
    Ok(())
}

/// A context of ARM64 with vector registers, of which the library for C has the halves of eight: V0 at 110h, V31 at 300h.
#[test]
fn reads_contexts_of_arm64(rt: HostRuntime) -> Result<(), Fail> {
    let parts: [(usize, &[u8]); 3] = [(0, b"\x07\0\x40\0"), (0x110, b"\x05"), (0x30F, b"\x01")];
    let mut bytes = image(rt.alloc(), 0x390, &parts)?;
    let Some(v) = ContextArm64::parse(&bytes)?.v else {
        return Err(Fail::new("no vector registers"));
    };
    assert_eq!(rt; (v[0], v[31]), (5, 1 << 120));
    crate::images::put(&mut bytes, &[(0, &[3])]);
    assert!(rt; ContextArm64::parse(&bytes)?.v.is_none());
    // shows: pe_minidump/src/context_arm64.rt parse ContextFlags
    // shows: pe_minidump/src/context_arm64.rt parse Machine
    crate::images::put(&mut bytes, &[(0, &[5])]);
    let flags = DumpError::ContextFlags(0x40_0005);
    assert!(rt; refused(ContextArm64::parse(&bytes), flags));
    crate::images::put(&mut bytes, &[(0, &[7, 0, 0, 0x80])]);
    assert!(rt; refused(ContextArm64::parse(&bytes), DumpError::Machine(0x8000_0007)));
    Ok(())
}

/// Contexts of other layouts: those of ARM64 that old versions of Breakpad wrote (`MDRawContextARM64_Old` of its
/// minidump_cpu_arm64.h, with the flag 80000000h), and those of x86 (`CONTEXT` of winnt.h, with the flag 10000h).
#[test]
fn refuses_smaller_contexts(rt: HostRuntime) -> Result<(), Fail> {
    // shows: pe_minidump/src/context_bytes.rt require_context ContextSize
    for (size, flags) in [(796, b"\x07\0\0\x80"), (716, b"\x3F\0\x01\0")] {
        let bytes = image(rt.alloc(), size, &[(0, flags)])?;
        let needed = 912;
        let wanted = DumpError::ContextSize { size, needed };
        assert!(rt; refused(ContextArm64::parse(&bytes), wanted));
        let needed = 1232;
        let wanted = DumpError::ContextSize { size, needed };
        assert!(rt; refused(ContextX64::parse(&bytes), wanted));
    }
    Ok(())
}

pub(crate) fn range(start: u64, size: u64) -> AddressRange {
    AddressRange { start, size }
}

/// 10,000 ranges, each of 64 addresses more than its distance from the next, from the highest down: the one with the lower index
/// counts. A list that is gone through for each range would take too long.
#[test]
fn index_of_many_ranges(rt: HostRuntime) -> Result<(), Fail> {
    let mut ranges = Vec::new(rt.alloc());
    for index in 0..10_000u64 {
        ranges.push(range(1000 * (10_000 - index), 1064))?;
    }
    let index = AddressIndex::new(rt.alloc(), &ranges)?;
    for number in 0..10_000u64 {
        let start = 1000 * (10_000 - number);
        assert_eq!(rt; index.find(start + 500), Some(number as usize));
        let first = if number == 0 { 0 } else { number - 1 };
        assert_eq!(rt; index.find(start + 1000), Some(first as usize));
    }
    assert_eq!(rt; index.find(999), None);
    Ok(())
}

#[test]
fn errors_say_what_is_wrong(rt: HostRuntime) -> Result<(), Fail> {
    for (error, text) in [
        (short(32, 31), "record truncated: 32 bytes needed, 31 left"),
        (
            directory(32, 3, 67),
            "directory of 3 entries at offset 0x20 passes the end of the file, 67 bytes",
        ),
        (
            location(289, 100, 128),
            "100 bytes at offset 0x121 pass the end of the file, 128 bytes",
        ),
        (
            list_size(1, 51),
            "list of 1 entries in a stream of 51 bytes",
        ),
        (entry_size(31, 32), "entries of 31 bytes, smaller than 32"),
        (
            DumpError::Text { rva: 60, size: 3 },
            "string at offset 0x3c has an odd number of bytes: 3",
        ),
        (
            DumpError::ContextSize {
                size: 911,
                needed: 912,
            },
            "context of 911 bytes, smaller than 912",
        ),
    ] {
        assert_eq!(rt; format!(in rt.alloc(); "{error}")?.as_str(), text);
    }
    Ok(())
}
