//! The unwind data of ARM64 images: the function table with its entries, what is packed in them, and lookup; records with their words,
//! scopes and handler, and streams of unwind codes.

use crate::images::{arm64_function, directory_at, flat, reason_in, short, short_in};
use pe_core::{Error, ParseOptions, Reason};
use pe_unwind::Arm64UnwindCode::{End, Nop};
use pe_unwind::{
    Arm64EpilogScope, Arm64EpilogScopeIterator, Arm64ExceptionHandler, Arm64RuntimeFunction,
    Arm64RuntimeFunctionIterator, Arm64UnwindCode, Arm64UnwindCodeData, Arm64UnwindCodeIterator,
    Arm64UnwindExtension, Arm64UnwindInfo, ExceptionData,
};
use std::alloc::{AllocError, Global};
use std::test::Fail;

fn entry(begin_address: u32, unwind_data: u32) -> Arm64RuntimeFunction {
    arm64_function(begin_address, unwind_data)
}

/// Three entries of eight bytes.
const TABLE: [u8; 24] = [
    0, 0x10, 0, 0, 0x10, 0x10, 0, 0, 0x20, 0x10, 0, 0, 0x20, 0x10, 0, 0, 0x40, 0x10, 0, 0, 1, 0x10,
    0, 0,
];

/// The exception data of an ARM64 table at an offset, with RVAs that are file offsets.
fn table_at(bytes: &[u8], virtual_address: u32, size: u32) -> Result<ExceptionData<'_>, Error> {
    let directory = directory_at(virtual_address, size);
    ExceptionData::parse_arm64_with_opts(bytes, directory, &[], 0x200, &flat())
}

fn refusal(bytes: &[u8], virtual_address: u32, size: u32) -> Option<Reason> {
    match table_at(bytes, virtual_address, size) {
        Err(Error::Malformed(reason)) => Some(reason),
        _ => None,
    }
}

#[test]
fn reads_tables_of_eight_bytes(rt: HostRuntime) -> Result<(), Fail> {
    let data = table_at(&TABLE, 0, 24)?;
    assert_eq!(rt; (data.len_arm64(), data.len()), (3, 2));
    assert_eq!(rt; data.functions_arm64().len(), 3);
    // shows: pe_unwind/src/arm64/function.rt of_table FunctionIndex
    let found = reason_in(data.get_function_arm64(3));
    assert_eq!(rt; found, Some(Reason::FunctionIndex(3)));
    // One entry, which is less than one for x64: not empty.
    let one = table_at(&TABLE, 8, 8)?;
    assert_eq!(rt; (one.len_arm64(), one.len(), one.is_empty()), (1, 0, false));
    Ok(())
}

#[test]
fn refuses_tables(rt: HostRuntime) -> Result<(), Fail> {
    assert_eq!(rt; refusal(&TABLE, 0, 12), Some(Reason::ExceptionSize(12)));
    assert_eq!(rt; refusal(&TABLE, 2, 8), Some(Reason::ExceptionOffset(2)));
    assert_eq!(rt; refusal(&TABLE, 0, 32), Some(Reason::ExceptionBounds(32)));
    // shows: pe_unwind/src/exception.rt parse_table ExceptionBounds
    assert_eq!(rt; refusal(&TABLE, 20, 8), Some(Reason::ExceptionBounds(28)));
    assert!(rt; table_at(&TABLE, 24, 0)?.is_empty());
    let directory = directory_at(0x1000, 8);
    let opts = ParseOptions::default();
    // shows: pe_core/src/section_index.rt mapped_offset Unmapped
    assert_eq!(rt;
        reason_in(ExceptionData::parse_arm64_with_opts(&TABLE, directory, &[], 0x200, &opts)),
        Some(Reason::Unmapped(0x1000))
    );
    Ok(())
}

#[test]
fn names_a_cut_entry_once(rt: HostRuntime) -> Result<(), Fail> {
    let mut functions = Arm64RuntimeFunctionIterator::new(&TABLE[..13]);
    assert_eq!(rt; functions.size_hint(), (2, Some(2)));
    assert!(rt; matches!(functions.next(), Some(Ok(_))));
    assert_eq!(rt; short_in(functions.next()), short(0, 8));
    assert_eq!(rt; functions.len(), 0);
    assert!(rt; functions.next().is_none() && functions.next().is_none());
    Ok(())
}

// ---- lookup

/// A table of these entries.
fn table_of(alloc: Global, entries: &[Arm64RuntimeFunction]) -> Result<Vec<u8>, AllocError> {
    let mut bytes = Vec::new(alloc);
    for function in entries {
        bytes.extend_from_slice(&u32::to_le_bytes(function.begin_address))?;
        bytes.extend_from_slice(&u32::to_le_bytes(function.unwind_data))?;
    }
    Ok(bytes)
}

/// Of two functions that start alike the last is found, also where the first alone covers the address. In a table without
/// an order lookup goes the way of the search: 0x10, then 0x20, and never to 0x30.
#[test]
fn finds_as_the_search_does(rt: HostRuntime) -> Result<(), Fail> {
    let equal = [entry(0x10, 0x11), entry(0x20, 0x21), entry(0x20, 9)];
    let unsorted = [entry(0x30, 0x11), entry(0x10, 0x11), entry(0x20, 0x11)];
    for (entries, rva, want) in [
        (&equal, 0x27, Some(equal[2])),
        (&equal, 0x28, None),
        (&unsorted, 0x10, Some(unsorted[1])),
        (&unsorted, 0x2F, Some(unsorted[2])),
        (&unsorted, 0x30, None),
    ] {
        let bytes = table_of(rt.alloc(), entries)?;
        let data = table_at(&bytes, 0, 24)?;
        let found = data.find_function_arm64(rva, &[], &flat())?;
        assert_eq!(rt; found, want, "at {rva:#x}");
    }
    Ok(())
}

/// A record with one scope, one word of codes, a handler, and one byte of the handler's data.
const HANDLED: [u8; 17] = [
    0x04, 0, 0x50, 0x08, 0x03, 0, 0x38, 0, 0x41, 0x81, 0xE4, 0xE3, 0, 0x20, 0, 0, 0xAA,
];

/// A record with an extension word, which counts one scope and one word of codes.
const EXTENDED: [u8; 16] = [
    0x04, 0, 0, 0, 1, 0, 1, 0, 0x03, 0, 0x38, 0, 0xE4, 0xE3, 0xE3, 0xE3,
];

/// Whether this is the refusal of so many bytes at an offset.
fn is_short<T>(answer: &Result<T, Error>, offset: usize, count: usize) -> bool {
    matches!(answer, Err(Error::Short { at, needed }) if *at == offset && *needed == count)
}

/// The offset in bytes, the condition and the index of a scope.
fn fields(scope: Arm64EpilogScope) -> (u32, u32, u32) {
    (
        scope.start_offset_words(),
        scope.condition(),
        scope.start_index(),
    )
}

#[test]
fn refuses_cut_records(rt: HostRuntime) -> Result<(), Fail> {
    for length in 0..16usize {
        let offset = length / 4 * 4;
        let cut = &HANDLED[..length];
        assert!(rt;
            is_short(&Arm64UnwindInfo::parse(cut, 0), offset, 4),
            "at {length}"
        );
        let found = is_short(&Arm64UnwindInfo::size(cut), 0, 4);
        assert_eq!(rt; found, length < 4, "at {length}");

        let cut = &EXTENDED[..length];
        assert!(rt;
            is_short(&Arm64UnwindInfo::parse(cut, 0), offset, 4),
            "at {length}"
        );
        let found = is_short(&Arm64UnwindInfo::size(cut), offset, 4);
        assert_eq!(rt; found, length < 8, "at {length}");
    }
    let whole = Arm64UnwindInfo::parse(&HANDLED[..16], 0)?;
    assert_eq!(rt;
        whole.exception_handler,
        Some(Arm64ExceptionHandler {
            rva: 0x2000,
            bytes: &[],
        })
    );
    assert!(rt; is_short(&Arm64UnwindInfo::parse(&HANDLED, usize::MAX), usize::MAX, 4));
    Ok(())
}

/// The version is tested before what follows it, and not for a size.
#[test]
fn refuses_other_versions(rt: HostRuntime) -> Result<(), Fail> {
    // shows: pe_unwind/src/arm64/info.rt header_at Arm64Version
    for version in 1..4u8 {
        let record = [0x04, 0, 4 * version, 0];
        assert_matches!(rt; Arm64UnwindInfo::parse(&record, 0) =>
            Err(Error::Malformed(Reason::Arm64Version(was))) if was == u32::from(version));
        assert!(rt; is_short(&Arm64UnwindInfo::size(&record), 4, 4));
    }
    Ok(())
}

#[test]
fn gives_cut_scopes_once(rt: HostRuntime) -> Result<(), Fail> {
    let mut scopes = Arm64EpilogScopeIterator::new(&[3, 0, 0x38, 0, 1]);
    assert_eq!(rt; scopes.len(), 2);
    assert!(rt; matches!(scopes.next(), Some(Ok(Arm64EpilogScope(0x0038_0003)))));
    assert!(rt; matches!(scopes.next(), Some(Err(Error::Short { at: 0, needed: 4 }))));
    assert!(rt; scopes.next().is_none());
    assert!(rt; scopes.next().is_none());
    Ok(())
}

/// A record with every part: an extension word, two scopes, one word of codes, a handler and its data, from offset 4 on.
#[test]
fn reads_a_record_with_every_part(rt: HostRuntime) -> Result<(), Fail> {
    let bytes = [
        0xEE, 0xEE, 0xEE, 0xEE, 0x08, 0, 0x10, 0, 2, 0, 1, 0, 0x01, 0, 0, 0, 0x02, 0, 0x40, 0,
        0xE4, 0xE4, 0xE3, 0xE3, 0x00, 0x30, 0, 0, 7, 8, 9,
    ];
    let info = Arm64UnwindInfo::parse(&bytes, 4)?.clone()?;
    assert_eq!(rt; info.header.function_length(), 32);
    assert_eq!(rt; info.extension, Some(Arm64UnwindExtension(0x0001_0002)));
    let mut scopes = info
        .epilog_scopes()
        .unwrap_or(Arm64EpilogScopeIterator::new(&[]));
    assert_eq!(rt; scopes.len(), 2);
    assert!(rt; matches!(scopes.next(), Some(Ok(scope)) if fields(scope) == (4, 0, 0)));
    assert!(rt; matches!(scopes.next(), Some(Ok(scope)) if fields(scope) == (8, 0, 1)));
    assert!(rt; scopes.next().is_none());
    assert_eq!(rt; info.unwind_codes(1)?.count(), 3);
    assert_eq!(rt; Arm64UnwindInfo::size(&bytes[4..])?, 24);
    assert_eq!(rt;
        info.exception_handler,
        Some(Arm64ExceptionHandler {
            rva: 0x3000,
            bytes: &[7, 8, 9],
        })
    );
    Ok(())
}

/// The greatest counts: a header's 31 scopes and 31 words of codes, an extension word's 65,535 and 255; each with a
/// handler, and with the epilog in the header in place of the scopes.
#[test]
fn sizes_of_the_greatest_records(rt: HostRuntime) -> Result<(), Fail> {
    for (bytes, want) in [
        ([0, 0, 0xD0, 0xFF, 0, 0, 0, 0], 4 + 124 + 124 + 4),
        ([0, 0, 0xF0, 0xFF, 0, 0, 0, 0], 4 + 124 + 4),
        ([0, 0, 0x10, 0, 0xFF, 0xFF, 0xFF, 0], 8 + 262_140 + 1020 + 4),
        ([0, 0, 0x30, 0, 0xFF, 0xFF, 0xFF, 0], 8 + 1020 + 4),
        ([0, 0, 0, 0, 0, 0, 0, 0xFF], 8),
    ] {
        assert_eq!(rt; Arm64UnwindInfo::size(&bytes)?, want);
    }
    Ok(())
}

/// The items of a stream that has no cut code.
fn items(alloc: Global, bytes: &[u8]) -> Result<Vec<Arm64UnwindCodeData>, Fail> {
    let mut found = Vec::new(alloc);
    for item in Arm64UnwindCodeIterator::new(bytes, 0)? {
        found.push(item?)?;
    }
    Ok(found)
}

fn item(offset: u32, code: Arm64UnwindCode, len: u8) -> Arm64UnwindCodeData {
    Arm64UnwindCodeData { offset, code, len }
}

#[test]
fn ends_at_a_cut_code(rt: HostRuntime) -> Result<(), Fail> {
    let mut codes = Arm64UnwindCodeIterator::new(&[0xE3, 0xE3, 0xE3, 0xE0], 0)?;
    assert_eq!(rt; codes.size_hint(), (1, Some(4)));
    for offset in 0..3 {
        assert!(rt; matches!(codes.next(), Some(Ok(found)) if found == item(offset, Nop, 1)));
    }
    // shows: pe_unwind/src/arm64/codes.rt next Arm64Cut
    assert_eq!(rt; reason_in(codes.next()), Some(Reason::Arm64Cut(3)));
    assert!(rt; codes.next().is_none());
    assert!(rt; codes.next().is_none());
    assert_eq!(rt; codes.size_hint(), (0, Some(0)));
    Ok(())
}

#[test]
fn starts_inside_a_stream(rt: HostRuntime) -> Result<(), Fail> {
    let bytes = [0x41, 0x81, 0xE4, 0xE3];
    let mut codes = Arm64UnwindCodeIterator::new(&bytes, 2)?;
    assert!(rt; matches!(codes.next(), Some(Ok(found)) if found == item(2, End, 1)));
    assert!(rt; matches!(codes.next(), Some(Ok(found)) if found == item(3, Nop, 1)));
    assert!(rt; codes.next().is_none());
    assert_eq!(rt; Arm64UnwindCodeIterator::new(&bytes, 4)?.count(), 0);
    assert_eq!(rt; Arm64UnwindCodeIterator::new(&[], 0)?.count(), 0);
    // shows: pe_unwind/src/arm64/codes.rt new Arm64Stream
    assert_matches!(rt; reason_in(Arm64UnwindCodeIterator::new(&bytes, 5)) =>
        Some(Reason::Arm64Stream { length: 4, start: 5 }));
    assert_matches!(rt; reason_in(Arm64UnwindCodeIterator::new(&[0xE3; 6], 0)) =>
        Some(Reason::Arm64Stream { length: 6, start: 0 }));
    Ok(())
}

/// Streams past the offsets that 16 bits can hold.
#[test]
fn reads_long_streams(rt: HostRuntime) -> Result<(), Fail> {
    for (len, last_offset) in [(65536, 65535), (65540, 65539)] {
        let bytes = vec![in rt.alloc(); 0xE3u8; len]?;
        let codes = items(rt.alloc(), &bytes)?;
        assert_eq!(rt; codes.len(), len);
        assert_eq!(rt; codes.last().copied(), Some(item(last_offset, Nop, 1)));
    }
    let mut bytes = vec![in rt.alloc(); 0xE3u8; 65536]?;
    for byte in [0xE3, 0xE3, 0xE3, 0xE0] {
        bytes.push(byte)?;
    }
    let mut codes = Arm64UnwindCodeIterator::new(&bytes, 0)?;
    for offset in 0..65539 {
        assert!(rt; matches!(codes.next(), Some(Ok(found)) if found == item(offset, Nop, 1)));
    }
    assert_eq!(rt; reason_in(codes.next()), Some(Reason::Arm64Cut(65539)));
    assert!(rt; codes.next().is_none());
    Ok(())
}
