//! Exception data of x64: lookup, links, unwind records and their codes.

use crate::images::{
    directory_at, flat, function_at, reason_in, short, short_in, with_byte, with_functions,
};
use pe_core::{DataDirectory, Error, Header, ParseOptions, Reason};
use pe_unwind::{
    ExceptionData, Register, RuntimeFunction, RuntimeFunctionIterator, ScopeTableIterator,
    UnwindCode, UnwindCodeIterator, UnwindInfo, search,
};
use std::alloc::{AllocError, Global};
use std::test::Fail;

/// The exception data of a function table at offset 0.
fn table_at_0(bytes: &[u8], size: u32) -> Result<ExceptionData<'_>, Error> {
    let directory = directory_at(0, size);
    ExceptionData::parse_with_opts(bytes, directory, &[], 0x200, &flat())
}

fn entry(begin_address: u32, end_address: u32, unwind_info_address: u32) -> RuntimeFunction {
    function_at(begin_address, end_address, unwind_info_address)
}

/// A table of these entries.
fn table_of(alloc: Global, entries: &[RuntimeFunction]) -> Result<Vec<u8>, AllocError> {
    let mut bytes = Vec::new(alloc);
    for function in entries {
        for number in [
            function.begin_address,
            function.end_address,
            function.unwind_info_address,
        ] {
            for byte in u32::to_le_bytes(number) {
                bytes.push(byte)?;
            }
        }
    }
    Ok(bytes)
}

/// Of two functions that start alike the last is found, also where the first alone covers the address.
#[test]
fn finds_the_last_of_equal_starts(rt: HostRuntime) -> Result<(), Fail> {
    let bytes = table_of(
        rt.alloc(),
        &[
            entry(0x10, 0x18, 0),
            entry(0x20, 0x30, 0),
            entry(0x20, 0x28, 0),
        ],
    )?;
    let data = table_at_0(&bytes, 36)?;
    assert_eq!(rt; data.find_function(0x29)?, None);
    assert_eq!(rt; data.find_function(0x21)?, Some(entry(0x20, 0x28, 0)));
    assert_eq!(rt; data.get_function(2)?, entry(0x20, 0x28, 0));
    // shows: pe_unwind/src/function_table.rt of_table FunctionIndex
    let found = reason_in(data.get_function(3));
    assert_eq!(rt; found, Some(Reason::FunctionIndex(3)));
    Ok(())
}

/// In a table without an order, where already the second start is below the first, the lookup goes the way of the search, and
/// misses what a look at every entry finds.
#[test]
fn finds_as_the_search_does_without_order(rt: HostRuntime) -> Result<(), Fail> {
    let mut entries = Vec::new(rt.alloc());
    for i in 0..1000u32 {
        let begin = 16 * (7 * (i + 142) % 1000);
        entries.push(entry(begin, begin + 16, i))?;
    }
    let bytes = table_of(rt.alloc(), &entries)?;
    let data = table_at_0(&bytes, 12000)?;
    let mut hit = false;
    let mut missed = false;
    for function in &entries {
        let rva = function.begin_address;
        let mut table = data.table();
        assert_eq!(rt; table.reads(), 0);
        let searched = search(&mut table, rva);
        assert_eq!(rt; data.find_function(rva)?, searched, "at {rva:#x}");
        if searched.is_some() {
            hit = true;
        } else {
            missed = true;
        }
    }
    assert!(rt; hit && missed);
    Ok(())
}

#[test]
fn refuses_damaged_tables(rt: HostRuntime) -> Result<(), Fail> {
    let bytes = [0u8; 12];
    let found = reason_in(table_at_0(&bytes, 24));
    assert_eq!(rt; found, Some(Reason::ExceptionBounds(24)));
    // shows: pe_unwind/src/exception.rt parse_table ExceptionSize
    let found = reason_in(table_at_0(&bytes, 10));
    assert_eq!(rt; found, Some(Reason::ExceptionSize(10)));
    let odd = directory_at(2, 12);
    // shows: pe_unwind/src/exception.rt parse_table ExceptionOffset
    let found = reason_in(ExceptionData::parse_with_opts(&bytes, odd, &[], 0x200, &flat()));
    assert_eq!(rt; found, Some(Reason::ExceptionOffset(2)));
    let found = reason_in(ExceptionData::parse(&bytes, odd, &[], 0x200));
    assert_eq!(rt; found, Some(Reason::Unmapped(2)));
    Ok(())
}

/// An entry that links to itself never ends; one link of a table of one entry does.
#[test]
fn follows_links(rt: HostRuntime) -> Result<(), Fail> {
    let endless = [0, 0x10, 0, 0, 0x10, 0x10, 0, 0, 1, 0, 0, 0];
    let data = table_at_0(&endless, 12)?;
    let function = data.get_function(0)?;
    let found = reason_in(data.get_unwind_info_with_opts(function, &[], &flat()));
    assert_eq!(rt; found, Some(Reason::FunctionCycle(1)));
    let found = reason_in(data.unwind_at(0x1000, &[], &flat()));
    assert_eq!(rt; found, Some(Reason::FunctionCycle(1)));

    let ending = [0, 0x10, 0, 0, 0x10, 0x10, 0, 0, 0x0C, 0, 0, 0, 1, 0, 0, 0];
    let data = table_at_0(&ending, 12)?;
    let info = data.get_unwind_info_with_opts(entry(0, 0, 1), &[], &flat())?;
    assert_eq!(rt; info.version, 1);
    assert_eq!(rt; info.unwind_codes().count(), 0);

    // shows: pe_unwind/src/links.rt follow FunctionLink
    for address in [3, 13, 25] {
        assert!(rt;
            matches!(
            data.get_unwind_info_with_opts(entry(0, 0, address), &[], &flat()),
            Err(Error::Malformed(Reason::FunctionLink(at))) if at == address
        )
        );
    }
    let found = reason_in(data.get_unwind_info(entry(0, 0, 13), &[]));
    assert_eq!(rt; found, Some(Reason::Unmapped(12)));
    Ok(())
}

/// How many links were followed is reported: a ring is met again after as many links as it has, a long one at the first saved
/// address that lies in it.
#[test]
fn counts_links_of_rings(rt: HostRuntime) -> Result<(), Fail> {
    let mut entries = Vec::new(rt.alloc());
    for i in 0..10u32 {
        entries.push(entry(0, 0, 12 * i + 13))?;
    }
    // From entry 10 back to entry 8: a ring of three, of which entry 8 is the first that is met.
    entries.push(entry(0, 0, 12 * 8 + 1))?;
    let bytes = table_of(rt.alloc(), &entries)?;
    let data = table_at_0(&bytes, 132)?;
    // shows: pe_unwind/src/links.rt end_of FunctionCycle
    for (first, links) in [(8, 7), (4, 7), (0, 11)] {
        assert!(rt;
            matches!(
                data.get_unwind_info_with_opts(entry(0, 0, 12 * first + 1), &[], &flat()),
                Err(Error::Malformed(Reason::FunctionCycle(count))) if count == links
            ),
            "from {first}"
        );
    }
    Ok(())
}

#[test]
fn reports_the_address_of_a_record(rt: HostRuntime) -> Result<(), Fail> {
    let bytes = table_of(rt.alloc(), &[entry(0x10, 0x18, 0x2000)])?;
    let data = table_at_0(&bytes, 12)?;
    let found = reason_in(data.get_unwind_info(data.get_function(0)?, &[]));
    assert_eq!(rt; found, Some(Reason::Unmapped(0x2000)));
    let found = short_in(data.unwind_at(0x10, &[], &flat()));
    assert_eq!(rt; found, short(0x2000, 1));
    Ok(())
}

#[test]
fn names_a_cut_entry_once(rt: HostRuntime) -> Result<(), Fail> {
    let mut functions = RuntimeFunctionIterator::new(&[0; 13]);
    assert_eq!(rt; functions.len(), 2);
    assert!(rt; matches!(functions.next(), Some(Ok(_))));
    // shows: pe_core/src/bytes.rt split_entry Short
    assert_eq!(rt; short_in(functions.next()), short(0, 12));
    assert_eq!(rt; functions.len(), 0);
    assert!(rt; functions.next().is_none() && functions.next().is_none());
    let mut scopes = ScopeTableIterator::new(&[0; 17]);
    assert_eq!(rt; scopes.len(), 1);
    assert!(rt; scopes.next().is_some());
    assert!(rt; scopes.next().is_none() && scopes.next().is_none());
    Ok(())
}

/// A code whose second byte is missing, and one whose operand is.
#[test]
fn reports_the_bytes_that_a_cut_code_needs(rt: HostRuntime) -> Result<(), Fail> {
    // shows: pe_unwind/src/unwind_code.rt code_at Short
    for (bytes, count) in [
        (&[4u8][..], 2),
        (&[4, 0x01, 1][..], 4),
        (&[4, 0x11, 1, 2][..], 6),
    ] {
        let mut codes = UnwindCodeIterator::new(bytes, 1, Register(0));
        assert_matches!(rt; codes.next() =>
            Some(Err(Error::Short { at: 0, needed })) if needed == count);
        assert!(rt; codes.next().is_none());
    }
    Ok(())
}

#[test]
fn refuses_damaged_records(rt: HostRuntime) -> Result<(), Fail> {
    // shows: pe_unwind/src/unwind_info.rt require_version UnwindVersion
    let found = reason_in(UnwindInfo::parse(&[3], 0));
    assert_eq!(rt; found, Some(Reason::UnwindVersion(3)));
    assert!(rt; matches!(UnwindInfo::parse(&[1, 0, 0], 0), Err(Error::Short { .. })));
    let found = UnwindInfo::parse(&[1, 0, 1, 0, 0], 0);
    assert!(rt; matches!(found, Err(Error::Short { .. })));
    assert!(rt; matches!(UnwindInfo::parse(&[], 0), Err(Error::Short { .. })));
    Ok(())
}

#[test]
fn ends_at_the_first_code_that_is_refused(rt: HostRuntime) -> Result<(), Fail> {
    let bad = [1, 4, 1, 0, 4, 0x4B];
    let info = UnwindInfo::parse(&bad, 0)?;
    let mut codes = info.unwind_codes();
    assert_eq!(rt; codes.bytes_left(), 2);
    // shows: pe_unwind/src/unwind_code.rt code_at UnwindCode
    assert_eq!(rt; reason_in(codes.next()), Some(Reason::UnwindCode(0x4B)));
    assert!(rt; codes.next().is_none());

    let cut = [1, 4, 2, 0, 4, 0x11, 1, 2];
    let info = UnwindInfo::parse(&cut, 0)?;
    assert_eq!(rt; info.unwind_codes().count(), 1);
    for item in &info {
        assert!(rt; matches!(item, Err(Error::Short { .. })));
    }
    Ok(())
}

#[test]
fn names_registers(rt: HostRuntime) -> Result<(), Fail> {
    for (number, name) in [
        (0, "$rax"),
        (5, "$rbp"),
        (15, "$r15"),
        (16, "$rip"),
        (17, "$xmm0"),
        (32, "$xmm15"),
        (33, ""),
        (255, ""),
    ] {
        assert_eq!(rt; Register(number).name(), name);
    }
    let text = format!(in rt.alloc(); "{}", Register(4))?;
    assert_eq!(rt; text.as_str(), "$rsp");
    assert!(rt; Register(3) < Register(4));
    Ok(())
}

/// Where the function table of the image stands.
const FUNCTIONS: DataDirectory = DataDirectory {
    virtual_address: 0x1000,
    size: 0x18,
};

/// The raw data end at 0x400 in the file, which goblin rounds up to the file alignment: by one of 4096 the record at 0x720 lies in
/// the section.
#[test]
fn maps_records_by_the_file_alignment(rt: HostRuntime) -> Result<(), Fail> {
    let mut bytes = with_byte(with_functions(rt.alloc())?, 0x209, 0x15);
    bytes.extend_from_slice(&[0; 0x310])?;
    bytes.extend_from_slice(&[1, 4, 2, 0, 4, 0x42, 1, 0x50])?;
    let opts = ParseOptions::default();
    let header = Header::parse_with_opts(&bytes, &opts)?;
    let sections = header.coff_header.sections(rt.alloc(), &bytes, 0x148)?;
    for (file_alignment, size_of_prolog) in [(0x1000, Some(4)), (0x200, None)] {
        let data = ExceptionData::parse(&bytes, FUNCTIONS, &sections, file_alignment)?;
        let found = data.unwind_at(0x1005, &sections, &opts).unwrap_or(None);
        assert_eq!(rt; found.map(|it| it.size_of_prolog), size_of_prolog);
    }
    Ok(())
}
