//! Plans: the records of a function up to the root of its chain, chains that never end, and the memory that they take.

use crate::images::{directory_at, flat, function_at, reason_in, short, short_in, with_part};
use crate::refusing::Refusing;
use pe_core::{Error, ParseOptions, Reason, Result};
use pe_plan::{ShortPlan, UnwindPlan, read_plan};
use pe_unwind::{ExceptionData, UnwindHandler, UnwindInfo};
use std::alloc::{AllocError, Allocator, Global};
use std::process::Abort;
use std::test::Fail;

/// The plan of an address, by a function table of this size at offset 0.
pub(crate) fn plan<'a, A: Allocator>(
    alloc: A,
    bytes: &'a [u8],
    size: u32,
    rva: u32,
) -> Result<Option<Vec<UnwindInfo<'a>, A>>> {
    let directory = directory_at(0, size);
    let exceptions = ExceptionData::parse_with_opts(bytes, directory, &[], 0x200, &flat())?;
    UnwindPlan::of(alloc, &exceptions, rva, &[], &flat())
}

/// One function, whose record is chained to one that is not chained.
fn two_records(alloc: Global) -> std::result::Result<Vec<u8>, AllocError> {
    let table = [0, 0x10, 0, 0, 0x10, 0x10, 0, 0, 0x0C, 0, 0, 0];
    let first = [
        0x21, 0, 0, 0, 0, 0x10, 0, 0, 0x10, 0x10, 0, 0, 0x1C, 0, 0, 0,
    ];
    let mut bytes = Vec::new(alloc);
    bytes.extend_from_slice(&table)?;
    bytes.extend_from_slice(&first)?;
    bytes.extend_from_slice(&[1, 0, 0, 0])?;
    Ok(bytes)
}

/// Where record `k` stands after a table of one entry, if all of them are chained.
pub(crate) fn offset_of(k: u32) -> u32 {
    12 + 16 * k
}

/// One function, whose record is chained to a second and so on. The last of these has the unwind address `last`, and
/// after them stands one that is not chained.
pub(crate) fn chain(
    alloc: Global,
    chained: u32,
    last: u32,
) -> std::result::Result<Vec<u8>, AllocError> {
    let mut bytes = Vec::new(alloc);
    bytes.extend_from_slice(&[0, 0x10, 0, 0, 0x10, 0x10, 0, 0, 0x0C, 0, 0, 0])?;
    for k in 0..chained {
        let address = if k + 1 == chained {
            last
        } else {
            offset_of(k + 1)
        };
        bytes.extend_from_slice(&[0x21, 0, 0, 0, 0, 0x10, 0, 0, 0x10, 0x10, 0, 0])?;
        bytes.extend_from_slice(&u32::to_le_bytes(address))?;
    }
    bytes.extend_from_slice(&[1, 0, 0, 0])?;
    Ok(bytes)
}

#[test]
fn gives_the_records_up_to_the_root(rt: HostRuntime) -> std::result::Result<(), Fail> {
    let alloc = rt.alloc();
    let bytes = two_records(alloc)?;
    let records = plan(alloc, &bytes, 12, 0x1005)?.ok_or("no function")?;
    assert_eq!(rt; records.len(), 2);
    let second = function_at(0x1000, 0x1010, 0x1C);
    assert_eq!(rt; records[0].chained_info, Some(second));
    assert!(rt; records[1].chained_info.is_none() && records[1].handler.is_none());
    assert!(rt; plan(alloc, &bytes, 12, 0x1010)?.is_none());
    assert!(rt; plan(alloc, &bytes, 0, 0x1005)?.is_none());
    Ok(())
}

/// The root's fields are those of its record, here with a handler.
#[test]
fn gives_the_whole_root(rt: HostRuntime) -> std::result::Result<(), Fail> {
    let alloc = rt.alloc();
    let mut bytes = with_part(two_records(alloc)?, 0x1C, &[0x09, 7, 0, 0x25]);
    bytes.extend_from_slice(&[0, 0x20, 0, 0, 0xAA])?;
    let records = plan(alloc, &bytes, 12, 0x100F)?.ok_or("no function")?;
    assert_eq!(rt; records.len(), 2);
    let root = &records[1];
    assert_eq!(rt; (root.version, root.size_of_prolog), (1, 7));
    let found = (root.frame_register.0, root.frame_register_offset);
    assert_eq!(rt; found, (5, 32));
    assert_matches!(rt; root.handler => Some(UnwindHandler::ExceptionHandler(0x2000, &[0xAA])));
    Ok(())
}

#[test]
fn refuses_as_the_first_refusal(rt: HostRuntime) -> std::result::Result<(), Fail> {
    let alloc = rt.alloc();
    let with_address = |address: u8| -> std::result::Result<Vec<u8>, AllocError> {
        Ok(with_part(two_records(alloc)?, 0x18, &[address, 0, 0, 0]))
    };
    for address in [0x0C, 0x01] {
        assert!(rt;
            matches!(
                plan(alloc, &with_address(address)?, 12, 0x1005),
                Err(Error::Malformed(Reason::FunctionCycle(_)))
            ),
            "by {address:#x}"
        );
    }
    let found = reason_in(plan(alloc, &with_address(5)?, 12, 0x1005));
    assert_eq!(rt; found, Some(Reason::FunctionLink(5)));
    let found = short_in(plan(alloc, &with_address(0x20)?, 12, 0x1005));
    assert_eq!(rt; found, short(0x20, 1));
    let version = with_part(two_records(alloc)?, 0x1C, &[3]);
    let found = reason_in(plan(alloc, &version, 12, 0x1005));
    assert_eq!(rt; found, Some(Reason::UnwindVersion(3)));
    Ok(())
}

/// Addresses are mapped by the options and sections that are passed.
#[test]
fn maps_addresses_by_its_options(rt: HostRuntime) -> std::result::Result<(), Fail> {
    let alloc = rt.alloc();
    let bytes = two_records(alloc)?;
    let directory = directory_at(0, 12);
    let exceptions = ExceptionData::parse_with_opts(&bytes, directory, &[], 0x200, &flat())?;
    assert_eq!(rt;
        reason_in(UnwindPlan::of(alloc, &exceptions, 0x1005, &[], &ParseOptions::default())),
        Some(Reason::Unmapped(0x0C))
    );
    Ok(())
}

/// Memory is asked for by the count alone, however great.
#[test]
fn follows_a_hundred_thousand_records(rt: HostRuntime) -> std::result::Result<(), Fail> {
    let alloc = rt.alloc();
    let bytes = chain(alloc, 99_999, offset_of(99_999))?;
    let records = plan(alloc, &bytes, 12, 0x1000)?.ok_or("no function")?;
    assert_eq!(rt; records.len(), 100_000);
    let next = records[99_998].chained_info.ok_or("the root comes early")?;
    assert_eq!(rt; next.unwind_info_address, offset_of(99_999));
    assert!(rt; records[99_999].chained_info.is_none());
    Ok(())
}

/// How many records were followed until the cycle was reported. An address is saved after 1, 2, 4, 8 and so on records: the
/// first saved one that lies in the ring, and from which on the ring fits in before the next is saved, comes again after as
/// many records as the ring has.
#[test]
fn reports_the_records_of_a_ring(rt: HostRuntime) -> std::result::Result<(), Fail> {
    let alloc = rt.alloc();
    for (records, first, followed) in [
        (1, 0, 1),
        (2, 0, 2 + 2),
        (2, 1, 1 + 1),
        (3, 0, 4 + 3),
        (3, 1, 2 + 2),
        (3, 2, 2 + 1),
        (20, 7, 16 + 13),
        (20, 17, 32 + 3),
        (500, 300, 512 + 200),
    ] {
        let bytes = chain(alloc, records, offset_of(first))?;
        // shows: pe_plan/src/chain.rt count FunctionCycle
        assert!(rt;
            matches!(
                plan(alloc, &bytes, 12, 0x1000),
                Err(Error::Malformed(Reason::FunctionCycle(reported))) if reported == followed
            ),
            "{records} records, back to {first}"
        );
    }
    Ok(())
}

/// How many requests for memory a plan makes, each of which is refused in its turn.
fn requests(rt: &impl Abort, alloc: Global, bytes: &[u8]) -> std::result::Result<u32, Fail> {
    for k in 0..100 {
        let refusing = Refusing::new(alloc, k);
        let answer = plan(&refusing, bytes, 12, 0x1005);
        if !refusing.has_refused() {
            return Ok(k);
        }
        assert!(rt; matches!(answer, Err(Error::Memory(_))), "request {k}");
    }
    Err(Fail::new("there is no end of requests"))
}

/// A chain that ends asks for memory once, however long it is, and any other never does.
#[test]
fn asks_for_memory_once(rt: HostRuntime) -> std::result::Result<(), Fail> {
    let alloc = rt.alloc();
    for chained in [1, 2, 100] {
        let bytes = chain(alloc, chained, offset_of(chained))?;
        assert_eq!(rt; requests(&rt, alloc, &bytes)?, 1);
        for last in [0x0C, 5, 0xFFFF] {
            let bytes = chain(alloc, chained, last)?;
            assert_eq!(rt; requests(&rt, alloc, &bytes)?, 0, "to {last:#x}");
        }
    }
    Ok(())
}

/// The short plan of the first function of a table of one entry.
fn short_plan(bytes: &[u8]) -> Result<Option<ShortPlan<'_>>> {
    let directory = directory_at(0, 12);
    let exceptions = ExceptionData::parse_with_opts(bytes, directory, &[], 0x200, &flat())?;
    let map = exceptions.section_map(&[], &flat());
    let function = exceptions.get_function(0)?;
    ShortPlan::of_function(&exceptions, function, &map)
}

/// A short plan has the records of the plan, from the function's own to the root, if there are at most 32.
#[test]
fn short_plans_have_at_most_32_records(rt: HostRuntime) -> std::result::Result<(), Fail> {
    let alloc = rt.alloc();
    for chained in [0u32, 1, 2, 30, 31, 32, 33, 100] {
        let bytes = chain(alloc, chained, offset_of(chained))?;
        let Some(short) = short_plan(&bytes)? else {
            assert!(rt; chained >= 32, "of {chained}");
            continue;
        };
        assert!(rt; chained < 32, "of {chained}");
        let records = short.records();
        assert_eq!(rt; records.len(), chained as usize + 1);
        for (k, record) in (1..).zip(records) {
            let next = record.chained_info.map(|it| it.unwind_info_address);
            let wanted = if k <= chained {
                Some(offset_of(k))
            } else {
                None
            };
            assert_eq!(rt; next, wanted, "of {k} of {chained}");
        }
    }
    Ok(())
}

/// A loop has no short plan, and what cannot be read among the first 32 records is an error.
#[test]
fn short_plans_that_are_none(rt: HostRuntime) -> std::result::Result<(), Fail> {
    let alloc = rt.alloc();
    for (chained, last) in [
        (1, offset_of(0)),
        (2, offset_of(0)),
        (3, offset_of(2)),
        (32, 0x1000),
    ] {
        assert!(rt; short_plan(&chain(alloc, chained, last)?)?.is_none());
    }
    for chained in [1, 2, 31] {
        let bytes = chain(alloc, chained, 0x1000)?;
        let error = short_plan(&bytes).err().ok_or("no error")?;
        assert!(rt; matches!(error, Error::Short { .. }), "of {chained}");
    }
    Ok(())
}

/// The plan of the first function of a table of one entry, read into room for so many records: the unwind addresses to which its
/// records are chained, 0 for none.
fn plan_in_room(
    alloc: Global,
    bytes: &[u8],
    size: usize,
) -> std::result::Result<Result<Option<Vec<u32>>>, Fail> {
    let directory = directory_at(0, 12);
    let exceptions = ExceptionData::parse_with_opts(bytes, directory, &[], 0x200, &flat())?;
    let map = exceptions.section_map(&[], &flat());
    let function = exceptions.get_function(0)?;
    let mut room = Vec::new(alloc);
    for _ in 0..size {
        room.push(UnwindInfo::parse(&[1, 0, 0, 0], 0)?)?;
    }
    let count = match read_plan(&exceptions, function, &map, &mut room) {
        Ok(Some(count)) => count,
        Ok(None) => return Ok(Ok(None)),
        Err(error) => return Ok(Err(error)),
    };
    let mut found = Vec::new(alloc);
    for record in &room[..count] {
        found.push(record.chained_info.map_or(0, |it| it.unwind_info_address))?;
    }
    Ok(Ok(Some(found)))
}

/// A plan is read into room that is large enough. In less it is none, unless a record before that cannot be read.
#[test]
fn plans_are_read_into_room(rt: HostRuntime) -> std::result::Result<(), Fail> {
    let alloc = rt.alloc();
    let two = chain(alloc, 2, offset_of(2))?;
    for size in [0, 1, 2] {
        assert!(rt; plan_in_room(alloc, &two, size)??.is_none(), "in {size}");
    }
    for size in [3, 4, 40] {
        let found = plan_in_room(alloc, &two, size)??.ok_or("no plan")?;
        assert_eq!(rt; found[..], [28, 44, 0][..], "in {size}");
    }
    let unreadable = chain(alloc, 2, 0x1000)?;
    for size in [0, 1, 2] {
        assert!(rt;
            plan_in_room(alloc, &unreadable, size)??.is_none(),
            "in {size}"
        );
    }
    for size in [3, 40] {
        let error = plan_in_room(alloc, &unreadable, size)?
            .err()
            .ok_or("no error")?;
        assert!(rt; matches!(error, Error::Short { .. }), "in {size}");
    }
    Ok(())
}
