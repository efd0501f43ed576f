//! The walk through a resource tree: rings and chains, and generated trees against a plain program with a set of keys.

use crate::images::{image, short, short_in};
use linked_list_allocator::LocalHeap;
use pe_core::{Error, Reason, Result};
use pe_resource::{ImageResourceDirectory, ResourceEntry};
use std::alloc::{AllocError, Global};
use std::cell::Cell;
use std::test::Fail;

/// The walk from an entry, from a heap that returns nothing; it has an entry as its answer, if it has one.
fn walk<P: Fn(&ResourceEntry) -> bool>(
    rt: HostRuntime,
    start: ResourceEntry,
    bytes: &[u8],
    predicate: P,
) -> Result<ResourceEntry>
    requires { P.IsAlwaysCallable predicate }
{
    let heap = LocalHeap::new(rt.alloc(), 0)?;
    match start.recursive_next_depth(&heap, bytes, predicate)? {
        Some(entry) => Ok(entry),
        None => Err(Error::BadMagic(0)),
    }
}

fn is_cycle(answer: &Result<ResourceEntry>) -> bool {
    matches!(answer, Err(Error::Malformed(Reason::ResourceCycle(_))))
}

/// No entries are one read of no bytes: past the end it is refused.
#[test]
fn no_entries_at_the_end(rt: HostRuntime) -> std::result::Result<(), Fail> {
    let directory = ImageResourceDirectory::default();
    assert!(rt; directory.next_iter(8, &[0; 8])?.next().is_none());
    let past = directory.next_iter(9, &[0; 8]);
    assert!(rt; matches!(past, Err(Error::Short { at: 9, needed: 0 })));
    Ok(())
}

#[test]
fn two_keys_of_one_offset(rt: HostRuntime) -> std::result::Result<(), Fail> {
    let directory = [
        0, 0, 0, 0, 0, 0, 0, 0, 0, 0, 0, 0, 0, 0, 1, 0, 0x10, 0, 0, 0, 0, 0, 0, 0x80,
    ];
    let start = ResourceEntry::from(0x10_8000_0000);
    let endless = walk(rt, start, &directory, |entry| entry.data_is_directory());
    assert!(rt; matches!(endless, Err(Error::Malformed(Reason::ResourceCycle(0)))));
    let at_once = walk(rt, start, &directory, |_| false)?;
    assert_eq!(rt; at_once, start);
    let mut other = directory;
    other[23] = 0;
    let start = ResourceEntry::from(0x10_0000_0000);
    assert!(rt; is_cycle(&walk(rt, start, &other, |_| true)));
    let entry = walk(rt, start, &other, |entry| entry.data_is_directory())?;
    assert_eq!(rt; entry, start);
    Ok(())
}

/// Three directories, the last two of which lead to each other.
fn ring_without_the_start(alloc: Global) -> std::result::Result<Vec<u8>, AllocError> {
    image(
        alloc,
        0x48,
        &[
            (0x0E, &[1]),
            (0x10, &[1, 0, 0, 0, 0x18, 0, 0, 0x80]),
            (0x26, &[1]),
            (0x28, &[2, 0, 0, 0, 0x30, 0, 0, 0x80]),
            (0x3E, &[1]),
            (0x40, &[3, 0, 0, 0, 0x18, 0, 0, 0x80]),
        ],
    )
}

#[test]
fn rings(rt: HostRuntime) -> std::result::Result<(), Fail> {
    let mut bytes = ring_without_the_start(rt.alloc())?;
    let start = ResourceEntry::from(0x8000_0000);
    assert!(rt; is_cycle(&walk(rt, start, &bytes, |entry| entry.data_is_directory())));
    let failing = walk(rt, start, &bytes, |entry| entry.id() != Some(3))?;
    assert_eq!(rt; failing, ResourceEntry::from(0x3_8000_0018));
    if let Some(slot) = bytes.get_mut(0x3E) {
        *slot = 0;
    }
    let last = walk(rt, start, &bytes, |entry| entry.data_is_directory())?;
    assert_eq!(rt; last, ResourceEntry::from(0x2_8000_0030));
    let front = bytes.get(..0x30).ok_or("fewer bytes")?;
    let cut = walk(rt, start, front, |entry| entry.data_is_directory());
    assert_eq!(rt; short_in(cut), short(0x30, 16));
    Ok(())
}

/// Directories of one entry each, one after the other; each leads to the directory with the index that is given for it,
/// if there is one, and else it has no entries.
fn tree(alloc: Global, next: &[Option<u32>]) -> std::result::Result<Vec<u8>, AllocError> {
    let mut bytes = Vec::new(alloc);
    for (i, target) in next.iter().enumerate() {
        let count = if target.is_some() { 1 } else { 0 };
        bytes.extend_from_slice(&[0, 0, 0, 0, 0, 0, 0, 0, 0, 0, 0, 0, 0, 0, count, 0])?;
        let id = (i % 4) as u8;
        bytes.extend_from_slice(&[id, 0, 0, 0])?;
        let offset = target.unwrap_or(0);
        bytes.extend_from_slice(&u32::to_le_bytes(offset))?;
    }
    Ok(bytes)
}

/// So many directories, each of which leads to the next, and the last to that with an index.
fn ring_after_a_tail(
    alloc: Global,
    count: u32,
    first: u32,
) -> std::result::Result<Vec<u8>, AllocError> {
    let mut next = Vec::new(alloc);
    for i in 1..count {
        next.push(Some(0x8000_0000 + 24 * i))?;
    }
    next.push(Some(0x8000_0000 + 24 * first))?;
    tree(alloc, &next)
}

/// The directory that the walk came to again is reported, at 24 bytes a directory: that where it stood after 1, 2, 4, 16 or 512
/// steps, the first of these from which on the whole ring is met before the next.
#[test]
fn reports_a_directory_of_the_ring(rt: HostRuntime) -> std::result::Result<(), Fail> {
    let start = ResourceEntry::from(0x8000_0000);
    for (count, first, index) in [
        (2, 1, 1),
        (3, 1, 2),
        (4, 2, 2),
        (5, 1, 4),
        (20, 7, 7 + (16 - 7) % 13),
        (500, 300, 300 + (512 - 300) % 200),
    ] {
        let bytes = ring_after_a_tail(rt.alloc(), count, first)?;
        let endless = walk(rt, start, &bytes, |entry| entry.data_is_directory());
        // shows: pe_resource/src/entry.rt walk ResourceCycle
        assert!(rt;
            matches!(endless, Err(Error::Malformed(Reason::ResourceCycle(offset))) if offset == 24 * index),
            "{count} directories, back to {first}"
        );
    }
    Ok(())
}

/// How often the predicate is asked on a ring after a tail: once a step, up to the first 1, 2, 4, 8 .. steps that are as
/// many as the tail has directories and as the ring has, and once more for each directory of the ring. A saved offset that
/// never moved on would be asked for as many steps as there are bytes.
#[test]
fn asks_once_a_step(rt: HostRuntime) -> std::result::Result<(), Fail> {
    let start = ResourceEntry::from(0x8000_0000);
    for (count, first, asked) in [
        (2, 1, 1 + 1),
        (3, 1, 2 + 2),
        (20, 7, 16 + 13),
        (20, 17, 32 + 3),
        (500, 300, 512 + 200),
        (500, 100, 512 + 400),
        (700, 690, 1024 + 10),
    ] {
        let bytes = ring_after_a_tail(rt.alloc(), count, first)?;
        let calls = Cell::new(0u32);
        let endless = walk(rt, start, &bytes, |entry| {
            calls.set(calls.get().wrapping_add(1));
            entry.data_is_directory()
        });
        assert!(rt; is_cycle(&endless));
        assert_eq!(rt; calls.get(), asked, "{count} directories, back to {first}");
    }
    Ok(())
}

#[test]
fn long_chains(rt: HostRuntime) -> std::result::Result<(), Fail> {
    let mut next = Vec::new(rt.alloc());
    for i in 1..1000u32 {
        next.push(Some(0x8000_0000u32.wrapping_add(i.wrapping_mul(24))))?;
    }
    next.push(None)?;
    let start = ResourceEntry::from(0x8000_0000);
    let bytes = tree(rt.alloc(), &next)?;
    let last = walk(rt, start, &bytes, |entry| entry.data_is_directory())?;
    assert_eq!(rt; last.offset_to_directory(), 999 * 24);
    for target in [0u32, 1, 500, 999] {
        if let Some(slot) = next.last_mut() {
            *slot = Some(0x8000_0000u32.wrapping_add(target.wrapping_mul(24)));
        }
        let bytes = tree(rt.alloc(), &next)?;
        assert!(rt;
            is_cycle(&walk(rt, start, &bytes, |entry| entry.data_is_directory())),
            "to {target}"
        );
    }
    Ok(())
}
