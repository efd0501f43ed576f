//! How often a call reads a table from its start to its end. The table lies in two halves, of which one can be read at a time: a read of
//! the other ends in a signal, and its handler swaps them. So the count is the same on any machine, however busy.

use crate::made::*;
use pe_c::{Image, Mode};
use std::ffi::c_void;
use std::sync::atomic::{AtomicUsize, Ordering::Relaxed};

extern "C" {
    fn mmap(at: *mut c_void, length: usize, may: i32, how: i32, file: i32, from: i64) -> *mut c_void;
    fn mprotect(at: *mut c_void, length: usize, may: i32) -> i32;
    fn signal(number: i32, handler: usize) -> usize;
}

const READ_AND_WRITE: i32 = 3;
const PRIVATE_AND_ANONYMOUS: i32 = 0x22;
const SEGMENTATION_FAULT: i32 = 11;

/// The bytes of a half, which are whole pages.
const HALF: usize = 1 << 16;

/// Where the first half starts, which the second follows; and how often they were swapped.
static START: AtomicUsize = AtomicUsize::new(0);
static SWAPS: AtomicUsize = AtomicUsize::new(0);

extern "C" fn swap(_: i32) {
    let swaps = SWAPS.fetch_add(1, Relaxed);
    for half in 0..2 {
        let may = if swaps % 2 == half { READ_AND_WRITE } else { 0 };
        // SAFETY: the memory of `halved`. A fault elsewhere comes again, and ends the program.
        let failed = unsafe { mprotect((START.load(Relaxed) + half * HALF) as *mut c_void, HALF, may) } != 0;
        if failed || swaps > 100 {
            std::process::abort();
        }
    }
}

/// A copy of the bytes, those from `start` on at the start of the first half.
fn halved(bytes: &[u8], start: usize) -> &'static [u8] {
    assert!(start <= HALF && bytes.len() - start <= 3 * HALF);
    // SAFETY: fresh memory of the process, which is lent once.
    unsafe {
        let room = mmap(std::ptr::null_mut(), 4 * HALF, READ_AND_WRITE, PRIVATE_AND_ANONYMOUS, -1, 0);
        assert!(room as isize != -1);
        let first = room.cast::<u8>().add(HALF);
        START.store(first as usize, Relaxed);
        let lent = std::slice::from_raw_parts_mut(first.sub(start), bytes.len());
        lent.copy_from_slice(bytes);
        lent
    }
}

/// How often the table is read.
fn passes(read: impl FnOnce()) -> usize {
    SWAPS.store(0, Relaxed);
    // SAFETY: the second half becomes readable, which is not where a pass starts; the handler that was there is put back.
    unsafe {
        let before = signal(SEGMENTATION_FAULT, swap as *const () as usize);
        mprotect(START.load(Relaxed) as *mut c_void, HALF, 0);
        read();
        signal(SEGMENTATION_FAULT, before);
    }
    assert_eq!(SWAPS.load(Relaxed) % 2, 0);
    SWAPS.load(Relaxed) / 2
}

/// The table of debug data is read in three passes for all records; one for each record would be eight.
#[test]
fn debug_records_are_read_in_few_passes() {
    // In each half as many whole entries as it has room for: between the two in the middle the second half starts.
    const ENTRIES: usize = HALF / 28;
    let mut made = Made::new(X64);
    made.size_of_image = 0x100_0000;
    let table = made.put(&[0; 28 * 2 * ENTRIES]);
    made.directory(6, table, 28 * 2 * ENTRIES as u32);
    let bytes = halved(&made.image(), offset(table) as usize + 28 * ENTRIES - HALF);
    let image = Image::parse(bytes, Mode::Strict).unwrap();
    assert_eq!(passes(|| assert_eq!(image.debug_entry(2), Ok(None))), 1);
    assert_eq!(passes(|| assert!(matches!(image.debug_records().pogo, Ok(None)))), 3);
}
