//! Memory that is refused is an error of its own, also where what would be read next is damaged.

use goblin::error::Error;
use goblin::pe::data_directories::DataDirectory;
use goblin::pe::import::ImportData;
use goblin::pe::options::ParseOptions;
use scroll::Pwrite;
use std::alloc::{GlobalAlloc, Layout, System};
use std::cell::Cell;

/// The system's allocator, which refuses a thread as many bytes at once as this says, and more.
struct Refusing;

thread_local! {
    static REFUSED: Cell<usize> = const { Cell::new(usize::MAX) };
}

// SAFETY: each method is the system's, or returns null, which an allocator may.
unsafe impl GlobalAlloc for Refusing {
    unsafe fn alloc(&self, layout: Layout) -> *mut u8 {
        if layout.size() >= REFUSED.get() {
            return std::ptr::null_mut();
        }
        // SAFETY: the caller passes what it passes here.
        unsafe { System.alloc(layout) }
    }

    unsafe fn dealloc(&self, bytes: *mut u8, layout: Layout) {
        // SAFETY: as above.
        unsafe { System.dealloc(bytes, layout) }
    }
}

#[global_allocator]
static ALLOCATOR: Refusing = Refusing;

/// A file with an import directory at its start, of 16 DLLs whose names are ends of one text, which together have more letters than the
/// file, and one whose name is at an RVA past its end.
fn with_a_library_without_a_name() -> Vec<u8> {
    let (libraries, text, length) = (17, 20 * 18, 1_000);
    let mut bytes = vec![0; text + 8 + length + 1];
    bytes[text + 8..text + 8 + length].fill(b'a');
    for index in 0..libraries {
        let name = if index + 1 == libraries { 0x10_0000 } else { text + 8 + index };
        for (field, number) in [(0, text), (12, name), (16, text)] {
            bytes.pwrite_with(number as u32, 20 * index + field, scroll::LE).unwrap();
        }
    }
    bytes
}

#[test]
fn out_of_memory_before_a_damaged_library_is_out_of_memory() {
    let bytes = with_a_library_without_a_name();
    let directory = DataDirectory { virtual_address: 0, size: 20 };
    let opts = ParseOptions { resolve_rva: false, ..Default::default() };
    let parsed = |refused| {
        REFUSED.set(refused);
        let error = ImportData::parse_with_opts::<u64>(&bytes, directory, &[], 0, &opts);
        REFUSED.set(usize::MAX);
        error.expect_err("the last library has no name")
    };
    let text = "Malformed entity: import name at RVA 0x100000 is not NUL-terminated or not UTF-8";
    assert_eq!(parsed(usize::MAX).to_string(), text);
    let error = parsed(2_048);
    assert!(matches!(&error, Error::IO(it) if it.kind() == std::io::ErrorKind::OutOfMemory), "{error:?}");
}
