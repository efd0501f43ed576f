//! Allocations that are refused, each in its turn: names are then read each by itself, or the error is `MEMORY`.

mod made;

use pe_c::{Coff, Error};
use std::alloc::{GlobalAlloc, Layout, System};
use std::cell::Cell;

/// The system's allocator, which refuses those allocations of a thread that this asks for.
struct Refusing;

thread_local! {
    /// How many allocations are granted before the first that is refused, and how many are refused then.
    static REFUSED: Cell<(usize, usize)> = const { Cell::new((usize::MAX, 0)) };
}

fn is_refused() -> bool {
    REFUSED.with(|it| match it.get() {
        (0, 0) => false,
        (0, refused) => {
            it.set((0, refused - 1));
            true
        }
        (granted, refused) => {
            it.set((granted.saturating_sub(1), refused));
            false
        }
    })
}

// SAFETY: each method is the system's, or returns null, which an allocator may.
unsafe impl GlobalAlloc for Refusing {
    unsafe fn alloc(&self, layout: Layout) -> *mut u8 {
        if is_refused() {
            return std::ptr::null_mut();
        }
        // SAFETY: the caller passes what it passes here.
        unsafe { System.alloc(layout) }
    }

    unsafe fn dealloc(&self, bytes: *mut u8, layout: Layout) {
        // SAFETY: as above.
        unsafe { System.dealloc(bytes, layout) }
    }
}

#[global_allocator]
static ALLOCATOR: Refusing = Refusing;

/// Reads while so many allocations are refused after so many others.
fn refusing<T>(granted: usize, refused: usize, read: impl FnOnce() -> T) -> T {
    REFUSED.set((granted, refused));
    let found = read();
    REFUSED.set((usize::MAX, 0));
    found
}

#[test]
fn objects_are_read_as_far_as_there_is_memory() {
    let bytes = made::object_with_names_in_one_text(300, 300, 400);
    let error = refusing(0, 1, || Coff::parse(&bytes).map(|_| ()));
    assert_eq!(error, Err(Error::MEMORY));
    let object = Coff::parse(&bytes).unwrap();
    let symbols = object.symbols().unwrap().unwrap();
    for granted in 0..3 {
        let error = refusing(granted, 1, || symbols.clone().named().map(|_| ()));
        assert_eq!(error, Err(Error::MEMORY), "after {granted}");
        let error = refusing(granted, 1, || object.long_section_names().map(|_| ()));
        assert_eq!(error, Err(Error::MEMORY), "after {granted}");
    }
    assert!(refusing(3, 1, || symbols.clone().named()).is_ok());
    assert!(refusing(3, 1, || object.long_section_names()).is_ok());
    let text = "a".repeat(400);
    for (granted, refused) in [(0, 1), (1, 1), (0, 2), (2, 1), (0, 7), (0, usize::MAX)] {
        let is_so = refusing(granted, refused, || {
            let wanted = (0..300).map(|i| Ok(&text[i..]));
            symbols.clone().map(|it| it.unwrap().name()).eq(wanted)
        });
        assert!(is_so, "after {granted}, {refused} refused");
    }
}
