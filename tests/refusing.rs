//! An allocator that refuses one request, and adds up the sizes of all.

use std::alloc::{AllocError, Allocator};
use std::cell::Cell;

/// An allocator that refuses one request, and grants those before it and after it.
#[derive(Drop)]
pub(crate) struct Refusing<A: Allocator> {
    alloc: A,
    refused: u32,
    asked: Cell<u32>,
    bytes: Cell<usize>,
}

impl<A: Allocator> Refusing<A> {
    /// Refuses this request, counted from 0.
    pub(crate) fn new(alloc: A, refused: u32) -> Refusing<A> {
        Refusing {
            alloc,
            refused,
            asked: Cell::new(0),
            bytes: Cell::new(0),
        }
    }

    /// Whether the request that is to be refused has come.
    pub(crate) fn has_refused(&self) -> bool {
        self.asked.get() > self.refused
    }

    /// How many bytes all requests so far asked for, whether or not they were given back.
    pub(crate) fn bytes_asked(&self) -> usize {
        self.bytes.get()
    }
}

unsafe impl<A: Allocator> Allocator for Refusing<A> {
    ghost dealloc_token = { λ refusing. A.dealloc_token refusing.alloc };

    fn allocate(&self, size: usize, align: usize) -> std::result::Result<*mut u8, AllocError> {
        let asked = self.asked.get();
        self.asked.set(asked.wrapping_add(1));
        self.bytes.set(self.bytes.get().saturating_add(size));
        if asked == self.refused {
            return Err(AllocError);
        }
        self.alloc.allocate(size, align)
    }

    unsafe fn deallocate(&self, ptr: *mut u8, size: usize, align: usize) {
        unsafe { self.alloc.deallocate(ptr, size, align) }
    }
}
