//! The system's allocator with a count of the bytes in use. All of the program's `unsafe` is here.

use std::alloc::{GlobalAlloc, Layout, System};
use std::sync::atomic::{AtomicUsize, Ordering};

static BYTES: AtomicUsize = AtomicUsize::new(0);

/// The bytes that are lent by the allocator and not given back, with what it takes for itself.
pub fn bytes() -> usize {
    BYTES.load(Ordering::Relaxed)
}

/// The usual allocators lend multiples of 16 bytes and take 8 of them for each.
fn taken(size: usize) -> usize {
    (size + 8).next_multiple_of(16).max(32)
}

struct Counted;

#[global_allocator]
static ALLOCATOR: Counted = Counted;

// SAFETY: each call is the system allocator's own, with what it is given; the count is beside it.
unsafe impl GlobalAlloc for Counted {
    unsafe fn alloc(&self, layout: Layout) -> *mut u8 {
        BYTES.fetch_add(taken(layout.size()), Ordering::Relaxed);
        System.alloc(layout)
    }

    unsafe fn dealloc(&self, at: *mut u8, layout: Layout) {
        BYTES.fetch_sub(taken(layout.size()), Ordering::Relaxed);
        System.dealloc(at, layout);
    }

    unsafe fn realloc(&self, at: *mut u8, layout: Layout, size: usize) -> *mut u8 {
        BYTES.fetch_add(taken(size), Ordering::Relaxed);
        BYTES.fetch_sub(taken(layout.size()), Ordering::Relaxed);
        System.realloc(at, layout, size)
    }
}
