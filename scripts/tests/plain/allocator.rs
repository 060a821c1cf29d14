//! The system's allocator; where it refuses memory, the program ends with a fault.

use crate::faults::OUT_OF_MEMORY;
use std::alloc::{GlobalAlloc, Layout, System};

pub struct OrEnds;

// each is the system's own, and no null pointer is handed on
unsafe impl GlobalAlloc for OrEnds {
    unsafe fn alloc(&self, layout: Layout) -> *mut u8 {
        or_end(System.alloc(layout))
    }

    unsafe fn alloc_zeroed(&self, layout: Layout) -> *mut u8 {
        or_end(System.alloc_zeroed(layout))
    }

    unsafe fn realloc(&self, block: *mut u8, layout: Layout, size: usize) -> *mut u8 {
        or_end(System.realloc(block, layout, size))
    }

    unsafe fn dealloc(&self, block: *mut u8, layout: Layout) {
        System.dealloc(block, layout)
    }
}

#[inline(always)]
fn or_end(block: *mut u8) -> *mut u8 {
    if block.is_null() {
        end();
    }
    block
}

#[cold]
fn end() -> ! {
    eprintln!("{OUT_OF_MEMORY}");
    std::process::exit(OUT_OF_MEMORY.status().into())
}
