//! The memory of the program: the same requests fail on every machine.

use std::alloc::{GlobalAlloc, Layout, System};
use std::ffi::{c_int, c_void};

/// The largest single request that is granted. A recording has fewer than
/// 2^32 bytes, so a body that needs more can't be in one.
const MOST: usize = 1 << 32;

/// From this size on pages are mapped without reserving them, so that a large
/// body of which little is there is granted on a small machine too.
const LARGE: usize = 1 << 24;

const READ_AND_WRITE: c_int = 0x1 | 0x2;
const PRIVATE_UNNAMED_UNRESERVED: c_int = 0x2 | 0x20 | 0x4000;

extern "C" {
    fn mmap(
        address: *mut c_void,
        length: usize,
        protection: c_int,
        flags: c_int,
        file: c_int,
        offset: i64,
    ) -> *mut c_void;
    fn munmap(address: *mut c_void, length: usize) -> c_int;
}

/// The system's allocator, with a bound on one request.
pub struct Bounded;

/// New pages, all zero, or null.
unsafe fn pages(size: usize) -> *mut u8 {
    let start = mmap(
        std::ptr::null_mut(),
        size,
        READ_AND_WRITE,
        PRIVATE_UNNAMED_UNRESERVED,
        -1,
        0,
    );
    if start as isize == -1 {
        std::ptr::null_mut()
    } else {
        start.cast()
    }
}

// Moving a block is left to the trait: new block, copy, old block given back.
unsafe impl GlobalAlloc for Bounded {
    unsafe fn alloc(&self, layout: Layout) -> *mut u8 {
        match layout.size() {
            size if size > MOST => std::ptr::null_mut(),
            size if size >= LARGE => pages(size),
            _ => System.alloc(layout),
        }
    }

    unsafe fn alloc_zeroed(&self, layout: Layout) -> *mut u8 {
        match layout.size() {
            size if size > MOST => std::ptr::null_mut(),
            size if size >= LARGE => pages(size),
            _ => System.alloc_zeroed(layout),
        }
    }

    unsafe fn dealloc(&self, block: *mut u8, layout: Layout) {
        if layout.size() >= LARGE {
            munmap(block.cast(), layout.size());
        } else {
            System.dealloc(block, layout);
        }
    }

    unsafe fn realloc(&self, block: *mut u8, layout: Layout, size: usize) -> *mut u8 {
        if layout.size() < LARGE && size < LARGE {
            return System.realloc(block, layout, size);
        }
        let new = self.alloc(Layout::from_size_align_unchecked(size, layout.align()));
        if !new.is_null() {
            std::ptr::copy_nonoverlapping(block, new, layout.size().min(size));
            self.dealloc(block, layout);
        }
        new
    }
}
