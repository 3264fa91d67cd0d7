//! The heap of the original, which reserves as much memory as a count in the bytes says: up to 400
//! gigabytes. Address space is enough for it, since it uses no more than there are bytes.

use std::alloc::{GlobalAlloc, Layout, System};

const LARGE: usize = 1 << 26;
const PROT_READ_WRITE: i32 = 3;
const MAP_PRIVATE_ANONYMOUS_NORESERVE: i32 = 0x4022;

unsafe extern "C" {
    fn mmap(
        at: *mut u8,
        length: usize,
        protection: i32,
        flags: i32,
        file: i32,
        offset: i64,
    ) -> *mut u8;
    fn munmap(at: *mut u8, length: usize) -> i32;
}

pub struct Heap;

// Small blocks are the system's, large ones are mapped: each is given back as it was taken.
unsafe impl GlobalAlloc for Heap {
    unsafe fn alloc(&self, layout: Layout) -> *mut u8 {
        if layout.size() < LARGE {
            return unsafe { System.alloc(layout) };
        }
        let flags = MAP_PRIVATE_ANONYMOUS_NORESERVE;
        let block = unsafe {
            mmap(
                std::ptr::null_mut(),
                layout.size(),
                PROT_READ_WRITE,
                flags,
                -1,
                0,
            )
        };
        if block as isize == -1 {
            std::ptr::null_mut()
        } else {
            block
        }
    }

    unsafe fn dealloc(&self, block: *mut u8, layout: Layout) {
        if layout.size() < LARGE {
            unsafe { System.dealloc(block, layout) }
        } else {
            unsafe { munmap(block, layout.size()) };
        }
    }
}
