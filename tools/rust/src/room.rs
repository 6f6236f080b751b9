// An allocator for counts that an input only claims: what is large is mapped without reserve, so that a vector of 2^31 pairs
// that stays empty takes no memory and the Rust crate reads on.
use std::alloc::{GlobalAlloc, Layout, System};

const LARGE: usize = 1 << 26;
const READ_WRITE: i32 = 3;
const PRIVATE_ANONYMOUS_NORESERVE: i32 = 0x4022;

extern "C" {
    fn mmap(at: *mut u8, size: usize, protection: i32, flags: i32, file: i32, offset: i64) -> *mut u8;
    fn munmap(at: *mut u8, size: usize) -> i32;
}

/// The system's allocator, except for large requests.
pub struct Room;

unsafe fn map(size: usize) -> *mut u8 {
    let at = mmap(std::ptr::null_mut(), size, READ_WRITE, PRIVATE_ANONYMOUS_NORESERVE, -1, 0);
    if at as isize == -1 {
        std::ptr::null_mut()
    } else {
        at
    }
}

unsafe impl GlobalAlloc for Room {
    unsafe fn alloc(&self, layout: Layout) -> *mut u8 {
        if layout.size() < LARGE {
            System.alloc(layout)
        } else {
            map(layout.size())
        }
    }

    // Mapped memory is zero.
    unsafe fn alloc_zeroed(&self, layout: Layout) -> *mut u8 {
        if layout.size() < LARGE {
            System.alloc_zeroed(layout)
        } else {
            map(layout.size())
        }
    }

    unsafe fn dealloc(&self, at: *mut u8, layout: Layout) {
        if layout.size() < LARGE {
            System.dealloc(at, layout)
        } else {
            munmap(at, layout.size());
        }
    }
}
