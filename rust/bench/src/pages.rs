//! The kernel's own protection of a page: `mprotect`, called as the C library has it.
#![allow(unsafe_code)]

use std::ffi::{c_int, c_void};

const PAGE: usize = 4096;
const PAGES: usize = 64;
const READ: c_int = 1;
const WRITE: c_int = 2;
const PRIVATE_ANONYMOUS: c_int = 0x22;

extern "C" {
    fn mmap(address: *mut c_void, length: usize, rights: c_int, flags: c_int, file: c_int, offset: i64) -> *mut c_void;
    fn mprotect(address: *mut c_void, length: usize, rights: c_int) -> c_int;
}

/// Memory of 64 pages, all touched, which is never given back.
pub struct Pages(*mut u8);

impl Pages {
    pub fn new() -> Pages {
        // SAFETY: a new mapping at an address of the kernel's choice.
        let start = unsafe { mmap(std::ptr::null_mut(), PAGES * PAGE, READ | WRITE, PRIVATE_ANONYMOUS, -1, 0) };
        assert_ne!(start as isize, -1, "no memory");
        let start: *mut u8 = start.cast();
        for page in 0..PAGES {
            // SAFETY: inside the mapping, which can be written.
            unsafe { start.add(page * PAGE).write(1) };
        }
        Pages(start)
    }

    /// Gives a page in the middle no right, or reading alone; its neighbours can be written.
    pub fn protect(&mut self, readable: bool) {
        let rights = if readable { READ } else { 0 };
        // SAFETY: inside the mapping, to which no reference is held.
        let failed = unsafe { mprotect(self.0.add(PAGES / 2 * PAGE).cast(), PAGE, rights) };
        assert_eq!(failed, 0);
    }
}
