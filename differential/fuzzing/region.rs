//! Memory with a page on each side that nothing may touch: a read or a write there stops the
//! program. Regions are used again, since making one takes the system's time.

use std::cell::RefCell;
use std::ffi::c_void;
use std::ptr;

unsafe extern "C" {
    fn mmap(
        at: *mut c_void,
        length: usize,
        access: i32,
        flags: i32,
        file: i32,
        from: i64,
    ) -> *mut c_void;
    fn mprotect(at: *mut c_void, length: usize, access: i32) -> i32;
}

const PAGE: usize = 4096;
/// How many bytes a region has.
pub const ROOM: usize = 16 * PAGE;

// Linux, x86-64.
const NO_ACCESS: i32 = 0;
const READ_AND_WRITE: i32 = 3;
const PRIVATE_AND_ANONYMOUS: i32 = 0x22;

pub struct Region(*mut u8);

thread_local! {
    static FREE: RefCell<Vec<Region>> = const { RefCell::new(Vec::new()) };
}

impl Region {
    pub fn lend() -> Self {
        let free = FREE.with_borrow_mut(Vec::pop);
        free.unwrap_or_else(Self::map)
    }

    pub fn hand_back(&self) {
        FREE.with_borrow_mut(|free| free.push(Region(self.0)));
    }

    pub fn start(&self) -> *mut u8 {
        self.0
    }

    fn map() -> Self {
        let length = ROOM + 2 * PAGE;
        // New memory that no one else has; the pages at its two ends stay closed.
        unsafe {
            let flags = PRIVATE_AND_ANONYMOUS;
            let whole = mmap(ptr::null_mut(), length, NO_ACCESS, flags, -1, 0);
            assert!(whole as isize != -1, "no memory for a buffer");
            let start = whole.cast::<u8>().add(PAGE);
            let opened = mprotect(start.cast(), ROOM, READ_AND_WRITE);
            assert!(opened == 0, "no memory for a buffer");
            Region(start)
        }
    }
}
