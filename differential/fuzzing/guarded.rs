//! Buffers lent to the library, with guards before and after them, and a copy of what they held.
//! A guard is 64 bytes that must stay, or a page that nothing may touch.

use std::cell::Cell;
use std::slice;

use crate::region::{ROOM, Region};

const GUARD_BYTES: usize = 64;
const GUARD: u8 = 0xC9;

/// What a buffer is made of: bytes or floats, told apart by their bits.
pub trait Element: Copy {
    fn bits(self) -> u32;
}

impl Element for u8 {
    fn bits(self) -> u32 {
        u32::from(self)
    }
}

impl Element for f32 {
    fn bits(self) -> u32 {
        self.to_bits()
    }
}

pub struct Guarded<T> {
    region: Region,
    /// Where the content starts and ends in the region, in bytes.
    from: usize,
    to: usize,
    found: Vec<T>,
}

thread_local! {
    static TURN: Cell<usize> = const { Cell::new(0) };
}

/// Where `length` bytes lie in a region, in turn: at its start, at its end, or between guards.
fn place(length: usize) -> usize {
    let turn = TURN.replace(TURN.get() + 1);
    match turn % 3 {
        0 => 0,
        1 => ROOM - length,
        _ => GUARD_BYTES + 4 * (turn % 7),
    }
}

impl<T: Element> Guarded<T> {
    pub fn of(content: &[T]) -> Self {
        let length = size_of_val(content);
        assert!(length + 4 * GUARD_BYTES <= ROOM, "no room for a buffer");
        let from = place(length);
        let mut made = Guarded {
            region: Region::lend(),
            from,
            to: from + length,
            found: content.to_vec(),
        };
        for (start, end) in made.guards() {
            made.bytes(start, end).fill(GUARD);
        }
        made.lent().copy_from_slice(content);
        made
    }

    /// The bytes of the guards, before and after; none where a closed page is.
    fn guards(&self) -> [(usize, usize); 2] {
        let before = self.from.saturating_sub(GUARD_BYTES);
        let after = ROOM.min(self.to + GUARD_BYTES);
        [(before, self.from), (self.to, after)]
    }

    fn bytes(&mut self, start: usize, end: usize) -> &mut [u8] {
        // Inside the region, which is this buffer's alone.
        unsafe { slice::from_raw_parts_mut(self.region.start().add(start), end - start) }
    }

    /// What it held before.
    pub fn found(&self) -> &[T] {
        &self.found
    }

    pub fn content(&self) -> &[T] {
        // As above; the place is a multiple of 4 for floats, and the region starts with a page.
        let start = unsafe { self.region.start().add(self.from) };
        unsafe { slice::from_raw_parts(start.cast(), self.found.len()) }
    }

    pub fn lent(&mut self) -> &mut [T] {
        // As above.
        let start = unsafe { self.region.start().add(self.from) };
        unsafe { slice::from_raw_parts_mut(start.cast(), self.found.len()) }
    }

    pub fn as_found(&self) -> bool {
        let mut pairs = self.content().iter().zip(&self.found);
        pairs.all(|(now, before)| now.bits() == before.bits())
    }

    pub fn guards_whole(&self) -> bool {
        self.guards().iter().all(|(start, end)| {
            // As above.
            let start_at = unsafe { self.region.start().add(*start) };
            let guard = unsafe { slice::from_raw_parts(start_at, end - start) };
            guard.iter().all(|byte| *byte == GUARD)
        })
    }
}

impl<T> Drop for Guarded<T> {
    fn drop(&mut self) {
        self.region.hand_back();
    }
}
