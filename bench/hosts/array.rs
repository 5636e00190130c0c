//! The library as a program in C has it, by `array.c`.

use crate::peers::{TRIES, View};
use crate::ranges::{Ranges, Told, told};
use std::ffi::c_void;

#[repr(C)]
#[derive(Clone, Copy)]
struct Pair {
    key: u64,
    value: u64,
}

unsafe extern "C" {
    fn array_open(start: *const Pair, count: usize, cards: u64) -> *mut c_void;
    fn array_another(from: *mut c_void) -> *mut c_void;
    fn array_free(handle: *mut c_void);
    fn array_find(handle: *mut c_void, key: u64, value: &mut u64) -> bool;
    fn array_insert(handle: *mut c_void, key: u64, value: u64, tries: u32) -> bool;
    fn array_delete(handle: *mut c_void, key: u64, tries: u32) -> bool;
    fn array_swap(handle: *mut c_void, key: u64, value: u64, tries: u32, was: &mut u64) -> bool;
    fn array_range(handle: *mut c_void, from: u64, upto: u64, out: *mut Pair, room: usize) -> usize;
    fn array_next(handle: *mut c_void, key: u64, found: &mut Pair) -> bool;
}

const NO_PAIR: Pair = Pair { key: 0, value: 0 };

/// A handle of C, and an array for ranges.
pub struct ArrayHandle {
    handle: *mut c_void,
    room: Vec<Pair>,
}

// SAFETY: a handle may go to another thread.
unsafe impl Send for ArrayHandle {}

impl ArrayHandle {
    /// A tree with these start pairs and so many cards.
    pub fn open(start: &[(u64, u64)], cards: u64) -> ArrayHandle {
        let start: Vec<Pair> = start.iter().map(|&(key, value)| Pair { key, value }).collect();
        // SAFETY: the array is as long as said.
        ArrayHandle { handle: unsafe { array_open(start.as_ptr(), start.len(), cards) }, room: Vec::new() }
    }

    /// A further handle of the same tree.
    pub fn another(&mut self) -> ArrayHandle {
        // SAFETY: the handle is there until the drop.
        ArrayHandle { handle: unsafe { array_another(self.handle) }, room: Vec::new() }
    }
}

impl Drop for ArrayHandle {
    fn drop(&mut self) {
        // SAFETY: nobody has the handle any more.
        unsafe { array_free(self.handle) };
    }
}

impl View for ArrayHandle {
    fn find(&mut self, key: u64) -> Option<u64> {
        let mut value = 0;
        // SAFETY: the handle is there until the drop.
        unsafe { array_find(self.handle, key, &mut value) }.then_some(value)
    }

    fn insert(&mut self, key: u64, value: u64) -> bool {
        // SAFETY: the handle is there until the drop.
        unsafe { array_insert(self.handle, key, value, TRIES) }
    }

    fn delete(&mut self, key: u64) -> bool {
        // SAFETY: the handle is there until the drop.
        unsafe { array_delete(self.handle, key, TRIES) }
    }
}

impl Ranges for ArrayHandle {
    fn range(&mut self, from: u64, upto: u64) -> Told {
        let room = (upto - from) as usize;
        if self.room.len() < room {
            self.room.resize(room, NO_PAIR);
        }
        // SAFETY: the handle is there until the drop, and the array is as long as said.
        let count = unsafe { array_range(self.handle, from, upto, self.room.as_mut_ptr(), room) };
        told(self.room[..count].iter().map(|pair| (pair.key, pair.value)))
    }

    fn next_at_least(&mut self, key: u64) -> Option<(u64, u64)> {
        let mut found = NO_PAIR;
        // SAFETY: the handle is there until the drop.
        unsafe { array_next(self.handle, key, &mut found) }.then_some((found.key, found.value))
    }

    fn swap(&mut self, key: u64, value: u64) -> Option<u64> {
        let mut was = 0;
        // SAFETY: the handle is there until the drop.
        unsafe { array_swap(self.handle, key, value, TRIES, &mut was) }.then_some(was)
    }
}
