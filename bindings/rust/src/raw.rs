//! The functions of the library as C declares them, and what they take. `tests/hosts/abi` compares this file with the header.
use std::cell::UnsafeCell;
use std::ffi::{c_char, c_void};
use std::ptr;

/// The greatest key that a map or a tree may have.
pub const KEY_MAX: u64 = u64::MAX - 2;

/// The most cards that a tree may have.
pub const CARDS_MAX: u64 = 1_000_000;

/// The most start keys that a tree may have.
pub const START_MAX: usize = 1_000_000;

/// What the library keeps of a handle. One is made by [`Slot::EMPTY`] and filled by the library alone.
#[repr(C)]
pub(crate) struct Slot {
    pub(crate) at: *mut c_void,
    pub(crate) is_open: bool,
    pub(crate) unused: [u8; 7],
}

impl Slot {
    /// A slot that holds nothing.
    pub(crate) const EMPTY: Slot = Slot { at: ptr::null_mut(), is_open: false, unused: [0; 7] };
}

/// A key and its value.
#[repr(C)]
#[derive(Clone, Copy)]
pub(crate) struct Pair {
    pub(crate) key: u64,
    pub(crate) value: u64,
}

impl Pair {
    /// What stands in an array before the library has written to it.
    pub(crate) const ZERO: Pair = Pair { key: 0, value: 0 };

    /// Returns the pairs of a slice as the library takes them.
    pub(crate) fn all_of(pairs: &[(u64, u64)]) -> Vec<Pair> {
        pairs.iter().map(|&(key, value)| Pair { key, value }).collect()
    }
}

impl From<Pair> for (u64, u64) {
    fn from(pair: Pair) -> (u64, u64) {
        (pair.key, pair.value)
    }
}

/// The library's map, of which nothing is known here. A reference to one is to a map that lives.
#[repr(C)]
pub(crate) struct RawMap {
    _opaque: UnsafeCell<[u8; 0]>,
}

/// How a map is set up.
#[repr(C)]
pub(crate) struct RawSettings {
    pub(crate) cards: u64,
    pub(crate) renewal_percent: u32,
    pub(crate) renewal_microseconds: u32,
    pub(crate) calls: u32,
    pub(crate) unused: u32,
}

/// What has happened to a map.
#[repr(C)]
#[derive(Default)]
pub(crate) struct RawCounts {
    pub(crate) sections: u64,
    pub(crate) cards: u64,
    pub(crate) renewals: u64,
    pub(crate) early_renewals: u64,
    pub(crate) renewal_nanoseconds: u64,
    pub(crate) pause_nanoseconds: u64,
    pub(crate) longest_nanoseconds: u64,
}

// The functions of a map, which any thread may call at any time, up to the one that frees it. A struct goes with its size, so that a library of
// another version takes of it what it knows. A call that is `safe` needs no more than its types say. The callers of the others see to the length of
// their arrays and to these sizes, and call none after the one that frees the map.
unsafe extern "C" {
    pub(crate) fn elltree_map_from_sorted(map: &mut *mut RawMap, pairs: *const Pair, count: usize, settings: &RawSettings, size: usize) -> i32;
    pub(crate) fn elltree_map_free(map: *mut RawMap) -> i32;
    pub(crate) safe fn elltree_map_get(map: &RawMap, key: u64, value: &mut u64) -> i32;
    pub(crate) safe fn elltree_map_insert(map: &RawMap, key: u64, value: u64) -> i32;
    pub(crate) safe fn elltree_map_put(map: &RawMap, key: u64, value: u64, was: &mut u64) -> i32;
    pub(crate) safe fn elltree_map_remove(map: &RawMap, key: u64, was: &mut u64) -> i32;
    pub(crate) safe fn elltree_map_delete(map: &RawMap, key: u64) -> i32;
    pub(crate) safe fn elltree_map_compare_exchange(map: &RawMap, key: u64, expected: &mut u64, desired: u64) -> i32;
    pub(crate) safe fn elltree_map_fetch_add(map: &RawMap, key: u64, addend: u64, was: &mut u64) -> i32;
    pub(crate) safe fn elltree_map_remove_if(map: &RawMap, key: u64, expected: u64, found: &mut u64) -> i32;
    pub(crate) safe fn elltree_map_get_or_insert(map: &RawMap, key: u64, value: u64, there: &mut u64) -> i32;
    pub(crate) safe fn elltree_map_pop_first(map: &RawMap, key: &mut u64, value: &mut u64) -> i32;
    pub(crate) safe fn elltree_map_pop_last(map: &RawMap, key: &mut u64, value: &mut u64) -> i32;
    pub(crate) fn elltree_map_range(map: &RawMap, from: u64, upto: u64, out: *mut Pair, room: usize, count: &mut usize, next: &mut u64) -> i32;
    pub(crate) safe fn elltree_map_next_at_least(map: &RawMap, key: u64, found: &mut u64, value: &mut u64) -> i32;
    pub(crate) safe fn elltree_map_last_at_most(map: &RawMap, key: u64, found: &mut u64, value: &mut u64) -> i32;
    pub(crate) safe fn elltree_map_len(map: &RawMap, count: &mut usize) -> i32;
    pub(crate) fn elltree_map_pairs(map: &RawMap, out: *mut Pair, room: usize, count: &mut usize) -> i32;
    pub(crate) safe fn elltree_map_renew(map: &RawMap) -> i32;
    pub(crate) fn elltree_map_counts(map: &RawMap, counts: &mut RawCounts, size: usize) -> i32;
    pub(crate) fn elltree_code_text(code: i32, out: *mut c_char, room: usize) -> usize;
}

// The functions of handles. A call that is `safe` needs no more than its types say: a slot holds what the library has put there, or nothing. The
// callers of the others see to the length of their arrays.
unsafe extern "C" {
    pub(crate) fn elltree_slot_open(slot: &mut Slot, start: *const Pair, start_count: usize, cards: u64) -> i32;
    pub(crate) fn elltree_slot_open_reusing(slot: &mut Slot, start: *const Pair, start_count: usize, cards: u64, handles: u32) -> i32;
    pub(crate) safe fn elltree_slot_another(from: &mut Slot, into: &mut Slot) -> i32;
    pub(crate) safe fn elltree_slot_free(slot: &mut Slot) -> i32;
    pub(crate) safe fn elltree_slot_find(slot: &mut Slot, key: u64, value: &mut u64) -> i32;
    pub(crate) safe fn elltree_slot_look(slot: &mut Slot, key: u64, value: &mut u64) -> i32;
    pub(crate) safe fn elltree_slot_insert(slot: &mut Slot, key: u64, value: u64, tries: u32) -> i32;
    pub(crate) safe fn elltree_slot_put(slot: &mut Slot, key: u64, value: u64, tries: u32, was: &mut u64) -> i32;
    pub(crate) safe fn elltree_slot_delete(slot: &mut Slot, key: u64, tries: u32) -> i32;
    pub(crate) safe fn elltree_slot_take(slot: &mut Slot, key: u64, tries: u32, taken: &mut u64) -> i32;
    pub(crate) safe fn elltree_slot_compare_exchange(slot: &mut Slot, key: u64, current: u64, desired: u64, tries: u32, found: &mut u64) -> i32;
    pub(crate) safe fn elltree_slot_remove_if(slot: &mut Slot, key: u64, current: u64, tries: u32, found: &mut u64) -> i32;
    pub(crate) safe fn elltree_slot_fetch_add(slot: &mut Slot, key: u64, addend: u64, tries: u32, was: &mut u64) -> i32;
    pub(crate) fn elltree_slot_range(slot: &mut Slot, from: u64, upto: u64, out: *mut Pair, room: usize, count: &mut usize, next: &mut u64) -> i32;
    pub(crate) safe fn elltree_slot_next_at_least(slot: &mut Slot, key: u64, found: &mut u64, value: &mut u64) -> i32;
    pub(crate) safe fn elltree_slot_last_at_most(slot: &mut Slot, key: u64, found: &mut u64, value: &mut u64) -> i32;
    pub(crate) safe fn elltree_slot_cards_left(slot: &mut Slot, left: &mut u64) -> i32;
    pub(crate) safe fn elltree_slot_steps(slot: &mut Slot, steps: &mut u64) -> i32;
}
