//! The pairs of a range of keys, from either end: of a map, or of a handle's tree.
use std::fmt;
use std::iter::FusedIterator;
use std::ops::{self, Bound, RangeBounds};

use crate::handle::Handle;
use crate::map::Map;
use crate::raw::Pair;

// How many pairs a range asks for first, and at most. It doubles in between, so that a short range is cheap.
const FIRST_FILL: usize = 4;
const MOST_FILL: usize = 64;

/// Where the pairs of a range come from.
pub(crate) trait Source {
    /// Writes the first pairs of a range to an array, as many as it has room for. Returns how many they are, and where the range goes on.
    fn fill(&mut self, keys: ops::Range<u64>, out: &mut [Pair]) -> (usize, u64);

    /// Returns the pair of the greatest key below this one that is present.
    fn before(&mut self, key: u64) -> Option<(u64, u64)>;
}

// The pairs of a range of keys of a source.
struct Pairs<S> {
    source: S,
    // Pairs that are found, and which of them are not given out yet.
    found: [Pair; MOST_FILL],
    left: ops::Range<usize>,
    // The keys behind those pairs that nobody has asked for yet.
    keys: ops::Range<u64>,
    fill: usize,
}

impl<S: Source> Pairs<S> {
    fn new(source: S, range: impl RangeBounds<u64>) -> Pairs<S> {
        Pairs { source, found: [Pair::ZERO; MOST_FILL], left: 0..0, keys: keys_of(range), fill: FIRST_FILL }
    }

    fn next(&mut self) -> Option<(u64, u64)> {
        if self.left.is_empty() && !self.keys.is_empty() {
            let (count, next) = self.source.fill(self.keys.clone(), &mut self.found[..self.fill]);
            (self.left, self.keys.start, self.fill) = (0..count, next, MOST_FILL.min(2 * self.fill));
        }
        self.left.next().map(|place| self.found[place].into())
    }

    fn next_back(&mut self) -> Option<(u64, u64)> {
        if !self.keys.is_empty() {
            let last = self.source.before(self.keys.end).filter(|pair| self.keys.start <= pair.0);
            self.keys.end = last.map_or(self.keys.start, |pair| pair.0);
            if last.is_some() {
                return last;
            }
        }
        self.left.next_back().map(|place| self.found[place].into())
    }
}

impl<S> Pairs<S> {
    // Shows the pairs that are found, and the keys that nobody has asked for yet.
    fn show(&self, name: &str, f: &mut fmt::Formatter<'_>) -> fmt::Result {
        let found: Vec<(u64, u64)> = self.found[self.left.clone()].iter().map(|&pair| pair.into()).collect();
        f.debug_struct(name).field("found", &found).field("keys", &self.keys).finish_non_exhaustive()
    }
}

// Returns the first key of a range, and the one behind its last. No key is so great as `u64::MAX`, so that a range up to there has all keys from its
// start on.
fn keys_of(range: impl RangeBounds<u64>) -> ops::Range<u64> {
    let from = match range.start_bound() {
        Bound::Included(&key) => Some(key),
        Bound::Excluded(&key) => key.checked_add(1),
        Bound::Unbounded => Some(0),
    };
    let upto = match range.end_bound() {
        Bound::Included(&key) => key.saturating_add(1),
        Bound::Excluded(&key) => key,
        Bound::Unbounded => u64::MAX,
    };
    from.unwrap_or(upto)..upto
}

/// An iterator over the pairs of a range of keys of a [`Map`], from both ends: it is made by [`Map::range`].
///
/// Pairs that were found together wait in the iterator. So a pair may be from before the call that returns it, but not from before the iterator was
/// made.
pub struct MapRange<'a>(Pairs<&'a Map>);

impl<'a> MapRange<'a> {
    pub(crate) fn new(map: &'a Map, range: impl RangeBounds<u64>) -> MapRange<'a> {
        MapRange(Pairs::new(map, range))
    }
}

/// An iterator over the pairs of a range of keys of a tree, from both ends: it is made by [`Handle::range`].
///
/// Pairs that were found together wait in the iterator, as in a [`MapRange`].
pub struct Range<'a>(Pairs<&'a mut Handle>);

impl<'a> Range<'a> {
    pub(crate) fn new(handle: &'a mut Handle, range: impl RangeBounds<u64>) -> Range<'a> {
        Range(Pairs::new(handle, range))
    }
}

macro_rules! iterator {
    ($type:ident) => {
        impl Iterator for $type<'_> {
            type Item = (u64, u64);

            fn next(&mut self) -> Option<(u64, u64)> {
                self.0.next()
            }
        }

        impl DoubleEndedIterator for $type<'_> {
            fn next_back(&mut self) -> Option<(u64, u64)> {
                self.0.next_back()
            }
        }

        impl FusedIterator for $type<'_> {}

        /// Shows the pairs that wait, and the keys that were not asked for yet.
        impl fmt::Debug for $type<'_> {
            fn fmt(&self, f: &mut fmt::Formatter<'_>) -> fmt::Result {
                self.0.show(stringify!($type), f)
            }
        }
    };
}

iterator!(MapRange);
iterator!(Range);
