//! One map object that all threads share, over the calls of `elltree_map.h`.
use std::fmt;
use std::ops::{self, RangeBounds};
use std::panic::{RefUnwindSafe, UnwindSafe};
use std::ptr::{self, NonNull};
use std::time::Duration;

use crate::error::{MapError, MapResult, NO_ROOM, OTHER_VALUE, map_answer};
use crate::range::{MapRange, Source};
use crate::raw::{self, KEY_MAX, Pair, RawCounts, RawMap, RawSettings};

/// How a [`Map`] is set up. A field that is 0 leaves the choice to the map.
///
/// # Examples
///
/// ```
/// let settings = elltree::MapSettings { cards: 100_000, ..Default::default() };
/// let map = elltree::Map::from_sorted(&[(1, 10)], settings)?;
/// assert_eq!(map.counts().cards, 100_001);
/// # Ok::<(), elltree::MapError>(())
/// ```
#[derive(Clone, Copy, Debug, Default, PartialEq, Eq)]
pub struct MapSettings {
    /// How many cards the new map has besides those of its pairs. If this is 0, an empty map has 128, and any other 2.5 for each pair in all.
    pub cards: u64,
    /// Has no effect any more.
    pub renewal_percent: u32,
    /// Has no effect any more.
    pub renewal_microseconds: u32,
    /// How many calls may be under way at once, up to 4,096; 8 for each processor, and at least 64, if this is 0.
    pub calls: u32,
}

/// What has happened to a [`Map`], as [`Map::counts`] returns it.
#[derive(Clone, Copy, Debug, Default, PartialEq, Eq)]
#[non_exhaustive]
pub struct MapCounts {
    /// How many sections there are.
    pub sections: u64,
    /// The cards of all sections.
    pub cards: u64,
    /// How many renewals there were, of all sections.
    pub renewals: u64,
    /// Always 0, since no tree grows deep.
    pub early_renewals: u64,
    /// How long a processor was at work on renewals.
    pub renewal_time: Duration,
    /// The sum of the pauses in which calls waited for a renewal.
    pub pauses: Duration,
    /// The longest of these pauses.
    pub longest_pause: Duration,
}

/// An ordered map from `u64` to `u64` that all threads share.
///
/// All calls take `&self`, and any thread makes any of them at any time. All calls that read or change a key answer as if they were made one after
/// the other, each at one moment between its begin and its end. What a thread did before it stored a value happened before what another thread does
/// after it has read that value.
///
/// The map consists of sections, each with a tree for its range of keys. Each change takes one of the *cards* of a tree, and cards come back. Where
/// a section has many keys or few, or no card is free, a change *renews* it: it makes new trees with the same pairs, while other calls go on, and
/// takes about a millisecond longer, or seconds if more threads can run than there are processors. At the end of a renewal all changes pause, until
/// those of them that are under way have ended, and [`Map::counts`] returns how long. A change may wait for a thread that is stopped inside a call:
/// for one that changes a key, and for one that only reads once a million replaced cards wait for that. A call that only reads does not pause, and
/// waits for no other thread, unless more calls are under way than [`MapSettings::calls`] allows. How calls and renewals keep out of each other's
/// way is tested and not proved; the trees below it are proved.
///
/// Keys that are added in order and pops take several times as long as in a locked `BTreeMap`, and so does a range from its back, which makes a
/// search for each key.
///
/// A key above [`KEY_MAX`] is absent to calls that read, and [`MapError::BadKey`] to calls that change keys. [`TypedMap`](crate::TypedMap) has keys
/// and values of other types, and [`boxed_values`](crate::boxed_values) shows how a map has values of any type.
///
/// A forked child can't use the map of its parent: calls that change it return [`MapError::Forked`], and others find no key.
///
/// # Examples
///
/// ```
/// let map = elltree::Map::new()?;
/// std::thread::scope(|threads| {
///     for thread in 0..4 {
///         let map = &map;
///         threads.spawn(move || {
///             map.insert(thread, thread * 10).unwrap();
///             map.try_insert(100, 0).unwrap(); // one of the four adds the key
///             map.fetch_add(100, 1).unwrap(); // and all of them count
///         });
///     }
/// });
/// assert_eq!(map.get(100), Some(4));
/// assert_eq!(map.range(..100).map(|pair| pair.1).collect::<Vec<_>>(), [0, 10, 20, 30]);
/// # Ok::<(), elltree::MapError>(())
/// ```
///
/// ```
/// fn shared<T: Send + Sync>(_: &T) {}
/// shared(&elltree::Map::new().unwrap());
/// ```
pub struct Map(NonNull<RawMap>);

// SAFETY: the functions of a map may be called by any thread at any time, and the last owner frees it.
unsafe impl Send for Map {}
unsafe impl Sync for Map {}

// A map is whole whenever a call on it has ended, even if that was by a panic.
impl UnwindSafe for Map {}
impl RefUnwindSafe for Map {}

impl Map {
    /// Makes an empty map.
    ///
    /// # Errors
    ///
    /// Returns [`MapError::NoMemory`] if memory is refused.
    ///
    /// # Examples
    ///
    /// ```
    /// let map = elltree::Map::new()?;
    /// assert!(map.is_empty());
    /// # Ok::<(), elltree::MapError>(())
    /// ```
    pub fn new() -> MapResult<Map> {
        Map::from_sorted(&[], MapSettings::default())
    }

    /// Makes a map of pairs whose keys ascend strictly.
    ///
    /// # Errors
    ///
    /// Returns [`MapError::BadStart`] if the keys do not ascend strictly, [`MapError::BadKey`] if one is above [`KEY_MAX`], and
    /// [`MapError::NoMemory`] if memory is refused.
    ///
    /// # Examples
    ///
    /// ```
    /// use elltree::{Map, MapError};
    /// let map = Map::from_sorted(&[(1, 10), (2, 20)], Default::default())?;
    /// assert_eq!((map.len(), map.get(2)), (2, Some(20)));
    /// assert_eq!(Map::from_sorted(&[(2, 0), (1, 0)], Default::default()).err(), Some(MapError::BadStart));
    /// # Ok::<(), MapError>(())
    /// ```
    pub fn from_sorted(pairs: &[(u64, u64)], settings: MapSettings) -> MapResult<Map> {
        let MapSettings { cards, renewal_percent, renewal_microseconds, calls } = settings;
        let settings = RawSettings { cards, renewal_percent, renewal_microseconds, calls, unused: 0 };
        let (pairs, mut map) = (Pair::all_of(pairs), ptr::null_mut());
        // SAFETY: the array is as long as said, and the settings are as great.
        map_answer(unsafe { raw::elltree_map_from_sorted(&mut map, pairs.as_ptr(), pairs.len(), &settings, size_of::<RawSettings>()) })?;
        NonNull::new(map).map(Map).ok_or(MapError::NoMemory)
    }

    /// Makes a map of pairs in any order. If a key comes more than once, the map has its last value, as a `BTreeMap` that is collected has.
    ///
    /// # Errors
    ///
    /// Returns [`MapError::BadKey`] if a key is above [`KEY_MAX`], and [`MapError::NoMemory`] if memory is refused.
    ///
    /// # Examples
    ///
    /// ```
    /// let map = elltree::Map::try_from_iter([(2, 20), (1, 10), (2, 21)])?;
    /// assert_eq!(map.pairs(), [(1, 10), (2, 21)]);
    /// # Ok::<(), elltree::MapError>(())
    /// ```
    pub fn try_from_iter(pairs: impl IntoIterator<Item = (u64, u64)>) -> MapResult<Map> {
        let mut pairs: Vec<(u64, u64)> = pairs.into_iter().collect();
        pairs.sort_by_key(|pair| pair.0); // pairs of one key stay in their order
        pairs.dedup_by(|later, kept| {
            let is_same = later.0 == kept.0;
            if is_same {
                kept.1 = later.1;
            }
            is_same
        });
        Map::from_sorted(&pairs, MapSettings::default())
    }

    // The map of the library.
    fn raw(&self) -> &RawMap {
        // SAFETY: it lives until the drop.
        unsafe { self.0.as_ref() }
    }

    // Returns the value that a function of the library tells, if it says yes.
    fn told(&self, call: impl FnOnce(&RawMap, &mut u64) -> i32) -> MapResult<Option<u64>> {
        let mut value = 0;
        let there = map_answer(call(self.raw(), &mut value))?;
        Ok(there.then_some(value))
    }

    // Returns the pair that a function of the library tells, if it says yes.
    fn pair(&self, call: impl FnOnce(&RawMap, &mut u64, &mut u64) -> i32) -> MapResult<Option<(u64, u64)>> {
        let (mut key, mut value) = (0, 0);
        let there = map_answer(call(self.raw(), &mut key, &mut value))?;
        Ok(there.then_some((key, value)))
    }

    // Returns the current value if a function of the library has found it, and otherwise what is there.
    fn compared(&self, current: u64, call: impl FnOnce(&RawMap, &mut u64) -> i32) -> MapResult<Result<u64, Option<u64>>> {
        let mut found = current;
        match call(self.raw(), &mut found) {
            OTHER_VALUE => Ok(Err(Some(found))),
            code => Ok(if map_answer(code)? { Ok(current) } else { Err(None) }),
        }
    }
}

/// Calls that read.
impl Map {
    /// Returns the value of the key, if it is present. No key above [`KEY_MAX`] is.
    ///
    /// # Examples
    ///
    /// ```
    /// let map = elltree::Map::try_from_iter([(1, 10)])?;
    /// assert_eq!((map.get(1), map.get(2), map.get(u64::MAX)), (Some(10), None, None));
    /// # Ok::<(), elltree::MapError>(())
    /// ```
    #[must_use]
    pub fn get(&self, key: u64) -> Option<u64> {
        self.try_get(key).unwrap_or(None)
    }

    // Returns the value of the key, as `get` does, and in a forked child that it is one.
    fn try_get(&self, key: u64) -> MapResult<Option<u64>> {
        self.told(|map, value| raw::elltree_map_get(map, key, value))
    }

    /// Returns whether the key is present.
    ///
    /// # Examples
    ///
    /// ```
    /// let map = elltree::Map::try_from_iter([(1, 10)])?;
    /// assert!(map.contains_key(1) && !map.contains_key(2));
    /// # Ok::<(), elltree::MapError>(())
    /// ```
    #[must_use]
    pub fn contains_key(&self, key: u64) -> bool {
        self.get(key).is_some()
    }

    /// Returns an iterator over the pairs of a range of keys, in ascending order, from both ends. Other threads go on meanwhile.
    ///
    /// It is no snapshot, but each key is as it was at one moment since the iterator was made: a key that was present all along is among the
    /// pairs, one that was absent all along is not, and each pair was there. [`Map::pairs`] returns a snapshot.
    ///
    /// A range that ends before it begins has no keys, while [`BTreeMap::range`](std::collections::BTreeMap::range) panics on it.
    ///
    /// # Examples
    ///
    /// ```
    /// let map = elltree::Map::try_from_iter([(1, 10), (2, 20), (3, 30), (5, 50)])?;
    /// assert_eq!(map.range(2..5).collect::<Vec<_>>(), [(2, 20), (3, 30)]);
    /// assert_eq!(map.range(..=3).rev().map(|pair| pair.0).collect::<Vec<_>>(), [3, 2, 1]);
    /// # Ok::<(), elltree::MapError>(())
    /// ```
    #[must_use]
    pub fn range(&self, range: impl RangeBounds<u64>) -> MapRange<'_> {
        MapRange::new(self, range)
    }

    /// Returns an iterator over all pairs, as [`Map::range`] does.
    #[must_use]
    pub fn iter(&self) -> MapRange<'_> {
        self.range(..)
    }

    /// Returns the least key from `key` on that is present, with its value. It was present at one moment of the call, and each key before it was
    /// absent at one.
    ///
    /// # Examples
    ///
    /// ```
    /// let map = elltree::Map::try_from_iter([(2, 20), (4, 40)])?;
    /// assert_eq!((map.next_at_least(2), map.next_at_least(3), map.next_at_least(5)), (Some((2, 20)), Some((4, 40)), None));
    /// # Ok::<(), elltree::MapError>(())
    /// ```
    #[must_use]
    pub fn next_at_least(&self, key: u64) -> Option<(u64, u64)> {
        self.pair(|map, found, value| raw::elltree_map_next_at_least(map, key, found, value)).unwrap_or(None)
    }

    /// Returns the least key above `key` that is present, with its value, as [`Map::next_at_least`] does.
    #[must_use]
    pub fn next_after(&self, key: u64) -> Option<(u64, u64)> {
        self.next_at_least(key.checked_add(1)?)
    }

    /// Returns the greatest key up to `key` that is present, with its value. It was present at one moment of the call, and each key after it was
    /// absent at one.
    ///
    /// # Examples
    ///
    /// ```
    /// let map = elltree::Map::try_from_iter([(2, 20), (4, 40)])?;
    /// assert_eq!((map.last_at_most(1), map.last_at_most(3), map.last_at_most(4)), (None, Some((2, 20)), Some((4, 40))));
    /// # Ok::<(), elltree::MapError>(())
    /// ```
    #[must_use]
    pub fn last_at_most(&self, key: u64) -> Option<(u64, u64)> {
        self.pair(|map, found, value| raw::elltree_map_last_at_most(map, key, found, value)).unwrap_or(None)
    }

    /// Returns the greatest key below `key` that is present, with its value, as [`Map::last_at_most`] does.
    #[must_use]
    pub fn last_before(&self, key: u64) -> Option<(u64, u64)> {
        self.last_at_most(key.checked_sub(1)?)
    }

    /// Returns the least key that is present, with its value, as [`Map::next_at_least`] does.
    ///
    /// # Examples
    ///
    /// ```
    /// let map = elltree::Map::try_from_iter([(2, 20), (4, 40)])?;
    /// assert_eq!((map.first_key_value(), map.last_key_value()), (Some((2, 20)), Some((4, 40))));
    /// assert_eq!((map.next_after(2), map.last_before(2)), (Some((4, 40)), None));
    /// # Ok::<(), elltree::MapError>(())
    /// ```
    #[must_use]
    pub fn first_key_value(&self) -> Option<(u64, u64)> {
        self.next_at_least(0)
    }

    /// Returns the greatest key that is present, with its value, as [`Map::last_at_most`] does.
    #[must_use]
    pub fn last_key_value(&self) -> Option<(u64, u64)> {
        self.last_at_most(KEY_MAX)
    }

    /// Returns how many keys are present. The number is exact if no change is under way. While others write, it is a sum of what each has done so
    /// far, which the map may never have had at any one moment.
    #[must_use]
    pub fn len(&self) -> usize {
        let mut count = 0;
        raw::elltree_map_len(self.raw(), &mut count);
        count
    }

    /// Returns whether a search for the least key finds none. While others write, `true` means that each key was absent at a moment of the call, and
    /// `false` that one was present.
    #[must_use]
    pub fn is_empty(&self) -> bool {
        self.first_key_value().is_none()
    }
}

/// Calls that change one key, each in one atomic step.
impl Map {
    /// Stores the value of a key, present or not. Returns the value that it had, or `None` if it was absent, as `insert` of a `BTreeMap` does. No
    /// other call replaces or removes that value. [`Map::try_insert`] keeps the value of a key that is present.
    ///
    /// # Errors
    ///
    /// Returns [`MapError::BadKey`] if the key is above [`KEY_MAX`], and [`MapError::NoMemory`] if memory is refused.
    ///
    /// # Examples
    ///
    /// ```
    /// let map = elltree::Map::new()?;
    /// assert_eq!((map.insert(1, 10)?, map.insert(1, 11)?, map.get(1)), (None, Some(10), Some(11)));
    /// assert_eq!(map.insert(u64::MAX, 0), Err(elltree::MapError::BadKey));
    /// # Ok::<(), elltree::MapError>(())
    /// ```
    pub fn insert(&self, key: u64, value: u64) -> MapResult<Option<u64>> {
        self.told(|map, was| raw::elltree_map_put(map, key, value, was))
    }

    /// Does the same as [`Map::insert`], by the name that the call has in C, C++ and Python.
    ///
    /// # Errors
    ///
    /// Returns what [`Map::insert`] returns.
    pub fn put(&self, key: u64, value: u64) -> MapResult<Option<u64>> {
        self.insert(key, value)
    }

    /// Adds a key that is absent, and returns whether it was. A key that is present keeps its value: [`Map::insert`] replaces it, and
    /// [`Map::get_or_insert`] returns it.
    ///
    /// # Errors
    ///
    /// Returns what [`Map::insert`] returns.
    ///
    /// # Examples
    ///
    /// ```
    /// let map = elltree::Map::new()?;
    /// assert_eq!((map.try_insert(1, 10)?, map.try_insert(1, 11)?, map.get(1)), (true, false, Some(10)));
    /// # Ok::<(), elltree::MapError>(())
    /// ```
    pub fn try_insert(&self, key: u64, value: u64) -> MapResult<bool> {
        map_answer(raw::elltree_map_insert(self.raw(), key, value))
    }

    /// Adds a key if it is absent. Returns the value that the key has then, and whether it was added.
    ///
    /// # Errors
    ///
    /// Returns what [`Map::insert`] returns.
    ///
    /// # Examples
    ///
    /// ```
    /// let map = elltree::Map::new()?;
    /// assert_eq!((map.get_or_insert(1, 10)?, map.get_or_insert(1, 11)?), ((10, true), (10, false)));
    /// # Ok::<(), elltree::MapError>(())
    /// ```
    pub fn get_or_insert(&self, key: u64, value: u64) -> MapResult<(u64, bool)> {
        let mut there = 0;
        let is_added = map_answer(raw::elltree_map_get_or_insert(self.raw(), key, value, &mut there))?;
        Ok((there, is_added))
    }

    /// Removes a key, and returns the value that it had, or `None` if it was absent. No other call returns that value as removed.
    ///
    /// # Errors
    ///
    /// Returns what [`Map::insert`] returns.
    ///
    /// # Examples
    ///
    /// ```
    /// let map = elltree::Map::try_from_iter([(1, 10)])?;
    /// assert_eq!((map.remove(1)?, map.remove(1)?), (Some(10), None));
    /// # Ok::<(), elltree::MapError>(())
    /// ```
    pub fn remove(&self, key: u64) -> MapResult<Option<u64>> {
        self.told(|map, was| raw::elltree_map_remove(map, key, was))
    }

    /// Removes a key, and returns whether it was present.
    ///
    /// # Errors
    ///
    /// Returns what [`Map::insert`] returns.
    pub fn delete(&self, key: u64) -> MapResult<bool> {
        map_answer(raw::elltree_map_delete(self.raw(), key))
    }

    /// Removes a key if its value is `current`. Returns `Ok(current)` if it did, and otherwise what is there: `Err(Some(value))` if the key has
    /// another value, and `Err(None)` if it is absent. So no value is removed that another thread has stored since this one read `current`.
    ///
    /// # Errors
    ///
    /// The outer result has the errors of [`Map::insert`].
    ///
    /// # Examples
    ///
    /// ```
    /// let map = elltree::Map::try_from_iter([(1, 10)])?;
    /// assert_eq!((map.remove_if(1, 9)?, map.remove_if(1, 10)?, map.remove_if(1, 10)?), (Err(Some(10)), Ok(10), Err(None)));
    /// # Ok::<(), elltree::MapError>(())
    /// ```
    pub fn remove_if(&self, key: u64, current: u64) -> MapResult<Result<u64, Option<u64>>> {
        self.compared(current, |map, found| raw::elltree_map_remove_if(map, key, current, found))
    }

    /// Stores `new` as the value of a key if its value is `current`. Returns `Ok(current)` if it did, and otherwise what is there, as
    /// [`Map::remove_if`] does.
    ///
    /// # Errors
    ///
    /// The outer result has the errors of [`Map::insert`].
    ///
    /// # Examples
    ///
    /// ```
    /// let map = elltree::Map::try_from_iter([(1, 10)])?;
    /// assert_eq!(map.compare_exchange(1, 10, 11)?, Ok(10));
    /// assert_eq!(map.compare_exchange(1, 10, 12)?, Err(Some(11)));
    /// assert_eq!(map.compare_exchange(2, 10, 12)?, Err(None));
    /// # Ok::<(), elltree::MapError>(())
    /// ```
    pub fn compare_exchange(&self, key: u64, current: u64, new: u64) -> MapResult<Result<u64, Option<u64>>> {
        self.compared(current, |map, expected| raw::elltree_map_compare_exchange(map, key, expected, new))
    }

    /// Adds to the value of a key. Returns the value that it had, or `None` if the key is absent, and then it stays absent. A sum above `u64::MAX`
    /// wraps around.
    ///
    /// # Errors
    ///
    /// Returns what [`Map::insert`] returns.
    ///
    /// # Examples
    ///
    /// ```
    /// let map = elltree::Map::try_from_iter([(1, 10)])?;
    /// assert_eq!((map.fetch_add(1, 5)?, map.fetch_add(2, 5)?, map.get(1)), (Some(10), None, Some(15)));
    /// # Ok::<(), elltree::MapError>(())
    /// ```
    pub fn fetch_add(&self, key: u64, addend: u64) -> MapResult<Option<u64>> {
        self.told(|map, was| raw::elltree_map_fetch_add(map, key, addend, was))
    }

    /// Stores what `f` makes of the value of a key. Returns the value that it had, or `None` if the key is absent, and then it stays absent. `f` is
    /// called again if another thread has changed the value meanwhile. It may take its time and call the map: nothing waits for it.
    ///
    /// # Errors
    ///
    /// Returns what [`Map::insert`] returns.
    ///
    /// # Panics
    ///
    /// Panics if `f` does. The key then keeps its value, and the map goes on.
    ///
    /// # Examples
    ///
    /// ```
    /// let map = elltree::Map::try_from_iter([(1, 10)])?;
    /// assert_eq!((map.update(1, |value| value * 2)?, map.update(2, |value| value * 2)?, map.get(1)), (Some(10), None, Some(20)));
    /// # Ok::<(), elltree::MapError>(())
    /// ```
    pub fn update<F: FnMut(u64) -> u64>(&self, key: u64, mut f: F) -> MapResult<Option<u64>> {
        // `elltree_map_update` would call `f` from C, through which no panic may go.
        if key > KEY_MAX {
            return Err(MapError::BadKey);
        }
        let Some(mut value) = self.try_get(key)? else {
            return Ok(None);
        };
        loop {
            match self.compare_exchange(key, value, f(value))? {
                Ok(was) => return Ok(Some(was)),
                Err(Some(there)) => value = there,
                Err(None) => return Ok(None),
            }
        }
    }

    /// Removes the least key, and returns it with its value, or `None` if there is none. No other call returns this pair, so threads that empty a
    /// map get each pair once. Each smaller key was absent at a moment of the call: so the key was the least one when it was removed, unless
    /// another thread has added a smaller one during the call. `None` means that each key was absent at a moment of the call, and not that the
    /// map was empty, unless nobody adds keys meanwhile.
    ///
    /// # Errors
    ///
    /// Returns [`MapError::NoMemory`] if memory is refused.
    ///
    /// # Examples
    ///
    /// ```
    /// let map = elltree::Map::try_from_iter([(1, 10), (2, 20), (3, 30)])?;
    /// assert_eq!((map.pop_first()?, map.pop_last()?), (Some((1, 10)), Some((3, 30))));
    /// assert_eq!((map.pop_first()?, map.pop_first()?), (Some((2, 20)), None));
    /// # Ok::<(), elltree::MapError>(())
    /// ```
    pub fn pop_first(&self) -> MapResult<Option<(u64, u64)>> {
        self.pair(|map, key, value| raw::elltree_map_pop_first(map, key, value))
    }

    /// Removes the greatest key, and returns it with its value, as [`Map::pop_first`] does with the least one.
    ///
    /// # Errors
    ///
    /// Returns [`MapError::NoMemory`] if memory is refused.
    pub fn pop_last(&self) -> MapResult<Option<(u64, u64)>> {
        self.pair(|map, key, value| raw::elltree_map_pop_last(map, key, value))
    }
}

/// Calls on many keys, and on the map itself.
impl Map {
    /// Inserts pairs in any order, one after the other. It is not one atomic step: other threads see some of them first.
    ///
    /// # Errors
    ///
    /// Returns [`MapError::BadKey`] if a key is above [`KEY_MAX`], and [`MapError::NoMemory`] if memory is refused. The pairs before the one that is
    /// refused are inserted.
    ///
    /// # Examples
    ///
    /// ```
    /// let map = elltree::Map::new()?;
    /// map.extend([(2, 20), (1, 10), (2, 21)])?;
    /// assert_eq!(map.pairs(), [(1, 10), (2, 21)]);
    /// # Ok::<(), elltree::MapError>(())
    /// ```
    pub fn extend(&self, pairs: impl IntoIterator<Item = (u64, u64)>) -> MapResult<()> {
        pairs.into_iter().try_for_each(|(key, value)| self.insert(key, value).map(drop))
    }

    /// Removes all keys, one after the other. It is not one atomic step: a key that another thread adds meanwhile may stay.
    ///
    /// # Errors
    ///
    /// Returns [`MapError::NoMemory`] if memory is refused. Some keys may be removed then.
    ///
    /// # Examples
    ///
    /// ```
    /// let map = elltree::Map::try_from_iter([(1, 10), (2, 20)])?;
    /// map.clear()?;
    /// assert!(map.is_empty());
    /// # Ok::<(), elltree::MapError>(())
    /// ```
    pub fn clear(&self) -> MapResult<()> {
        self.try_get(0)?; // a forked child is told so, and not that there are no keys
        self.iter().try_for_each(|(key, _)| self.delete(key).map(drop))
    }

    /// Removes each pair for which `f` returns `false`, one after the other. It is not one atomic step, but a pair that `f` has not seen stays: `f`
    /// is called again if another thread has changed the value meanwhile. It may call the map.
    ///
    /// # Errors
    ///
    /// Returns [`MapError::NoMemory`] if memory is refused. Some pairs may be removed then.
    ///
    /// # Panics
    ///
    /// Panics if `f` does. The map goes on, without the pairs that were removed.
    ///
    /// # Examples
    ///
    /// ```
    /// let map = elltree::Map::try_from_iter((0..10).map(|key| (key, key * key)))?;
    /// map.retain(|key, value| key % 2 == 0 && value < 50)?;
    /// assert_eq!(map.pairs(), [(0, 0), (2, 4), (4, 16), (6, 36)]);
    /// # Ok::<(), elltree::MapError>(())
    /// ```
    pub fn retain<F: FnMut(u64, u64) -> bool>(&self, mut f: F) -> MapResult<()> {
        self.try_get(0)?; // as of clear
        for (key, mut value) in self {
            while !f(key, value) {
                match self.remove_if(key, value)? {
                    Err(Some(there)) => value = there,
                    Ok(_) | Err(None) => break,
                }
            }
        }
        Ok(())
    }

    /// Returns all pairs, in ascending order, as they are at one moment: a snapshot. Calls that change keys wait meanwhile, as at a renewal.
    ///
    /// # Examples
    ///
    /// ```
    /// let map = elltree::Map::try_from_iter([(2, 20), (1, 10)])?;
    /// assert_eq!(map.pairs(), [(1, 10), (2, 20)]);
    /// # Ok::<(), elltree::MapError>(())
    /// ```
    #[must_use]
    pub fn pairs(&self) -> Vec<(u64, u64)> {
        let (mut out, mut count) = (Vec::new(), self.len());
        loop {
            out.resize(count + count / 8, Pair::ZERO); // others may add some before the moment comes
            // SAFETY: the array is as long as said.
            let code = unsafe { raw::elltree_map_pairs(self.raw(), out.as_mut_ptr(), out.len(), &mut count) };
            if code != NO_ROOM {
                return out[..count].iter().map(|&pair| pair.into()).collect();
            }
        }
    }

    /// Renews all sections now, one after the other: those that have more cards than their keys need give cards back, and those that have few, as
    /// they were only filled, get more.
    ///
    /// # Errors
    ///
    /// Returns [`MapError::NoMemory`] if memory is refused. Those of the least keys may be renewed then.
    pub fn renew(&self) -> MapResult<()> {
        map_answer(raw::elltree_map_renew(self.raw())).map(drop)
    }

    /// Returns what has happened to the map so far.
    ///
    /// # Examples
    ///
    /// ```
    /// let map = elltree::Map::new()?;
    /// for key in 0..10_000 {
    ///     map.insert(key, 0)?; // a section that has many keys is parted
    /// }
    /// assert!(map.counts().sections > 1 && map.counts().renewals > 0);
    /// assert!(map.counts().longest_pause <= map.counts().pauses);
    /// # Ok::<(), elltree::MapError>(())
    /// ```
    #[must_use]
    pub fn counts(&self) -> MapCounts {
        let mut counts = RawCounts::default();
        // SAFETY: the struct is as great as said.
        unsafe { raw::elltree_map_counts(self.raw(), &mut counts, size_of::<RawCounts>()) };
        MapCounts {
            sections: counts.sections,
            cards: counts.cards,
            renewals: counts.renewals,
            early_renewals: counts.early_renewals,
            renewal_time: Duration::from_nanos(counts.renewal_nanoseconds),
            pauses: Duration::from_nanos(counts.pause_nanoseconds),
            longest_pause: Duration::from_nanos(counts.longest_nanoseconds),
        }
    }
}

impl Drop for Map {
    fn drop(&mut self) {
        // SAFETY: nobody else has the map any more.
        unsafe { raw::elltree_map_free(self.0.as_ptr()) };
    }
}

/// Shows the pairs, as [`Map::iter`] returns them.
impl fmt::Debug for Map {
    fn fmt(&self, f: &mut fmt::Formatter<'_>) -> fmt::Result {
        f.debug_map().entries(self).finish()
    }
}

impl<'a> IntoIterator for &'a Map {
    type Item = (u64, u64);
    type IntoIter = MapRange<'a>;

    fn into_iter(self) -> MapRange<'a> {
        self.iter()
    }
}

impl Source for &Map {
    fn fill(&mut self, keys: ops::Range<u64>, out: &mut [Pair]) -> (usize, u64) {
        let (mut count, mut next) = (0, keys.end);
        // SAFETY: the array is as long as said.
        unsafe { raw::elltree_map_range(self.raw(), keys.start, keys.end, out.as_mut_ptr(), out.len(), &mut count, &mut next) };
        (count, next)
    }

    fn before(&mut self, key: u64) -> Option<(u64, u64)> {
        self.last_before(key)
    }
}
