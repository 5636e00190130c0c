//! A map whose keys and values have types of their own, and are `u64` underneath.
use std::fmt;
use std::iter::FusedIterator;
use std::marker::PhantomData;
use std::num::NonZeroU64;
use std::ops::RangeBounds;

use crate::error::MapResult;
use crate::map::{Map, MapCounts, MapSettings};
use crate::range::MapRange;

/// A type of keys of a [`TypedMap`]. Each key has a number, in the order of the keys.
///
/// These types have it: the integers up to 64 bits, signed ones by their value, with the sign bit flipped; pairs of `u32`, of which the first one
/// goes first; [`NonZeroU64`]; `bool`; and `()`.
///
/// A map has no keys above [`KEY_MAX`](crate::KEY_MAX), which is `u64::MAX - 2`. So the two greatest `u64`, `i64`, `usize`, `isize`, `NonZeroU64` and
/// pairs are absent to calls that read, and [`MapError::BadKey`](crate::MapError::BadKey) to calls that change keys. The smaller types have no such
/// keys.
///
/// A type of your own can be a key too:
///
/// ```
/// use elltree::{Key, TypedMap};
///
/// #[derive(Clone, Copy, Debug, PartialEq, Eq, PartialOrd, Ord)]
/// struct Deadline {
///     second: u32,
///     timer: u16,
/// }
///
/// impl Key for Deadline {
///     fn into_key(self) -> u64 {
///         u64::from(self.second) << 16 | u64::from(self.timer)
///     }
///     fn from_key(key: u64) -> Deadline {
///         Deadline { second: (key >> 16) as u32, timer: key as u16 }
///     }
/// }
///
/// let timers = TypedMap::<Deadline, ()>::new()?;
/// timers.insert(Deadline { second: 20, timer: 1 }, ())?;
/// timers.insert(Deadline { second: 10, timer: 2 }, ())?;
/// assert_eq!(timers.pop_first()?, Some((Deadline { second: 10, timer: 2 }, ())));
/// # Ok::<(), elltree::MapError>(())
/// ```
pub trait Key: Copy + Ord {
    /// Returns the number of the key. Of two keys the greater one must have the greater number, or else the map does not find the keys.
    fn into_key(self) -> u64;

    /// Returns the key of a number that [`Key::into_key`] has returned.
    fn from_key(key: u64) -> Self;
}

/// A type of values of a [`TypedMap`]. Each value has a number of its own.
///
/// These types have it: the integers up to 64 bits, of which signed ones keep their bits; pairs of `u32`; [`NonZeroU64`]; `bool`; and `()`.
pub trait Value: Copy {
    /// Returns the number of the value. Different values must have different numbers, since [`TypedMap::compare_exchange`] compares these.
    fn into_value(self) -> u64;

    /// Returns the value of a number that [`Value::into_value`] has returned.
    fn from_value(value: u64) -> Self;
}

macro_rules! unsigned {
    ($($type:ty)*) => {$(
        impl Key for $type {
            fn into_key(self) -> u64 {
                self as u64
            }
            fn from_key(key: u64) -> $type {
                key as $type
            }
        }

        impl Value for $type {
            fn into_value(self) -> u64 {
                self as u64
            }
            fn from_value(value: u64) -> $type {
                value as $type
            }
        }
    )*};
}

macro_rules! signed {
    ($($type:ty, $unsigned:ty;)*) => {$(
        impl Key for $type {
            // The least key has the number 0.
            fn into_key(self) -> u64 {
                (self ^ <$type>::MIN) as $unsigned as u64
            }
            fn from_key(key: u64) -> $type {
                key as $type ^ <$type>::MIN
            }
        }

        impl Value for $type {
            fn into_value(self) -> u64 {
                self as u64
            }
            fn from_value(value: u64) -> $type {
                value as $type
            }
        }
    )*};
}

unsigned! { u8 u16 u32 u64 usize }
signed! { i8, u8; i16, u16; i32, u32; i64, u64; isize, usize; }

// The types whose numbers are the same as keys and as values.
macro_rules! other {
    ($($type:ty, $number_of:expr, $of_number:expr;)*) => {$(
        impl Key for $type {
            fn into_key(self) -> u64 {
                $number_of(self)
            }
            fn from_key(key: u64) -> $type {
                $of_number(key)
            }
        }

        impl Value for $type {
            fn into_value(self) -> u64 {
                $number_of(self)
            }
            fn from_value(value: u64) -> $type {
                $of_number(value)
            }
        }
    )*};
}

other! {
    (u32, u32), |pair: (u32, u32)| u64::from(pair.0) << 32 | u64::from(pair.1), |number: u64| ((number >> 32) as u32, number as u32);
    NonZeroU64, NonZeroU64::get, |number| NonZeroU64::new(number).expect("a number that is not 0");
    bool, u64::from, |number| number != 0;
    (), |()| 0, |_| ();
}

/// A [`Map`] whose keys and values have types of their own, and are `u64` underneath: see [`Key`] and [`Value`]. Ranges go over the keys in the order
/// of their type.
///
/// Its calls are those of [`Map`], which says more about each, and cost the same; for `put` and `delete` write `insert` and `remove`.
///
/// ```
/// use elltree::TypedMap;
/// let bids = TypedMap::<i64, u32>::try_from_iter([(-5, 50), (7, 70), (-20, 200)])?;
/// assert_eq!(bids.range(-10..).collect::<Vec<_>>(), [(-5, 50), (7, 70)]);
/// assert_eq!((bids.pop_first()?, bids.insert(7, 71)?), (Some((-20, 200)), Some(70)));
///
/// let seen = TypedMap::<(u32, u32), bool>::new()?;
/// assert_eq!(seen.get_or_insert((1, 2), true)?, (true, true));
/// assert_eq!(seen.next_after((1, 1)), Some(((1, 2), true)));
/// # Ok::<(), elltree::MapError>(())
/// ```
pub struct TypedMap<K, V> {
    map: Map,
    types: PhantomData<(K, V)>,
}

impl<K: Key, V: Value> TypedMap<K, V> {
    /// Makes an empty map.
    ///
    /// # Errors
    ///
    /// Returns [`MapError::NoMemory`](crate::MapError::NoMemory) if memory is refused.
    pub fn new() -> MapResult<TypedMap<K, V>> {
        Map::new().map(TypedMap::of_map)
    }

    /// Makes a map of pairs whose keys ascend strictly.
    ///
    /// # Errors
    ///
    /// Returns what [`Map::from_sorted`] returns.
    pub fn from_sorted(pairs: &[(K, V)], settings: MapSettings) -> MapResult<TypedMap<K, V>> {
        let numbers: Vec<(u64, u64)> = pairs.iter().map(|&pair| numbers_of(pair)).collect();
        Map::from_sorted(&numbers, settings).map(TypedMap::of_map)
    }

    /// Makes a map of pairs in any order. If a key comes more than once, the map has its last value.
    ///
    /// # Errors
    ///
    /// Returns what [`Map::try_from_iter`] returns.
    pub fn try_from_iter(pairs: impl IntoIterator<Item = (K, V)>) -> MapResult<TypedMap<K, V>> {
        Map::try_from_iter(pairs.into_iter().map(numbers_of)).map(TypedMap::of_map)
    }

    fn of_map(map: Map) -> TypedMap<K, V> {
        TypedMap { map, types: PhantomData }
    }

    /// Returns the value of the key, if it is present.
    #[must_use]
    pub fn get(&self, key: K) -> Option<V> {
        self.map.get(key.into_key()).map(V::from_value)
    }

    /// Returns whether the key is present.
    #[must_use]
    pub fn contains_key(&self, key: K) -> bool {
        self.map.contains_key(key.into_key())
    }

    /// Stores the value of a key, present or not. Returns the value that it had, or `None` if it was absent, as [`Map::insert`] does.
    ///
    /// # Errors
    ///
    /// Returns what [`Map::insert`] returns.
    pub fn insert(&self, key: K, value: V) -> MapResult<Option<V>> {
        Ok(self.map.insert(key.into_key(), value.into_value())?.map(V::from_value))
    }

    /// Adds a key that is absent, and returns whether it was. A key that is present keeps its value, as by [`Map::try_insert`].
    ///
    /// # Errors
    ///
    /// Returns what [`Map::try_insert`] returns.
    pub fn try_insert(&self, key: K, value: V) -> MapResult<bool> {
        self.map.try_insert(key.into_key(), value.into_value())
    }

    /// Adds a key if it is absent. Returns the value that the key has then, and whether it was added, as [`Map::get_or_insert`] does.
    ///
    /// # Errors
    ///
    /// Returns what [`Map::get_or_insert`] returns.
    pub fn get_or_insert(&self, key: K, value: V) -> MapResult<(V, bool)> {
        let (there, is_added) = self.map.get_or_insert(key.into_key(), value.into_value())?;
        Ok((V::from_value(there), is_added))
    }

    /// Removes a key, and returns the value that it had, or `None` if it was absent, as [`Map::remove`] does.
    ///
    /// # Errors
    ///
    /// Returns what [`Map::remove`] returns.
    pub fn remove(&self, key: K) -> MapResult<Option<V>> {
        Ok(self.map.remove(key.into_key())?.map(V::from_value))
    }

    /// Removes a key if its value is `current`, as [`Map::remove_if`] does.
    ///
    /// # Errors
    ///
    /// Returns what [`Map::remove_if`] returns.
    pub fn remove_if(&self, key: K, current: V) -> MapResult<Result<V, Option<V>>> {
        let said = self.map.remove_if(key.into_key(), current.into_value())?;
        Ok(said.map(V::from_value).map_err(|there| there.map(V::from_value)))
    }

    /// Stores `new` as the value of a key if its value is `current`, as [`Map::compare_exchange`] does.
    ///
    /// # Errors
    ///
    /// Returns what [`Map::compare_exchange`] returns.
    pub fn compare_exchange(&self, key: K, current: V, new: V) -> MapResult<Result<V, Option<V>>> {
        let said = self.map.compare_exchange(key.into_key(), current.into_value(), new.into_value())?;
        Ok(said.map(V::from_value).map_err(|there| there.map(V::from_value)))
    }

    /// Stores what `f` makes of the value of a key. Returns the value that it had, or `None` if the key is absent, as [`Map::update`] does.
    ///
    /// # Errors
    ///
    /// Returns what [`Map::update`] returns.
    ///
    /// # Panics
    ///
    /// Panics if `f` does. The key then keeps its value, and the map goes on.
    pub fn update<F: FnMut(V) -> V>(&self, key: K, mut f: F) -> MapResult<Option<V>> {
        Ok(self.map.update(key.into_key(), |value| f(V::from_value(value)).into_value())?.map(V::from_value))
    }

    /// Returns an iterator over the pairs of a range of keys, in ascending order, from both ends, as [`Map::range`] does.
    #[must_use]
    pub fn range(&self, range: impl RangeBounds<K>) -> TypedRange<'_, K, V> {
        let bounds = (range.start_bound().map(|key| key.into_key()), range.end_bound().map(|key| key.into_key()));
        TypedRange { pairs: self.map.range(bounds), types: PhantomData }
    }

    /// Returns an iterator over all pairs, as [`TypedMap::range`] does.
    #[must_use]
    pub fn iter(&self) -> TypedRange<'_, K, V> {
        self.range(..)
    }

    /// Returns the least key from `key` on that is present, with its value, as [`Map::next_at_least`] does.
    #[must_use]
    pub fn next_at_least(&self, key: K) -> Option<(K, V)> {
        self.map.next_at_least(key.into_key()).map(pair_of)
    }

    /// Returns the least key above `key` that is present, with its value, as [`Map::next_after`] does.
    #[must_use]
    pub fn next_after(&self, key: K) -> Option<(K, V)> {
        self.map.next_after(key.into_key()).map(pair_of)
    }

    /// Returns the greatest key up to `key` that is present, with its value, as [`Map::last_at_most`] does.
    #[must_use]
    pub fn last_at_most(&self, key: K) -> Option<(K, V)> {
        self.map.last_at_most(key.into_key()).map(pair_of)
    }

    /// Returns the greatest key below `key` that is present, with its value, as [`Map::last_before`] does.
    #[must_use]
    pub fn last_before(&self, key: K) -> Option<(K, V)> {
        self.map.last_before(key.into_key()).map(pair_of)
    }

    /// Returns the least key that is present, with its value, as [`Map::first_key_value`] does.
    #[must_use]
    pub fn first_key_value(&self) -> Option<(K, V)> {
        self.map.first_key_value().map(pair_of)
    }

    /// Returns the greatest key that is present, with its value, as [`Map::last_key_value`] does.
    #[must_use]
    pub fn last_key_value(&self) -> Option<(K, V)> {
        self.map.last_key_value().map(pair_of)
    }

    /// Removes the least key, and returns it with its value, as [`Map::pop_first`] does.
    ///
    /// # Errors
    ///
    /// Returns what [`Map::pop_first`] returns.
    pub fn pop_first(&self) -> MapResult<Option<(K, V)>> {
        Ok(self.map.pop_first()?.map(pair_of))
    }

    /// Removes the greatest key, and returns it with its value, as [`Map::pop_last`] does.
    ///
    /// # Errors
    ///
    /// Returns what [`Map::pop_last`] returns.
    pub fn pop_last(&self) -> MapResult<Option<(K, V)>> {
        Ok(self.map.pop_last()?.map(pair_of))
    }

    /// Inserts pairs in any order, one after the other, as [`Map::extend`] does.
    ///
    /// # Errors
    ///
    /// Returns what [`Map::extend`] returns.
    pub fn extend(&self, pairs: impl IntoIterator<Item = (K, V)>) -> MapResult<()> {
        self.map.extend(pairs.into_iter().map(numbers_of))
    }

    /// Removes all keys, one after the other, as [`Map::clear`] does.
    ///
    /// # Errors
    ///
    /// Returns what [`Map::clear`] returns.
    pub fn clear(&self) -> MapResult<()> {
        self.map.clear()
    }

    /// Removes each pair for which `f` returns `false`, as [`Map::retain`] does.
    ///
    /// # Errors
    ///
    /// Returns what [`Map::retain`] returns.
    ///
    /// # Panics
    ///
    /// Panics if `f` does. The map goes on, without the pairs that were removed.
    pub fn retain<F: FnMut(K, V) -> bool>(&self, mut f: F) -> MapResult<()> {
        self.map.retain(|key, value| f(K::from_key(key), V::from_value(value)))
    }

    /// Returns all pairs, in ascending order, as they are at one moment: a snapshot, as [`Map::pairs`] returns. Calls that change keys wait
    /// meanwhile.
    #[must_use]
    pub fn pairs(&self) -> Vec<(K, V)> {
        self.map.pairs().into_iter().map(pair_of).collect()
    }
}

impl<K, V> TypedMap<K, V> {
    /// Returns how many keys are present, as [`Map::len`] does.
    #[must_use]
    pub fn len(&self) -> usize {
        self.map.len()
    }

    /// Returns whether no key is present, as [`Map::is_empty`] does.
    #[must_use]
    pub fn is_empty(&self) -> bool {
        self.map.is_empty()
    }

    /// Renews all sections now, as [`Map::renew`] does.
    ///
    /// # Errors
    ///
    /// Returns what [`Map::renew`] returns.
    pub fn renew(&self) -> MapResult<()> {
        self.map.renew()
    }

    /// Returns what has happened to the map so far, as [`Map::counts`] does.
    #[must_use]
    pub fn counts(&self) -> MapCounts {
        self.map.counts()
    }
}

macro_rules! adding {
    ($($type:ty)*) => {$(
        impl<K: Key> TypedMap<K, $type> {
            /// Adds to the value of a key. Returns the value that it had, or `None` if the key is absent, as [`Map::fetch_add`] does. The sum
            /// wraps around.
            ///
            /// # Errors
            ///
            /// Returns what [`Map::fetch_add`] returns.
            pub fn fetch_add(&self, key: K, addend: $type) -> MapResult<Option<$type>> {
                Ok(self.map.fetch_add(key.into_key(), addend.into_value())?.map(<$type>::from_value))
            }
        }
    )*};
}

// The sum of smaller numbers may be one that is none of their type.
adding! { u64 i64 }

impl<K: Key + fmt::Debug, V: Value + fmt::Debug> fmt::Debug for TypedMap<K, V> {
    fn fmt(&self, f: &mut fmt::Formatter<'_>) -> fmt::Result {
        f.debug_map().entries(self).finish()
    }
}

impl<'a, K: Key, V: Value> IntoIterator for &'a TypedMap<K, V> {
    type Item = (K, V);
    type IntoIter = TypedRange<'a, K, V>;

    fn into_iter(self) -> TypedRange<'a, K, V> {
        self.iter()
    }
}

/// An iterator over the pairs of a range of keys of a [`TypedMap`], from both ends: it is made by [`TypedMap::range`].
pub struct TypedRange<'a, K, V> {
    pairs: MapRange<'a>,
    types: PhantomData<(K, V)>,
}

impl<K: Key, V: Value> Iterator for TypedRange<'_, K, V> {
    type Item = (K, V);

    fn next(&mut self) -> Option<(K, V)> {
        self.pairs.next().map(pair_of)
    }
}

impl<K: Key, V: Value> DoubleEndedIterator for TypedRange<'_, K, V> {
    fn next_back(&mut self) -> Option<(K, V)> {
        self.pairs.next_back().map(pair_of)
    }
}

impl<K: Key, V: Value> FusedIterator for TypedRange<'_, K, V> {}

/// Shows the numbers of the pairs that wait, and of the keys behind them.
impl<K, V> fmt::Debug for TypedRange<'_, K, V> {
    fn fmt(&self, f: &mut fmt::Formatter<'_>) -> fmt::Result {
        f.debug_tuple("TypedRange").field(&self.pairs).finish()
    }
}

fn numbers_of<K: Key, V: Value>((key, value): (K, V)) -> (u64, u64) {
    (key.into_key(), value.into_value())
}

fn pair_of<K: Key, V: Value>((key, value): (u64, u64)) -> (K, V) {
    (K::from_key(key), V::from_value(value))
}
