//! Handles: one thread's way to a tree.
use std::cell::UnsafeCell;
use std::fmt;
use std::ops::RangeBounds;
use std::panic::RefUnwindSafe;

use crate::error::{OTHER_VALUE, Result, YES, answer};
use crate::range::{Range, Source};
use crate::raw::{self, Pair, Slot};

/// One thread's way to a [`Tree`](crate::Tree), made by [`Tree::handle`](crate::Tree::handle).
///
/// Any handle of a tree finds and changes any key. All finds and changes by all handles together answer as if they were made one after the other,
/// and none of them waits for another thread: a change that is in the way is helped to its end. A call that changes a key makes at most `tries`
/// tries, and returns [`Refused::Busy`](crate::Refused::Busy) if something was in the way of each.
///
/// A key above [`KEY_MAX`](crate::KEY_MAX) is absent to calls that read, and [`Refused::BadKey`](crate::Refused::BadKey) to calls that change keys.
///
/// A handle may go to another thread, and is used by one at a time:
///
/// ```compile_fail
/// fn shared<T: Sync>(_: &T) {}
/// let handle = elltree::Tree::open(&[], 10).unwrap().handle().unwrap();
/// shared(&handle);
/// ```
///
/// Each call writes to its handle, so a handle has cache lines of its own:
///
/// ```
/// assert_eq!((size_of::<elltree::Handle>(), align_of::<elltree::Handle>()), (128, 128));
/// ```
///
/// For the same reason a call on keys takes `&mut self`, also one that changes nothing. A closure that makes it then borrows the handle for itself
/// alone, and so may run on another thread, although a handle is not [`Sync`].
#[repr(align(128))]
pub struct Handle(UnsafeCell<Slot>);

// SAFETY: the library proves `Send` of what lies behind the pointer, and only one thread at a time has a handle, since it is not `Sync`.
unsafe impl Send for Handle {}

// What `&self` shows is whole whenever a call on the handle has ended.
impl RefUnwindSafe for Handle {}

impl Handle {
    /// Opens a tree, and returns its first handle.
    pub(crate) fn open(start: &[(u64, u64)], cards: u64) -> Result<Handle> {
        let (start, mut handle) = (Pair::all_of(start), Handle::empty());
        // SAFETY: the array is as long as said.
        answer(unsafe { raw::elltree_slot_open(handle.slot(), start.as_ptr(), start.len(), cards) })?;
        Ok(handle)
    }

    /// Opens a tree whose cards come back, for so many handles, and returns its first one.
    pub(crate) fn open_reusing(start: &[(u64, u64)], cards: u64, handles: u32) -> Result<Handle> {
        let (start, mut handle) = (Pair::all_of(start), Handle::empty());
        // SAFETY: the array is as long as said.
        answer(unsafe { raw::elltree_slot_open_reusing(handle.slot(), start.as_ptr(), start.len(), cards, handles) })?;
        Ok(handle)
    }

    /// Makes a further handle of the same tree.
    pub(crate) fn another(&mut self) -> Result<Handle> {
        let mut other = Handle::empty();
        answer(raw::elltree_slot_another(self.slot(), other.slot()))?;
        Ok(other)
    }

    // A handle that holds nothing yet.
    fn empty() -> Handle {
        Handle(UnsafeCell::new(Slot::EMPTY))
    }

    fn slot(&mut self) -> &mut Slot {
        self.0.get_mut()
    }

    // Returns the number that a function of the library tells of the handle itself.
    fn count(&self, call: impl FnOnce(&mut Slot, &mut u64) -> i32) -> u64 {
        let mut count = 0;
        // SAFETY: a handle is not `Sync`, so no other thread is in a call on it; this thread is in none, since no call of the library comes back to
        // the program.
        call(unsafe { &mut *self.0.get() }, &mut count);
        count
    }

    // Returns the value that a function of the library tells, if it says yes.
    fn told(&mut self, call: impl FnOnce(&mut Slot, &mut u64) -> i32) -> Result<Option<u64>> {
        let mut value = 0;
        let there = answer(call(self.slot(), &mut value))?;
        Ok(there.then_some(value))
    }

    // Returns the pair that a function of the library tells, if it says yes.
    fn pair(&mut self, call: impl FnOnce(&mut Slot, &mut u64, &mut u64) -> i32) -> Option<(u64, u64)> {
        let (mut key, mut value) = (0, 0);
        (call(self.slot(), &mut key, &mut value) == YES).then_some((key, value))
    }

    // Returns the current value if a function of the library has found it, and otherwise what is there.
    fn compared(&mut self, current: u64, call: impl FnOnce(&mut Slot, &mut u64) -> i32) -> Result<std::result::Result<u64, Option<u64>>> {
        let mut found = current;
        match call(self.slot(), &mut found) {
            OTHER_VALUE => Ok(Err(Some(found))),
            code => Ok(if answer(code)? { Ok(current) } else { Err(None) }),
        }
    }
}

/// Calls that read. None of them takes a card.
impl Handle {
    /// Returns the value of the key, if it is present.
    ///
    /// # Examples
    ///
    /// ```
    /// let mut handle = elltree::Tree::open(&[(2, 20)], 9)?.handle()?;
    /// assert_eq!((handle.find(2), handle.find(3), handle.find(u64::MAX)), (Some(20), None, None));
    /// # Ok::<(), elltree::Refused>(())
    /// ```
    pub fn find(&mut self, key: u64) -> Option<u64> {
        let mut value = 0;
        (raw::elltree_slot_find(self.slot(), key, &mut value) == YES).then_some(value)
    }

    /// Returns the value of the key, if it is present, as it was at one moment of the call. Unlike [`Handle::find`], it has no place in the one
    /// order in which finds and changes answer.
    ///
    /// # Examples
    ///
    /// ```
    /// let mut handle = elltree::Tree::open(&[(2, 20)], 9)?.handle()?;
    /// assert_eq!((handle.look(2), handle.look(3)), (Some(20), None));
    /// # Ok::<(), elltree::Refused>(())
    /// ```
    pub fn look(&mut self, key: u64) -> Option<u64> {
        let mut value = 0;
        (raw::elltree_slot_look(self.slot(), key, &mut value) == YES).then_some(value)
    }

    /// Returns an iterator over the pairs of a range of keys, in ascending order, from both ends. The handle is borrowed meanwhile, and other handles
    /// go on.
    ///
    /// It is no snapshot, but each key is as it was at one moment since the iterator was made: a key that was present all along is among the
    /// pairs, one that was absent all along is not, and each pair was there.
    ///
    /// A range that ends before it begins has no keys, while [`BTreeMap::range`](std::collections::BTreeMap::range) panics on it.
    ///
    /// # Examples
    ///
    /// ```
    /// let mut handle = elltree::Tree::open(&[(1, 10), (2, 20), (3, 30), (5, 50)], 9)?.handle()?;
    /// assert_eq!(handle.range(2..5).collect::<Vec<_>>(), [(2, 20), (3, 30)]);
    /// assert_eq!(handle.range(..=2).rev().collect::<Vec<_>>(), [(2, 20), (1, 10)]);
    /// assert_eq!(handle.range(4..2).next(), None);
    /// # Ok::<(), elltree::Refused>(())
    /// ```
    pub fn range(&mut self, range: impl RangeBounds<u64>) -> Range<'_> {
        Range::new(self, range)
    }

    /// Returns the least key from `key` on that is present, with its value. It was present at one moment of the call, and each key before it was
    /// absent at one.
    ///
    /// # Examples
    ///
    /// ```
    /// let mut handle = elltree::Tree::open(&[(2, 20), (4, 40)], 9)?.handle()?;
    /// assert_eq!((handle.next_at_least(2), handle.next_at_least(3), handle.next_at_least(5)), (Some((2, 20)), Some((4, 40)), None));
    /// # Ok::<(), elltree::Refused>(())
    /// ```
    pub fn next_at_least(&mut self, key: u64) -> Option<(u64, u64)> {
        self.pair(|slot, found, value| raw::elltree_slot_next_at_least(slot, key, found, value))
    }

    /// Returns the greatest key up to `key` that is present, with its value. It was present at one moment of the call, and each key after it was
    /// absent at one.
    ///
    /// # Examples
    ///
    /// ```
    /// let mut handle = elltree::Tree::open(&[(2, 20), (4, 40)], 9)?.handle()?;
    /// assert_eq!((handle.last_at_most(1), handle.last_at_most(3), handle.last_at_most(4)), (None, Some((2, 20)), Some((4, 40))));
    /// # Ok::<(), elltree::Refused>(())
    /// ```
    pub fn last_at_most(&mut self, key: u64) -> Option<(u64, u64)> {
        self.pair(|slot, found, value| raw::elltree_slot_last_at_most(slot, key, found, value))
    }

    /// Returns how many cards of the tree had not been given out at one moment of the call. Other handles may take some meanwhile. The call takes one
    /// step and no card.
    ///
    /// In a tree whose cards come back, it returns no number of cards, but how many card numbers are left, of 2,305,843,009,213,693,951. Each change
    /// uses some.
    ///
    /// # Examples
    ///
    /// ```
    /// let tree = elltree::Tree::open(&[(2, 20)], 10)?;
    /// let (mut one, mut other) = (tree.handle()?, tree.handle()?);
    /// assert_eq!((one.delete(2, 9)?, other.insert(1, 10, 9)?, one.insert(1, 11, 9)?), (true, true, false));
    /// assert_eq!((one.cards_left(), other.cards_left()), (8, 8));
    /// # Ok::<(), elltree::Refused>(())
    /// ```
    pub fn cards_left(&self) -> u64 {
        self.count(|slot, left| raw::elltree_slot_cards_left(slot, left))
    }

    /// Returns how many atomic steps were made through the handle. A new handle begins with one for each handle that its tree has made.
    /// In a tree whose cards come back, the steps that keep account of which cards are free are not counted.
    ///
    /// # Examples
    ///
    /// ```
    /// let mut handle = elltree::Tree::open(&[(2, 20)], 10)?.handle()?;
    /// let before = handle.steps();
    /// handle.look(2);
    /// assert!(handle.steps() > before);
    /// # Ok::<(), elltree::Refused>(())
    /// ```
    pub fn steps(&self) -> u64 {
        self.count(|slot, steps| raw::elltree_slot_steps(slot, steps))
    }
}

/// Calls that change keys, each in one atomic step.
impl Handle {
    /// Adds a key with its value, and returns whether it was absent. A key that is present keeps its value.
    ///
    /// # Errors
    ///
    /// Returns [`Refused::NoTries`] if `tries` is 0, else [`Refused::BadKey`] if the key is above [`KEY_MAX`](crate::KEY_MAX), [`Refused::Busy`] if
    /// something was in the way of each try, and [`Refused::Spent`] if the change needs a card and gets none.
    ///
    /// [`Refused::NoTries`]: crate::Refused::NoTries
    /// [`Refused::BadKey`]: crate::Refused::BadKey
    /// [`Refused::Busy`]: crate::Refused::Busy
    /// [`Refused::Spent`]: crate::Refused::Spent
    ///
    /// # Examples
    ///
    /// ```
    /// use elltree::{Refused, Tree};
    /// let mut handle = Tree::open(&[], 10)?.handle()?;
    /// assert_eq!((handle.insert(1, 10, 9)?, handle.insert(1, 11, 9)?, handle.find(1)), (true, false, Some(10)));
    /// assert_eq!((handle.insert(1, 10, 0), handle.insert(u64::MAX, 10, 9)), (Err(Refused::NoTries), Err(Refused::BadKey)));
    /// # Ok::<(), Refused>(())
    /// ```
    pub fn insert(&mut self, key: u64, value: u64, tries: u32) -> Result<bool> {
        answer(raw::elltree_slot_insert(self.slot(), key, value, tries))
    }

    /// Stores the value of a key, present or not. Returns the value that it had, or `None` if it was absent and has been added. A try also fails if
    /// another thread has changed the key since it was read.
    ///
    /// # Errors
    ///
    /// Returns what [`Handle::insert`] returns.
    ///
    /// # Examples
    ///
    /// ```
    /// let mut handle = elltree::Tree::open(&[(1, 10)], 9)?.handle()?;
    /// assert_eq!((handle.put(1, 11, 9)?, handle.put(2, 20, 9)?), (Some(10), None));
    /// assert_eq!((handle.find(1), handle.find(2)), (Some(11), Some(20)));
    /// # Ok::<(), elltree::Refused>(())
    /// ```
    pub fn put(&mut self, key: u64, value: u64, tries: u32) -> Result<Option<u64>> {
        self.told(|slot, was| raw::elltree_slot_put(slot, key, value, tries, was))
    }

    /// Removes a key, and returns whether it was present.
    ///
    /// # Errors
    ///
    /// Returns what [`Handle::insert`] returns.
    ///
    /// # Examples
    ///
    /// ```
    /// let mut handle = elltree::Tree::open(&[(2, 20)], 9)?.handle()?;
    /// assert_eq!((handle.delete(2, 9)?, handle.delete(2, 9)?), (true, false));
    /// # Ok::<(), elltree::Refused>(())
    /// ```
    pub fn delete(&mut self, key: u64, tries: u32) -> Result<bool> {
        answer(raw::elltree_slot_delete(self.slot(), key, tries))
    }

    /// Removes a key, and returns the value that it had, or `None` if it was absent. No other call returns that value as removed.
    ///
    /// # Errors
    ///
    /// Returns what [`Handle::insert`] returns.
    ///
    /// # Examples
    ///
    /// ```
    /// let mut handle = elltree::Tree::open(&[(2, 20)], 9)?.handle()?;
    /// assert_eq!((handle.take(2, 9)?, handle.take(2, 9)?), (Some(20), None));
    /// # Ok::<(), elltree::Refused>(())
    /// ```
    pub fn take(&mut self, key: u64, tries: u32) -> Result<Option<u64>> {
        self.told(|slot, taken| raw::elltree_slot_take(slot, key, tries, taken))
    }

    /// Stores `new` as the value of a key if its value is `current`. Returns `Ok(current)` if it did, and otherwise what is there: `Err(Some(value))`
    /// if the key has another value, and `Err(None)` if it is absent.
    ///
    /// # Errors
    ///
    /// The outer result has the errors of [`Handle::insert`].
    ///
    /// # Examples
    ///
    /// ```
    /// let mut handle = elltree::Tree::open(&[(1, 10)], 9)?.handle()?;
    /// assert_eq!(handle.compare_exchange(1, 10, 11, 9)?, Ok(10));
    /// assert_eq!(handle.compare_exchange(1, 10, 12, 9)?, Err(Some(11)));
    /// assert_eq!(handle.compare_exchange(2, 10, 12, 9)?, Err(None));
    /// # Ok::<(), elltree::Refused>(())
    /// ```
    pub fn compare_exchange(&mut self, key: u64, current: u64, new: u64, tries: u32) -> Result<std::result::Result<u64, Option<u64>>> {
        self.compared(current, |slot, found| raw::elltree_slot_compare_exchange(slot, key, current, new, tries, found))
    }

    /// Removes a key if its value is `current`. Returns `Ok(current)` if it did, and otherwise what is there, as [`Handle::compare_exchange`] does.
    /// So no value is removed that another thread has stored since this one read `current`.
    ///
    /// # Errors
    ///
    /// The outer result has the errors of [`Handle::insert`].
    ///
    /// # Examples
    ///
    /// ```
    /// let mut handle = elltree::Tree::open(&[(1, 10)], 9)?.handle()?;
    /// assert_eq!(handle.remove_if(1, 9, 9)?, Err(Some(10)));
    /// assert_eq!((handle.remove_if(1, 10, 9)?, handle.remove_if(1, 10, 9)?), (Ok(10), Err(None)));
    /// # Ok::<(), elltree::Refused>(())
    /// ```
    pub fn remove_if(&mut self, key: u64, current: u64, tries: u32) -> Result<std::result::Result<u64, Option<u64>>> {
        self.compared(current, |slot, found| raw::elltree_slot_remove_if(slot, key, current, tries, found))
    }

    /// Adds to the value of a key. Returns the value that it had, or `None` if the key is absent, and then it stays absent. A sum above `u64::MAX`
    /// wraps around.
    ///
    /// # Errors
    ///
    /// Returns what [`Handle::insert`] returns.
    ///
    /// # Examples
    ///
    /// ```
    /// let mut handle = elltree::Tree::open(&[(1, 10)], 9)?.handle()?;
    /// assert_eq!((handle.fetch_add(1, 5, 9)?, handle.fetch_add(1, u64::MAX, 9)?, handle.fetch_add(2, 5, 9)?), (Some(10), Some(15), None));
    /// assert_eq!(handle.find(1), Some(14));
    /// # Ok::<(), elltree::Refused>(())
    /// ```
    pub fn fetch_add(&mut self, key: u64, addend: u64, tries: u32) -> Result<Option<u64>> {
        self.told(|slot, was| raw::elltree_slot_fetch_add(slot, key, addend, tries, was))
    }
}

impl Drop for Handle {
    fn drop(&mut self) {
        raw::elltree_slot_free(self.slot()); // if the slot holds nothing, nothing happens
    }
}

/// Shows what [`Handle::cards_left`] returns, and the handle's steps, to which this adds one.
///
/// ```
/// let handle = elltree::Tree::open(&[(2, 20)], 10)?.handle()?;
/// assert!(format!("{handle:?}").starts_with("Handle { cards_left: 10, steps: "));
/// # Ok::<(), elltree::Refused>(())
/// ```
impl fmt::Debug for Handle {
    fn fmt(&self, f: &mut fmt::Formatter<'_>) -> fmt::Result {
        f.debug_struct("Handle").field("cards_left", &self.cards_left()).field("steps", &self.steps()).finish()
    }
}

impl Source for &mut Handle {
    fn fill(&mut self, keys: std::ops::Range<u64>, out: &mut [Pair]) -> (usize, u64) {
        let (mut count, mut next) = (0, keys.end);
        // SAFETY: the array is as long as said.
        unsafe { raw::elltree_slot_range(self.slot(), keys.start, keys.end, out.as_mut_ptr(), out.len(), &mut count, &mut next) };
        (count, next)
    }

    fn before(&mut self, key: u64) -> Option<(u64, u64)> {
        self.last_at_most(key.checked_sub(1)?)
    }
}
