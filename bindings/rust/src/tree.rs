//! Trees, of which handles are made.
use std::fmt;
use std::sync::{Mutex, PoisonError};

use crate::error::Result;
use crate::handle::Handle;

/// A tree with a fixed number of cards, of which threads have [`Handle`]s: for a program that counts its cards itself. A [`Map`](crate::Map) has no
/// cards to count.
///
/// All handles of a tree find and change the same keys, and none of them ever waits for another. Each change takes a card, and so may a try that
/// another thread hinders. No card is given back, and [`Handle::cards_left`] returns how many are left; in a tree that
/// [`open_reusing`](Tree::open_reusing) makes, cards come back.
///
/// Threads may share a tree, and make handles at any time. The tree ends when it and all its handles are dropped, in any order.
///
/// # Examples
///
/// ```
/// let tree = elltree::Tree::open(&[(2, 20)], 1_000)?; // pairs to start with, cards
/// std::thread::scope(|threads| {
///     for value in [30, 31] {
///         let tree = &tree;
///         threads.spawn(move || {
///             let mut handle = tree.handle().unwrap();
///             handle.insert(3, value, 1_000).unwrap(); // in at most 1,000 tries: one of the two adds the key
///         });
///     }
/// });
/// assert!(matches!(tree.handle()?.find(3), Some(30 | 31)));
/// # Ok::<(), elltree::Refused>(())
/// ```
///
/// A tree whose cards are used up goes on as a new one, with the pairs of the old one:
///
/// ```
/// use elltree::{Refused, Tree};
/// let mut handle = Tree::open(&[(2, 20)], 1)?.handle()?;
/// handle.insert(3, 30, 9)?;
/// assert_eq!(handle.insert(4, 40, 9), Err(Refused::Spent));
/// let pairs: Vec<_> = handle.range(..).collect(); // while no handle changes keys
/// let mut handle = Tree::open(&pairs, 1_000)?.handle()?;
/// assert_eq!((handle.insert(4, 40, 9)?, handle.range(..).count()), (true, 3));
/// # Ok::<(), Refused>(())
/// ```
///
/// ```
/// fn shared<T: Send + Sync>(_: &T) {}
/// shared(&elltree::Tree::open(&[], 9).unwrap());
/// ```
pub struct Tree(Mutex<Handle>);

impl Tree {
    /// Opens a tree with these pairs, whose keys ascend strictly, and with so many cards.
    ///
    /// # Errors
    ///
    /// Returns [`Refused::BadStart`] if the keys do not ascend strictly or are more than [`START_MAX`], else [`Refused::BadKey`] if one is above
    /// [`KEY_MAX`], else [`Refused::BadCards`] if the cards are not 1 to [`CARDS_MAX`], and [`Refused::NoMemory`] if memory is refused.
    ///
    /// [`Refused::BadStart`]: crate::Refused::BadStart
    /// [`Refused::BadKey`]: crate::Refused::BadKey
    /// [`Refused::BadCards`]: crate::Refused::BadCards
    /// [`Refused::NoMemory`]: crate::Refused::NoMemory
    /// [`START_MAX`]: crate::START_MAX
    /// [`KEY_MAX`]: crate::KEY_MAX
    /// [`CARDS_MAX`]: crate::CARDS_MAX
    ///
    /// # Examples
    ///
    /// ```
    /// use elltree::{Refused, Tree};
    /// assert_eq!(Tree::open(&[(2, 0), (1, 0)], 1).err(), Some(Refused::BadStart));
    /// assert_eq!(Tree::open(&[(u64::MAX, 0)], 1).err(), Some(Refused::BadKey));
    /// assert_eq!(Tree::open(&[], 0).err(), Some(Refused::BadCards));
    /// ```
    pub fn open(start: &[(u64, u64)], cards: u64) -> Result<Tree> {
        Handle::open(start, cards).map(|first| Tree(Mutex::new(first)))
    }

    /// Opens a tree whose cards come back while it is open, for so many handles at a time, up to 999,999. Once what a change took out of the tree is
    /// read by no call any more, its card serves another change. For n keys at a time and h handles, ask for 2 n + 3 h + 8 cards, and some more for
    /// those that come free while the oldest call goes on, and shortly before it.
    ///
    /// A thread that stands still in a call holds cards back until it goes on. A change that can take no card returns
    /// [`Refused::Spent`](crate::Refused::Spent), and may be made again. A handle that is dropped makes room for another.
    ///
    /// # Errors
    ///
    /// Returns what [`open`](Tree::open) does.
    ///
    /// # Examples
    ///
    /// ```
    /// use elltree::{Refused, Tree};
    /// let tree = Tree::open_reusing(&[(2, 20)], 100, 1)?; // pairs to start with, cards, handles
    /// let mut handle = tree.handle()?;
    /// for value in 0..10_000 {
    ///     assert!(handle.insert(3, value, 1_000)? && handle.delete(3, 1_000)?);
    /// }
    /// assert_eq!(tree.handle().err(), Some(Refused::TooManyHandles));
    /// drop(handle); // which makes room for another
    /// assert_eq!(tree.handle()?.find(2), Some(20));
    /// # Ok::<(), Refused>(())
    /// ```
    pub fn open_reusing(start: &[(u64, u64)], cards: u64, handles: u32) -> Result<Tree> {
        Handle::open_reusing(start, cards, handles.saturating_add(1)).map(|first| Tree(Mutex::new(first)))
    }

    /// Makes a handle, for one thread. Threads that make handles at the same moment wait for one another, while no call on a handle waits.
    ///
    /// A tree makes more than 1,300,000 handles, also counting those that were dropped.
    ///
    /// # Errors
    ///
    /// Returns [`Refused::TooManyHandles`](crate::Refused::TooManyHandles) if the tree has made so many, or has as many as it was opened for,
    /// and [`Refused::NoMemory`](crate::Refused::NoMemory) if memory is refused.
    pub fn handle(&self) -> Result<Handle> {
        // A handle is whole whenever a call on it has ended, even if that was by a panic.
        self.0.lock().unwrap_or_else(PoisonError::into_inner).another()
    }
}

impl fmt::Debug for Tree {
    fn fmt(&self, f: &mut fmt::Formatter<'_>) -> fmt::Result {
        f.debug_struct("Tree").finish_non_exhaustive()
    }
}
