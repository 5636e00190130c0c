//! An ordered map from `u64` to `u64` for many threads, over `libelltree.a`.
//!
//! [`Map`] is one object that any thread uses at any time:
//!
//! ```
//! let map = elltree::Map::new()?;
//! std::thread::scope(|threads| {
//!     for _ in 0..4 {
//!         threads.spawn(|| {
//!             map.try_insert(7, 0).unwrap(); // one of the four adds the key
//!             map.fetch_add(7, 1).unwrap(); // and all of them count
//!         });
//!     }
//! });
//! assert_eq!(map.remove(7)?, Some(4));
//! assert!(map.is_empty());
//! # Ok::<(), elltree::MapError>(())
//! ```
//!
//! It goes over the keys of a range, from either end, while other threads go on:
//!
//! ```
//! let map = elltree::Map::try_from_iter([(2, 20), (4, 40), (6, 60)])?;
//! assert_eq!(map.range(3..).collect::<Vec<_>>(), [(4, 40), (6, 60)]);
//! assert_eq!(map.range(..=4).rev().collect::<Vec<_>>(), [(4, 40), (2, 20)]);
//! assert_eq!((map.next_after(4), map.last_before(2)), (Some((6, 60)), None));
//! # Ok::<(), elltree::MapError>(())
//! ```
//!
//! [`TypedMap`] has keys and values of other types that are `u64` underneath:
//!
//! ```
//! let bids = elltree::TypedMap::<i64, u32>::try_from_iter([(-5, 50), (7, 70), (-20, 200)])?;
//! assert_eq!(bids.range(-10..).collect::<Vec<_>>(), [(-5, 50), (7, 70)]);
//! assert_eq!(bids.pop_first()?, Some((-20, 200)));
//! # Ok::<(), elltree::MapError>(())
//! ```
//!
//! [`boxed_values`] shows how to have values of any type.
//!
//! ## Handles
//!
//! A map is made of trees, each with a fixed number of cards, of which each change takes one, and gets it back later. The map replaces a tree that
//! has many keys or few, or no card, and changes may wait for that. A program that counts its cards itself can have a [`Tree`] alone, and a [`Handle`] of it for each thread. No handle
//! ever waits for another.
//!
//! ```
//! let tree = elltree::Tree::open(&[(2, 20)], 1_000)?; // pairs to start with, cards
//! let (mut first, mut second) = (tree.handle()?, tree.handle()?);
//! std::thread::scope(|threads| {
//!     threads.spawn(|| first.insert(3, 30, 1_000).unwrap()); // in at most 1,000 tries
//!     threads.spawn(|| second.insert(3, 31, 1_000).unwrap()); // one of the two adds the key
//! });
//! assert!(matches!(first.find(3), Some(30 | 31)));
//! assert!(second.delete(2, 1_000)?);
//! assert_eq!(first.find(2), None);
//! # Ok::<(), elltree::Refused>(())
//! ```

pub mod boxed_values;
mod error;
mod handle;
mod map;
mod range;
mod raw;
mod tree;
mod typed;

pub use error::{MapError, MapResult, Refused, Result};
pub use handle::Handle;
pub use map::{Map, MapCounts, MapSettings};
pub use range::{MapRange, Range};
pub use raw::{CARDS_MAX, KEY_MAX, START_MAX};
pub use tree::Tree;
pub use typed::{Key, TypedMap, TypedRange, Value};
