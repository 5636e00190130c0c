//! How a [`Map`](crate::Map) has values of any type: a worked example of boxes that are freed by epochs. There is nothing here to import.
//!
//! A map's values are numbers. For others, the map has the address of a box. Readers go to the box while other threads put another one in its place,
//! so the question is when a box can be freed. A map says two things that help:
//!
//! - [`Map::insert`](crate::Map::insert), [`Map::remove`](crate::Map::remove) and the pops return a value that they have taken to one caller alone.
//!   So if each box is stored once, one thread takes it out, and that thread sees to its end.
//! - What a thread did before it stored a value has happened before what another thread does after it has read that value. So a reader finds the box
//!   as it was made.
//!
//! What is left is to wait until nobody reads a box any more that was taken out. If all threads end soon, they can keep such boxes in lists, which
//! are freed when the threads are joined. Here they are freed earlier, by *epochs*: a number that grows with each box that is taken out. A thread
//! that reads writes down the epoch before it asks the map. A box can be freed once each thread that reads has written down a later epoch than that
//! in which the box was taken out.
//!
//! ```
//! use elltree::{Map, MapError};
//! use std::marker::PhantomData;
//! use std::sync::atomic::{AtomicU64, Ordering::SeqCst, fence};
//! use std::sync::{Mutex, PoisonError};
//!
//! /// In place of an epoch, if a member does not read, and if there is no such member.
//! const IDLE: u64 = u64::MAX;
//! const FREE: u64 = u64::MAX - 1;
//!
//! /// A map whose values are boxes. Each thread has a `Member`, by which it makes calls.
//! struct Boxes<T> {
//!     map: Map,
//!     epoch: AtomicU64,
//!     pins: Vec<AtomicU64>,         // the epoch that each member has written down
//!     left: Mutex<Vec<(u64, u64)>>, // what members that have ended had not freed
//!     owns: PhantomData<Box<T>>,
//! }
//!
//! /// What one thread has of the map, with the boxes that it took out, and the epochs in which it did so.
//! struct Member<'a, T: Send + Sync> {
//!     boxes: &'a Boxes<T>,
//!     pin: &'a AtomicU64,
//!     taken: Vec<(u64, u64)>,
//! }
//!
//! // Other threads read and free what a thread has stored, so that `T` has to be `Send` and `Sync`.
//! impl<T: Send + Sync> Boxes<T> {
//!     /// Makes an empty map for so many members at once.
//!     fn new(members: usize) -> Result<Boxes<T>, MapError> {
//!         let pins = (0..members).map(|_| AtomicU64::new(FREE)).collect();
//!         Ok(Boxes { map: Map::new()?, epoch: AtomicU64::new(0), pins, left: Mutex::default(), owns: PhantomData })
//!     }
//!
//!     fn member(&self) -> Member<'_, T> {
//!         let is_free = |pin: &&AtomicU64| pin.compare_exchange(FREE, IDLE, SeqCst, SeqCst).is_ok();
//!         let pin = self.pins.iter().find(is_free).expect("fewer members");
//!         Member { boxes: self, pin, taken: Vec::new() }
//!     }
//! }
//!
//! /// Stands for an epoch that is written down, up to its end, also if a panic ends it.
//! struct Pinned<'a>(&'a AtomicU64);
//!
//! impl<'a> Pinned<'a> {
//!     fn new(epoch: &AtomicU64, pin: &'a AtomicU64) -> Pinned<'a> {
//!         pin.store(epoch.load(SeqCst), SeqCst);
//!         fence(SeqCst); // either `free_taken` sees the pin, or the calls on the map behind it don't find the box
//!         Pinned(pin)
//!     }
//! }
//!
//! impl Drop for Pinned<'_> {
//!     fn drop(&mut self) {
//!         self.0.store(IDLE, SeqCst);
//!     }
//! }
//!
//! impl<T: Send + Sync> Member<'_, T> {
//!     /// Calls `f` with the value of a key. It takes `&mut self`, so that the member has one pin at a time.
//!     fn read<R>(&mut self, key: u64, f: impl FnOnce(&T) -> R) -> Option<R> {
//!         let _pinned = Pinned::new(&self.boxes.epoch, self.pin);
//!         let address = self.boxes.map.get(key)?;
//!         // SAFETY: the box was in the map after the pin was written, so nobody frees it before the pin is gone.
//!         Some(f(unsafe { &*(address as *const T) }))
//!     }
//!
//!     /// Calls `f` with each key and its value. The pin comes before the iterator, in which pairs wait.
//!     fn for_each(&mut self, mut f: impl FnMut(u64, &T)) {
//!         let _pinned = Pinned::new(&self.boxes.epoch, self.pin);
//!         for (key, address) in &self.boxes.map {
//!             // SAFETY: as in `read`: each pair was there after the iterator was made.
//!             f(key, unsafe { &*(address as *const T) });
//!         }
//!     }
//!
//!     /// Stores a value, and returns whether the key had another.
//!     fn insert(&mut self, key: u64, value: T) -> Result<bool, MapError> {
//!         let address = Box::into_raw(Box::new(value)) as u64;
//!         let was = self.boxes.map.insert(key, address).inspect_err(|_| {
//!             // SAFETY: the map does not have the box, which is of this call alone.
//!             drop(unsafe { Box::from_raw(address as *mut T) });
//!         })?;
//!         Ok(self.take(was))
//!     }
//!
//!     /// Takes a key away, and returns whether it was present.
//!     fn remove(&mut self, key: u64) -> Result<bool, MapError> {
//!         let was = self.boxes.map.remove(key)?;
//!         Ok(self.take(was))
//!     }
//!
//!     /// Keeps a box that the map has no longer, and returns whether there is one.
//!     fn take(&mut self, was: Option<u64>) -> bool {
//!         let Some(address) = was else { return false };
//!         self.taken.push((self.boxes.epoch.fetch_add(1, SeqCst), address));
//!         if self.taken.len() >= 64 {
//!             self.free_taken();
//!         }
//!         true
//!     }
//!
//!     /// Frees each box that was taken out before the epochs of all pins.
//!     fn free_taken(&mut self) {
//!         fence(SeqCst);
//!         let oldest = self.boxes.pins.iter().map(|pin| pin.load(SeqCst)).min().unwrap_or(IDLE);
//!         self.taken.retain(|&(epoch, address)| {
//!             if epoch < oldest {
//!                 // SAFETY: the box was stored once and taken once. Who read it then has ended since, and nobody finds it now.
//!                 drop(unsafe { Box::from_raw(address as *mut T) });
//!             }
//!             epoch >= oldest
//!         });
//!     }
//! }
//!
//! impl<T: Send + Sync> Drop for Member<'_, T> {
//!     fn drop(&mut self) {
//!         self.free_taken();
//!         self.boxes.left.lock().unwrap_or_else(PoisonError::into_inner).append(&mut self.taken);
//!         self.pin.store(FREE, SeqCst);
//!     }
//! }
//!
//! impl<T> Drop for Boxes<T> {
//!     fn drop(&mut self) {
//!         let left = std::mem::take(self.left.get_mut().unwrap_or_else(PoisonError::into_inner));
//!         for (_, address) in left.into_iter().chain(&self.map) {
//!             // SAFETY: all members have ended, so nobody reads, and each box is in one of the two.
//!             drop(unsafe { Box::from_raw(address as *mut T) });
//!         }
//!     }
//! }
//!
//! /// Writes, reads and removes texts that begin with their key.
//! fn work(mut member: Member<'_, String>, thread: u64) -> Result<(), MapError> {
//!     let check = |key: u64, text: &String| assert!(text.starts_with(&format!("{key}: ")));
//!     for count in 0..2_000 {
//!         let key = (count * 7 + thread) % 10;
//!         match count % 8 {
//!             0 | 4 => _ = member.insert(key, format!("{key}: {count}"))?,
//!             1 => _ = member.remove(key)?,
//!             2 => member.for_each(check),
//!             _ => _ = member.read(key, |text| check(key, text)),
//!         }
//!     }
//!     Ok(())
//! }
//!
//! let boxes = Boxes::new(4)?;
//! std::thread::scope(|threads| {
//!     for thread in 0..4 {
//!         let member = boxes.member();
//!         threads.spawn(move || work(member, thread).unwrap());
//!     }
//! });
//! # Ok::<(), MapError>(())
//! ```
//!
//! Why no thread reads a box that was freed: say that a thread takes a box out in epoch 5. A thread with a pin of 6 or more has read that epoch after
//! the box was taken out, so its calls on the map do not find the box. A thread that finds the box has a pin of at most 5. If `free_taken` sees that
//! pin, it keeps the box. If it does not see it, then the fence of `free_taken` comes before the fence of the pin, and so the calls behind the pin
//! find what the map had after the box was taken out. This leans on the answers of the calls on one key, which are as if they were made one after the
//! other.
//!
//! - A thread that stays in `read` keeps boxes from being freed, and holds up nobody.
//! - A box must be stored once. Never give the map the address again that it had, and make no call that computes with values, such as
//!   [`Map::fetch_add`](crate::Map::fetch_add).
//! - An exchange by [`Map::compare_exchange`](crate::Map::compare_exchange) has to hold a pin since it read the value that it expects: otherwise a
//!   new box may have that address.
//! - If your program has the crate `crossbeam-epoch`, its `pin` and `Guard::defer_unchecked` do what `Pinned` and `taken` do here.
