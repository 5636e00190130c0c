//! The maps of which ranges are measured, all keys shared, and the ways to go over a range of each.

use crate::array::ArrayHandle;
use crate::bare_tree::BareTree;
#[cfg(java)]
use crate::java::SkipList;
use crate::library;
use crate::one_map;
use crate::peers::{Crew, Lock, Map, Peer, SHARDS, Shards, Sizes, Stripe, View, bare_tree};
use crate::work::Random;
use elltree::CARDS_MAX;
use std::hint::black_box;
use std::sync::{Arc, Mutex, RwLock};
use std::{array, mem};

/// What a range told: how many pairs, and a sum of these in their order.
#[derive(Clone, Copy, Default, PartialEq)]
pub struct Told {
    pub count: u64,
    pub sum: u64,
}

/// What these pairs tell.
pub fn told(pairs: impl Iterator<Item = (u64, u64)>) -> Told {
    let and = |told: Told, (key, value): (u64, u64)| Told { count: told.count + 1, sum: (told.sum.rotate_left(7) ^ key).wrapping_add(value) };
    pairs.fold(Told::default(), and)
}

/// What one thread has of a map of which it goes over ranges.
pub trait Ranges: View {
    /// The keys from one on and below another, ascending.
    fn range(&mut self, from: u64, upto: u64) -> Told;
    /// The least key from one on that is present, with its value.
    fn next_at_least(&mut self, key: u64) -> Option<(u64, u64)>;
    /// Gives a key that is present another value: the one that it had.
    fn swap(&mut self, key: u64, value: u64) -> Option<u64>;
}

/// Inserts, deletes or swaps, each as often: what a random number stands for.
pub fn write(map: &mut dyn Ranges, keys: Stripe, random: u64) -> Option<u64> {
    let key = keys.random_key(random);
    match random % 3 {
        0 => Some(map.insert(key, random).into()),
        1 => Some(map.delete(key).into()),
        _ => map.swap(key, random),
    }
}

/// What a scanner asks for, again and again.
#[derive(Clone, Copy, PartialEq, Eq, PartialOrd, Ord)]
pub enum Span {
    /// A range anywhere, of about 10 keys.
    Of10,
    /// Of about 100.
    Of100,
    /// All keys.
    All,
    /// The least key from any number on.
    Next,
}

impl Span {
    pub const ALL: [Span; 4] = [Span::Of10, Span::Of100, Span::All, Span::Next];

    /// Among how many numbers it looks for keys: half of them are present.
    pub fn width(self, keys: u64) -> u64 {
        match self {
            Span::Of10 => 20,
            Span::Of100 => 200,
            Span::All => keys,
            Span::Next => 1,
        }
    }

    /// The range for which a random number stands.
    pub fn range(self, map: &mut dyn Ranges, sizes: Sizes, random: u64) -> Told {
        let width = self.width(sizes.keys);
        let from = Sizes { keys: sizes.keys - width, ..sizes }.all().random_key(random);
        map.range(from, from + width)
    }

    /// Asks for what a random number stands for: how many answers there are, each a key that a range tells, or a next key.
    pub fn ask(self, map: &mut dyn Ranges, sizes: Sizes, random: u64) -> u64 {
        if self == Span::Next {
            black_box(map.next_at_least(sizes.all().random_key(random)));
            return 1;
        }
        black_box(self.range(map, sizes, random)).count
    }
}

impl Ranges for Arc<BareTree> {
    fn range(&mut self, from: u64, upto: u64) -> Told {
        told(BareTree::range(self, from, upto))
    }

    fn next_at_least(&mut self, key: u64) -> Option<(u64, u64)> {
        BareTree::range(self, key, u64::MAX).next()
    }

    fn swap(&mut self, key: u64, value: u64) -> Option<u64> {
        BareTree::swap(self, key, value).unwrap()
    }
}

/// How long a thread holds the locks of a map in which it goes over a range.
#[derive(Clone, Copy, PartialEq)]
pub enum Hold {
    /// All of them for the whole range.
    Range,
    /// Each for what its part has of the range, which is copied.
    Part,
    /// One for each next key.
    Key,
}

/// A map in parts behind locks, and how ranges are told.
struct Held<L, const COUNT: usize> {
    map: Arc<Shards<L, COUNT>>,
    hold: Hold,
}

impl<L: Lock, const COUNT: usize> View for Held<L, COUNT> {
    fn find(&mut self, key: u64) -> Option<u64> {
        self.map.find(key)
    }

    fn insert(&mut self, key: u64, value: u64) -> bool {
        self.map.insert(key, value)
    }

    fn delete(&mut self, key: u64) -> bool {
        self.map.delete(key)
    }
}

impl<L: Lock, const COUNT: usize> Ranges for Held<L, COUNT> {
    fn range(&mut self, from: u64, upto: u64) -> Told {
        let locks = self.map.locks();
        match self.hold {
            Hold::Range => {
                let held = locks.map(|lock| lock.hold());
                told_in_order(array::from_fn::<_, COUNT, _>(|at| pairs_of(&held[at], from, upto)))
            }
            Hold::Part => {
                let part = |lock: &L| lock.read(|map| pairs_of(map, from, upto).collect::<Vec<_>>());
                told_in_order(locks.map(|lock| part(lock).into_iter()))
            }
            Hold::Key => told_in_order(locks.map(|lock| KeyByKey { lock, at: from, upto })),
        }
    }

    fn next_at_least(&mut self, key: u64) -> Option<(u64, u64)> {
        let next = |lock: &L| lock.read(|map| pairs_of(map, key, u64::MAX).next());
        self.map.locks().into_iter().filter_map(next).min()
    }

    fn swap(&mut self, key: u64, value: u64) -> Option<u64> {
        self.map.shard(key).write(|map| map.get_mut(&key).map(|there| mem::replace(there, value)))
    }
}

fn pairs_of(map: &Map, from: u64, upto: u64) -> impl Iterator<Item = (u64, u64)> + '_ {
    map.range(from..upto).map(|(key, value)| (*key, *value))
}

/// The pairs of a range in a map behind a lock, which is taken anew for each.
struct KeyByKey<'a, L> {
    lock: &'a L,
    at: u64,
    upto: u64,
}

impl<L: Lock> Iterator for KeyByKey<'_, L> {
    type Item = (u64, u64);

    fn next(&mut self) -> Option<(u64, u64)> {
        let pair = self.lock.read(|map| pairs_of(map, self.at, self.upto).next());
        self.at = pair.map_or(self.upto, |(key, _)| key + 1);
        pair
    }
}

/// What the pairs of all parts tell, the keys ascending, as those of each part do.
fn told_in_order<I: Iterator<Item = (u64, u64)>, const COUNT: usize>(parts: [I; COUNT]) -> Told {
    if COUNT == 1 { told(parts.into_iter().flatten()) } else { told(Merge::of(parts)) }
}

/// Merges parts.
struct Merge<I, const COUNT: usize> {
    parts: [I; COUNT],
    /// The next pair of each part, or behind all keys if it has no more.
    heads: [(u64, u64); COUNT],
}

/// Behind all keys.
const END: (u64, u64) = (u64::MAX, 0);

impl<I: Iterator<Item = (u64, u64)>, const COUNT: usize> Merge<I, COUNT> {
    fn of(mut parts: [I; COUNT]) -> Self {
        let heads = array::from_fn(|at| parts[at].next().unwrap_or(END));
        Merge { parts, heads }
    }
}

impl<I: Iterator<Item = (u64, u64)>, const COUNT: usize> Iterator for Merge<I, COUNT> {
    type Item = (u64, u64);

    fn next(&mut self) -> Option<(u64, u64)> {
        let at = (0..COUNT).min_by_key(|at| self.heads[*at].0)?;
        let least = self.heads[at];
        if least == END {
            return None;
        }
        self.heads[at] = self.parts[at].next().unwrap_or(END);
        Some(least)
    }
}

/// How many writes a worn map has had of each key, in the mean.
const WORN: u64 = 2;

/// A map, and how its ranges are told.
#[derive(Clone, Copy, PartialEq)]
pub enum Way {
    /// The tree, by the iterator of a program in Rust.
    Elltree,
    /// The same, by the library that was built before a change.
    #[cfg(before)]
    Before,
    /// The tree, by a call of a program in C that fills an array.
    Array,
    /// The one map of the library, by its iterator in Rust.
    OneMap,
    Bare,
    Mutex(Hold),
    RwLock(Hold),
    RwLocks(Hold),
    #[cfg(java)]
    SkipList,
}

impl Way {
    pub const ALL: &[Way] = &[
        Way::Elltree,
        #[cfg(before)]
        Way::Before,
        Way::Array,
        Way::OneMap,
        Way::Bare,
        Way::Mutex(Hold::Range),
        Way::Mutex(Hold::Key),
        Way::RwLock(Hold::Range),
        Way::RwLock(Hold::Key),
        Way::RwLocks(Hold::Range),
        Way::RwLocks(Hold::Part),
        Way::RwLocks(Hold::Key),
        #[cfg(java)]
        Way::SkipList,
    ];

    pub fn name(self) -> &'static str {
        match self {
            Way::Elltree => "elltree",
            #[cfg(before)]
            Way::Before => "before",
            Way::Array => "elltree array",
            Way::OneMap => "elltree map",
            Way::Bare => "bare atomics",
            Way::Mutex(Hold::Key) => "Mutex by key",
            Way::Mutex(_) => "Mutex",
            Way::RwLock(Hold::Key) => "RwLock by key",
            Way::RwLock(_) => "RwLock",
            Way::RwLocks(Hold::Key) => "16 RwLock by key",
            Way::RwLocks(Hold::Part) => "16 RwLock by part",
            Way::RwLocks(Hold::Range) => "16 RwLock",
            #[cfg(java)]
            Way::SkipList => "Java skip list",
        }
    }

    /// Whether a change takes one of the cards, of which there are no more than `CARDS_MAX`, since nobody renews them.
    pub fn takes_cards(self) -> bool {
        match self {
            Way::Elltree | Way::Array | Way::Bare => true,
            #[cfg(before)]
            Way::Before => true,
            _ => false,
        }
    }

    /// A new map, with so many writes before that its nodes lie as those of a map in use.
    pub fn worn_crew(self, sizes: Sizes) -> Crew<dyn Ranges> {
        let mut crew = self.crew(sizes);
        let first = crew.writers.iter_mut().chain(&mut crew.readers).next().expect("a thread");
        let mut random = Random::new(50);
        for _ in 0..WORN * sizes.keys {
            black_box(write(&mut **first, sizes.all(), random.next()));
        }
        crew
    }

    /// How many writes may be asked of a worn map in all.
    pub fn most_writes(self, sizes: Sizes) -> u64 {
        Peer::Ranging(self).most_changes() - WORN * sizes.keys
    }

    /// A new map.
    pub fn crew(self, sizes: Sizes) -> Crew<dyn Ranges> {
        match self {
            Way::Elltree => library::elltree::ranging(sizes).expect("a tree"),
            #[cfg(before)]
            Way::Before => library::before::ranging(sizes).expect("a tree"),
            Way::Array => of_array_handles(sizes),
            Way::OneMap => one_map::ranging(sizes).expect("a map"),
            Way::Bare => sharing(bare_tree(sizes), sizes),
            Way::Mutex(hold) => of_locks::<Mutex<Map>, 1>(hold, sizes),
            Way::RwLock(hold) => of_locks::<RwLock<Map>, 1>(hold, sizes),
            Way::RwLocks(hold) => of_locks::<RwLock<Map>, SHARDS>(hold, sizes),
            #[cfg(java)]
            Way::SkipList => sharing(SkipList::start(sizes), sizes),
        }
    }
}

/// What each thread has of a map.
fn crew<R: Ranges + 'static>(sizes: Sizes, mut another: impl FnMut() -> R) -> Crew<dyn Ranges> {
    let mut views = |count| (0..count).map(|_| Box::new(another()) as Box<dyn Ranges>).collect::<Vec<_>>();
    Crew::of(views(sizes.writers), views(sizes.readers))
}

fn of_array_handles(sizes: Sizes) -> Crew<dyn Ranges> {
    let mut first = ArrayHandle::open(&sizes.start().collect::<Vec<_>>(), CARDS_MAX);
    crew(sizes, || first.another())
}

fn of_locks<L: Lock + 'static, const COUNT: usize>(hold: Hold, sizes: Sizes) -> Crew<dyn Ranges> {
    let map = Arc::new(Shards::<L, COUNT>::start(&sizes.start().collect::<Vec<_>>()));
    crew(sizes, || Held { map: map.clone(), hold })
}

fn sharing<R: Ranges + Clone + 'static>(map: R, sizes: Sizes) -> Crew<dyn Ranges> {
    crew(sizes, || map.clone())
}
