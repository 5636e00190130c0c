//! The maps that are measured. Each has writers, which find, insert and delete all keys, or each of them keys of its own, and readers of any key. Or
//! its values are counters, and all writers add to any. Those of which ranges are told are in `ranges`.

use crate::bare_tree::BareTree;
#[cfg(cpp_map)]
use crate::cpp::{CppMap, Template};
#[cfg(java)]
use crate::java::SkipList;
use crate::library;
use crate::one_map;
use crate::ranges::Way;
use crate::reusing;
use elltree::CARDS_MAX;
use std::array;
use std::collections::btree_map::{BTreeMap, Entry};
use std::ops::Deref;
use std::sync::{Arc, Mutex, RwLock};

pub type Map = BTreeMap<u64, u64>;

pub const SHARDS: usize = 16;

/// How many tries a change has: enough that something is never in the way of all.
pub const TRIES: u32 = 1_000_000;

/// How many keys a map has, the numbers below this, how many writers and readers, and whether all writers share all keys.
#[derive(Clone, Copy)]
pub struct Sizes {
    pub keys: u64,
    pub writers: u64,
    pub readers: u64,
    pub shared: bool,
}

/// The keys of one writer: its neighbors have the keys next to them.
#[derive(Clone, Copy)]
pub struct Stripe {
    first: u64,
    step: u64,
    count: u64,
}

impl Stripe {
    pub fn keys(self) -> impl Iterator<Item = u64> {
        (0..self.count).map(move |index| self.key(index))
    }

    fn key(self, index: u64) -> u64 {
        self.first + index * self.step
    }

    /// The key that a random number stands for, by its upper half.
    pub fn random_key(self, random: u64) -> u64 {
        self.key(((random >> 32) * self.count) >> 32)
    }
}

impl Sizes {
    /// All keys.
    pub fn all(self) -> Stripe {
        Stripe { first: 0, step: 1, count: self.keys }
    }

    /// The keys of each writer.
    pub fn stripes(self) -> impl Iterator<Item = Stripe> {
        let step = self.writers;
        let own = move |first| Stripe { first, step, count: (self.keys - first).div_ceil(step) };
        (0..step).map(move |first| if self.shared { self.all() } else { own(first) })
    }

    /// The keys that are present at first, ascending, with their values: every other one of each writer.
    pub fn start(self) -> impl Iterator<Item = (u64, u64)> {
        let writers = self.writers.max(1);
        (0..self.keys).filter(move |key| (key / writers).is_multiple_of(2)).map(|key| (key, key + 7))
    }

    /// All keys, ascending, with their values.
    pub fn full(self) -> Vec<(u64, u64)> {
        self.all().keys().map(|key| (key, key + 7)).collect()
    }

    /// All keys, each with the value 0.
    pub fn zeros(self) -> Vec<(u64, u64)> {
        self.all().keys().map(|key| (key, 0)).collect()
    }
}

/// What one thread has of a map. A key that is present keeps its value.
pub trait View: Send {
    fn find(&mut self, key: u64) -> Option<u64>;

    fn look(&mut self, key: u64) -> Option<u64> {
        self.find(key)
    }

    /// Whether the key was absent.
    fn insert(&mut self, key: u64, value: u64) -> bool;
    /// Whether the key was present.
    fn delete(&mut self, key: u64) -> bool;
}

/// What one thread has of a map of counters: the values of keys that are all present, and that all threads share.
pub trait Counters: View {
    /// Adds 1 to the value of a key: the value that it had, or none if no card is left, and then nothing was added.
    fn add(&mut self, key: u64) -> Option<u64>;
}

/// What one thread has of a map that is a queue.
pub trait Queue: View {
    /// Whether a key above all others was added: not if no card is left.
    fn add_last(&mut self, key: u64) -> bool;
    /// The least key, which was taken: none if there is no key, or no card is left.
    fn take_least(&mut self) -> Option<u64>;
}

impl View for Arc<BareTree> {
    fn find(&mut self, key: u64) -> Option<u64> {
        BareTree::find(self, key)
    }

    fn look(&mut self, key: u64) -> Option<u64> {
        BareTree::look(self, key)
    }

    fn insert(&mut self, key: u64, value: u64) -> bool {
        BareTree::insert(self, key, value).unwrap()
    }

    fn delete(&mut self, key: u64) -> bool {
        BareTree::delete(self, key).unwrap()
    }
}

fn insert(map: &mut Map, key: u64, value: u64) -> bool {
    let Entry::Vacant(place) = map.entry(key) else {
        return false;
    };
    place.insert(value);
    true
}

impl View for Map {
    fn find(&mut self, key: u64) -> Option<u64> {
        self.get(&key).copied()
    }

    fn insert(&mut self, key: u64, value: u64) -> bool {
        insert(self, key, value)
    }

    fn delete(&mut self, key: u64) -> bool {
        self.remove(&key).is_some()
    }
}

/// A lock around a map.
pub trait Lock: Send + Sync {
    fn around(map: Map) -> Self;
    /// The map, to be read, and the lock until what is returned goes.
    fn hold(&self) -> impl Deref<Target = Map>;
    fn write<T>(&self, act: impl FnOnce(&mut Map) -> T) -> T;

    fn read<T>(&self, act: impl FnOnce(&Map) -> T) -> T {
        act(&self.hold())
    }
}

impl Lock for Mutex<Map> {
    fn around(map: Map) -> Self {
        Mutex::new(map)
    }

    fn hold(&self) -> impl Deref<Target = Map> {
        self.lock().unwrap()
    }

    fn write<T>(&self, act: impl FnOnce(&mut Map) -> T) -> T {
        act(&mut self.lock().unwrap())
    }
}

impl Lock for RwLock<Map> {
    fn around(map: Map) -> Self {
        RwLock::new(map)
    }

    fn hold(&self) -> impl Deref<Target = Map> {
        RwLock::read(self).unwrap()
    }

    fn write<T>(&self, act: impl FnOnce(&mut Map) -> T) -> T {
        act(&mut RwLock::write(self).unwrap())
    }
}

/// A part of a map with its lock, away from the words of the others.
#[repr(align(128))]
struct Shard<L>(L);

/// A map in so many parts, each behind a lock of its own.
pub struct Shards<L, const COUNT: usize>([Shard<L>; COUNT]);

fn shard_of<const COUNT: usize>(key: u64) -> usize {
    (key.wrapping_mul(0x9E37_79B9_7F4A_7C15) >> 32) as usize % COUNT
}

impl<L: Lock, const COUNT: usize> Shards<L, COUNT> {
    pub fn start(pairs: &[(u64, u64)]) -> Self {
        let part = |at| pairs.iter().copied().filter(|pair| shard_of::<COUNT>(pair.0) == at).collect();
        Shards(array::from_fn(|at| Shard(L::around(part(at)))))
    }

    pub fn shard(&self, key: u64) -> &L {
        &self.0[shard_of::<COUNT>(key)].0
    }

    pub fn locks(&self) -> [&L; COUNT] {
        self.0.each_ref().map(|shard| &shard.0)
    }
}

impl<L: Lock, const COUNT: usize> View for Arc<Shards<L, COUNT>> {
    fn find(&mut self, key: u64) -> Option<u64> {
        self.shard(key).read(|map| map.get(&key).copied())
    }

    fn insert(&mut self, key: u64, value: u64) -> bool {
        self.shard(key).write(|map| insert(map, key, value))
    }

    fn delete(&mut self, key: u64) -> bool {
        self.shard(key).write(|map| map.remove(&key).is_some())
    }
}

impl<L: Lock, const COUNT: usize> Counters for Arc<Shards<L, COUNT>> {
    fn add(&mut self, key: u64) -> Option<u64> {
        self.shard(key).write(|map| {
            let value = map.get_mut(&key).expect("a counter");
            *value += 1;
            Some(*value - 1)
        })
    }
}

impl<L: Lock> Queue for Arc<Shards<L, 1>> {
    fn add_last(&mut self, key: u64) -> bool {
        View::insert(self, key, key + 7)
    }

    fn take_least(&mut self) -> Option<u64> {
        self.locks()[0].write(|map| map.pop_first()).map(|(key, _)| key)
    }
}

/// The writers of a map, in the order of their stripes, and its readers: one for each thread.
pub struct Crew<V: ?Sized = dyn View> {
    pub writers: Vec<Box<V>>,
    pub readers: Vec<Box<V>>,
    /// The map, if it renews itself while the writers change it.
    pub renewing: Option<Arc<elltree::Map>>,
}

impl<V: ?Sized> Crew<V> {
    /// Those of a map that never renews itself.
    pub fn of(writers: Vec<Box<V>>, readers: Vec<Box<V>>) -> Crew<V> {
        Crew { writers, readers, renewing: None }
    }

    pub fn threads(&self) -> usize {
        self.writers.len() + self.readers.len()
    }
}

pub fn boxed<V: View + 'static>(views: impl IntoIterator<Item = V>) -> Vec<Box<dyn View>> {
    views.into_iter().map(|it| Box::new(it) as Box<dyn View>).collect()
}

/// The tree over bare atomic words. All its memory is there before it is used, as elltree's is.
pub fn bare_tree(sizes: Sizes) -> Arc<BareTree> {
    let tree = BareTree::reserve(&sizes.start().collect::<Vec<_>>(), CARDS_MAX);
    tree.take_memory();
    Arc::new(tree)
}

impl Crew {
    #[cfg(cpp_map)]
    fn of_cpp(template: Template, sizes: Sizes) -> Crew {
        Crew::sharing(Arc::new(CppMap::start(template, &sizes.start().collect::<Vec<_>>())), sizes)
    }

    fn of_locks<L: Lock + 'static, const COUNT: usize>(sizes: Sizes) -> Crew {
        Crew::sharing(Arc::new(Shards::<L, COUNT>::start(&sizes.start().collect::<Vec<_>>())), sizes)
    }

    fn sharing<V: View + Clone + 'static>(map: V, sizes: Sizes) -> Crew {
        let views = |count| boxed((0..count).map(|_| map.clone()));
        Crew::of(views(sizes.writers), views(sizes.readers))
    }

    /// A map for each writer, and none for a reader.
    fn of_private_maps(sizes: Sizes) -> Crew {
        let own = |first| sizes.start().filter(move |pair| pair.0 % sizes.writers == first);
        let writers = (0..sizes.writers).map(|first| own(first).collect::<Map>());
        Crew::of(boxed(writers), Vec::new())
    }
}

fn counters_in_locks<L: Lock + 'static, const COUNT: usize>(sizes: Sizes) -> Crew<dyn Counters> {
    let map = Arc::new(Shards::<L, COUNT>::start(&sizes.zeros()));
    Crew::of((0..sizes.writers).map(|_| Box::new(map.clone()) as Box<dyn Counters>).collect(), Vec::new())
}

fn queue_in_lock(sizes: Sizes) -> Crew<dyn Queue> {
    let map = Arc::new(Shards::<Mutex<Map>, 1>::start(&sizes.full()));
    Crew::of((0..sizes.writers).map(|_| Box::new(map.clone()) as Box<dyn Queue>).collect(), Vec::new())
}

/// What is measured.
#[derive(Clone, Copy, PartialEq)]
pub enum Peer {
    /// The handles of a tree.
    Elltree,
    /// The handles of a tree whose cards come back.
    Reusing,
    /// The one map that all threads share, without handles, which renews itself.
    OneMap,
    /// The handles of a tree, of the library that was built before a change.
    #[cfg(before)]
    Before,
    Bare,
    /// A map of a library in C++.
    #[cfg(cpp_map)]
    Cpp(Template),
    /// The skip list of a process of Java.
    #[cfg(java)]
    SkipList,
    Mutex,
    RwLock,
    Mutexes,
    RwLocks,
    Private,
    /// A map of which ranges alone are measured.
    Ranging(Way),
}

impl Peer {
    pub const ALL: &[Peer] = &[
        Peer::Elltree,
        Peer::Reusing,
        Peer::OneMap,
        #[cfg(before)]
        Peer::Before,
        Peer::Bare,
        #[cfg(libcds)]
        Peer::Cpp(Template::EllenHazards),
        #[cfg(libcds)]
        Peer::Cpp(Template::EllenRcu),
        Peer::Mutex,
        Peer::RwLock,
        Peer::Mutexes,
        Peer::RwLocks,
        Peer::Private,
    ];

    /// Those of which values are counters.
    pub const COUNTING: &[Peer] = &[
        Peer::Elltree,
        Peer::Reusing,
        Peer::OneMap,
        #[cfg(before)]
        Peer::Before,
        Peer::Mutex,
        Peer::Mutexes,
    ];

    /// Those that are filled, in one order of keys or another.
    pub const FILLED: &[Peer] = &[
        Peer::Elltree,
        Peer::OneMap,
        #[cfg(libcds)]
        Peer::Cpp(Template::EllenHazards),
        #[cfg(libcds)]
        Peer::Cpp(Template::EllenRcu),
        Peer::Mutex,
        Peer::Mutexes,
    ];

    /// Those that are queues.
    pub const QUEUES: &[Peer] = &[Peer::Elltree, Peer::Reusing, Peer::OneMap, Peer::Mutex];

    /// Those of the first screen of README.md.
    pub const FRONT: &[Peer] = &[
        Peer::OneMap,
        Peer::Elltree,
        Peer::Mutex,
        Peer::Mutexes,
        #[cfg(libcds)]
        Peer::Cpp(Template::Avl),
        #[cfg(libcds)]
        Peer::Cpp(Template::SkipList),
        #[cfg(tbb)]
        Peer::Cpp(Template::Hash),
        #[cfg(java)]
        Peer::SkipList,
    ];

    pub fn name(self) -> &'static str {
        match self {
            Peer::Elltree => "elltree",
            Peer::Reusing => "elltree reusing",
            Peer::OneMap => "elltree map",
            #[cfg(before)]
            Peer::Before => "before",
            Peer::Bare => "bare atomics",
            #[cfg(cpp_map)]
            Peer::Cpp(template) => template.name(),
            #[cfg(java)]
            Peer::SkipList => "Java skip list",
            Peer::Mutex => "Mutex",
            Peer::RwLock => "RwLock",
            Peer::Mutexes => "16 Mutex",
            Peer::RwLocks => "16 RwLock",
            Peer::Private => "private maps",
            Peer::Ranging(way) => way.name(),
        }
    }

    /// The same kind of handles, of the library that was built before a change, if there is one.
    pub fn before(self) -> Option<Peer> {
        match self {
            #[cfg(before)]
            Peer::Elltree => Some(Peer::Before),
            #[cfg(before)]
            Peer::Ranging(Way::Elltree) => Some(Peer::Ranging(Way::Before)),
            _ => None,
        }
    }

    /// Whether all writers may change the same keys.
    pub fn can_share(self) -> bool {
        self != Peer::Private
    }

    /// Whether keys that come in order make the tree deep.
    pub fn grows_deep(self) -> bool {
        match self {
            #[cfg(cpp_map)]
            Peer::Cpp(template) => template.grows_deep(),
            _ => self == Peer::Bare,
        }
    }

    /// Whether the threads that use it are those of this process.
    pub fn is_of_this_process(self) -> bool {
        match self {
            #[cfg(java)]
            Peer::SkipList | Peer::Ranging(Way::SkipList) => false,
            _ => true,
        }
    }

    /// Whether changes take cards, of which there is an end. A map that renews itself has no end of cards.
    fn takes_cards(self) -> bool {
        match self {
            Peer::Ranging(way) => way.takes_cards(),
            Peer::Elltree | Peer::Bare => true,
            #[cfg(before)]
            Peer::Before => true,
            _ => false,
        }
    }

    /// How many changes may be asked of a map in all: half of them change it, and take a card each if there are cards. The other cards
    /// are for tries that fail.
    pub fn most_changes(self) -> u64 {
        if self.takes_cards() { 1_400_000 } else { u64::MAX / 2 }
    }

    /// How many absent keys may be inserted into a map: here too a tenth of the cards are for tries that fail.
    pub fn most_inserts(self) -> usize {
        if self.takes_cards() { 900_000 } else { usize::MAX }
    }

    /// A new map of this kind.
    pub fn crew(self, sizes: Sizes) -> Crew {
        match self {
            Peer::Elltree => library::elltree::sharing(sizes).expect("a tree"),
            Peer::Reusing => reusing::sharing(sizes).expect("a tree"),
            Peer::OneMap => one_map::sharing(sizes).expect("a map"),
            #[cfg(before)]
            Peer::Before => library::before::sharing(sizes).expect("a tree"),
            Peer::Bare => Crew::sharing(bare_tree(sizes), sizes),
            #[cfg(cpp_map)]
            Peer::Cpp(template) => Crew::of_cpp(template, sizes),
            #[cfg(java)]
            Peer::SkipList => Crew::sharing(SkipList::start(sizes), sizes),
            Peer::Mutex => Crew::of_locks::<Mutex<Map>, 1>(sizes),
            Peer::RwLock => Crew::of_locks::<RwLock<Map>, 1>(sizes),
            Peer::Mutexes => Crew::of_locks::<Mutex<Map>, SHARDS>(sizes),
            Peer::RwLocks => Crew::of_locks::<RwLock<Map>, SHARDS>(sizes),
            Peer::Private => Crew::of_private_maps(sizes),
            Peer::Ranging(way) => unreachable!("of {} only ranges are measured", way.name()),
        }
    }

    /// A new map of this kind, of counters that are 0. Only the `COUNTING` have them.
    pub fn counters(self, sizes: Sizes) -> Crew<dyn Counters> {
        match self {
            Peer::Elltree => library::elltree::counters(sizes).expect("a tree"),
            Peer::Reusing => reusing::counters(sizes).expect("a tree"),
            Peer::OneMap => one_map::counters(sizes).expect("a map"),
            #[cfg(before)]
            Peer::Before => library::before::counters(sizes).expect("a tree"),
            Peer::Mutex => counters_in_locks::<Mutex<Map>, 1>(sizes),
            Peer::Mutexes => counters_in_locks::<Mutex<Map>, SHARDS>(sizes),
            _ => unreachable!("{} has no counters", self.name()),
        }
    }

    /// A new map of this kind with all keys, as a queue. Only the `QUEUES` are some.
    pub fn queue(self, sizes: Sizes) -> Crew<dyn Queue> {
        match self {
            Peer::Elltree => library::queue(sizes).expect("a tree"),
            Peer::Reusing => reusing::queue(sizes).expect("a tree"),
            Peer::OneMap => one_map::queue(sizes).expect("a map"),
            Peer::Mutex => queue_in_lock(sizes),
            _ => unreachable!("{} is no queue", self.name()),
        }
    }
}
