//! How long it takes to fill a map that was empty, in one order of the keys or another.

use crate::pauses::{self, Load};
use crate::peers::{Peer, Sizes, View};
use crate::record::Figure;
use crate::work::{self, Random};
use std::sync::Barrier;
use std::sync::atomic::{AtomicUsize, Ordering};
use std::thread;
use std::time::{Duration, Instant};

/// How many keys a thread takes at a time.
const BLOCK: usize = 1_000;

/// The order in which keys are inserted.
#[derive(Clone, Copy, PartialEq, Eq, PartialOrd, Ord)]
pub enum Order {
    Ascending,
    Descending,
    Shuffled,
}

impl Order {
    pub const ALL: [Order; 3] = [Order::Ascending, Order::Descending, Order::Shuffled];

    pub fn name(self) -> &'static str {
        match self {
            Order::Ascending => "ascending",
            Order::Descending => "descending",
            Order::Shuffled => "shuffled",
        }
    }

    /// The numbers below this in this order, which is the same each time.
    pub fn keys(self, count: u64) -> Vec<u64> {
        let mut keys: Vec<u64> = (0..count).collect();
        match self {
            Order::Ascending => {}
            Order::Descending => keys.reverse(),
            Order::Shuffled => Random::new(4).shuffle(&mut keys),
        }
        keys
    }

    /// Whether keys are inserted so into a map of this kind. Where keys in order make a tree deep, they would take minutes.
    fn suits(self, peer: Peer) -> bool {
        self == Order::Shuffled || !peer.grows_deep()
    }
}

/// Inserts these keys, which are absent.
pub fn fill(writer: &mut dyn View, keys: &[u64]) {
    for &key in keys {
        assert!(writer.insert(key, key + 7), "{key} was absent");
    }
}

/// Inserts the next block of these keys that no thread has taken, again and again, and returns how long it took.
fn insert_blocks(writer: &mut dyn View, keys: &[u64], next: &AtomicUsize, begin: &Barrier) -> Duration {
    begin.wait();
    let begun = Instant::now();
    while let Some(block) = keys.chunks(BLOCK).nth(next.fetch_add(1, Ordering::Relaxed)) {
        fill(writer, block);
    }
    begun.elapsed()
}

/// Has all writers of a new map without keys insert all of them, in this order, or as many as it may have: how long an insert took, in
/// nanoseconds of the time of all threads together, and how often and how long the map paused, if it renews itself.
pub fn inserts_in(order: Order, peer: Peer, sizes: Sizes) -> Vec<(Figure, f64)> {
    let mut keys = order.keys(sizes.keys);
    keys.truncate(peer.most_inserts());
    let keys = &keys;
    work::tidy_memory();
    let mut crew = peer.crew(Sizes { keys: 0, ..sizes });
    let (next, begin) = (&AtomicUsize::new(0), &Barrier::new(crew.threads()));
    let took: Vec<Duration> = thread::scope(|scope| {
        let insert_all = |writer| scope.spawn(move || insert_blocks(writer, keys, next, begin));
        let threads: Vec<_> = crew.writers.iter_mut().map(|writer| insert_all(&mut **writer)).collect();
        threads.into_iter().map(|thread| thread.join().unwrap()).collect()
    });
    for &key in keys.iter().step_by(BLOCK) {
        assert_eq!(crew.writers[0].find(key), Some(key + 7), "{key} is there in {}", peer.name());
    }
    let mean = took.iter().sum::<Duration>().as_nanos() as f64 / keys.len() as f64;
    let longest = took.into_iter().max().expect("a thread");
    let of_pauses = crew.renewing.map(|map| pauses::figures(Load::Inserts(order), map.counts(), longest));
    [vec![(Figure::Insert(order), mean)], of_pauses.unwrap_or_default()].concat()
}

/// The inserts in each order, into a new map each time.
pub fn inserts(peer: Peer, sizes: Sizes) -> Vec<(Figure, f64)> {
    Order::ALL.into_iter().filter(|order| order.suits(peer)).flat_map(|order| inserts_in(order, peer, sizes)).collect()
}
