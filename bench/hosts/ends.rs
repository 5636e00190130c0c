//! How long it takes to use a map as a queue: each thread adds the next key behind all others and takes the least one, again and again.

use crate::pauses::{self, Load};
use crate::peers::{Peer, Queue, Sizes};
use crate::record::Figure;
use crate::work;
use std::sync::Barrier;
use std::sync::atomic::{AtomicU64, Ordering};
use std::thread;
use std::time::{Duration, Instant};

/// How many turns all threads make together. In each a key comes and a key goes, so all keys are others after half of them.
const TURNS: u64 = 200_000;

/// What threads did with a queue.
#[derive(Clone, Copy, Default)]
struct Turned {
    took: Duration,
    turns: u64,
    /// The sum of the keys that came, without that of those that went.
    gained: i64,
}

impl Turned {
    fn and(self, other: Turned) -> Turned {
        Turned { took: self.took + other.took, turns: self.turns + other.turns, gained: self.gained + other.gained }
    }
}

/// Adds the next key that no thread has added, and takes the least one, until the keys are at their end, or the cards are.
fn turn(queue: &mut dyn Queue, next: &AtomicU64, end: u64, begin: &Barrier) -> Turned {
    let (mut turns, mut gained) = (0, 0);
    begin.wait();
    let begun = Instant::now();
    loop {
        let key = next.fetch_add(1, Ordering::Relaxed);
        if key >= end || !queue.add_last(key) {
            break;
        }
        gained += key as i64;
        let Some(least) = queue.take_least() else {
            break;
        };
        gained -= least as i64;
        turns += 1;
    }
    Turned { took: begun.elapsed(), turns, gained }
}

/// Has all writers of a new queue of so many keys turn it: how long a turn took, in nanoseconds of the time of all threads together, and how
/// often and how long the map paused, if it renews itself. Each key that came is there at the end, or went once.
pub fn ends(peer: Peer, sizes: Sizes) -> Vec<(Figure, f64)> {
    work::tidy_memory();
    let mut crew = peer.queue(sizes);
    let end = sizes.keys + TURNS;
    let (next, begin) = (&AtomicU64::new(sizes.keys), &Barrier::new(crew.threads()));
    let turned: Vec<Turned> = thread::scope(|scope| {
        let threads: Vec<_> = crew.writers.iter_mut().map(|queue| scope.spawn(move || turn(&mut **queue, next, end, begin))).collect();
        threads.into_iter().map(|thread| thread.join().unwrap()).collect()
    });
    let all = turned.iter().copied().fold(Turned::default(), Turned::and);
    let there: u64 = (0..end).filter(|key| crew.writers[0].find(*key).is_some()).sum();
    assert_eq!(there as i64 - all.gained, sizes.all().keys().sum::<u64>() as i64, "the keys of {} and its answers", peer.name());
    let mean = all.took.as_nanos() as f64 / all.turns as f64;
    let longest = turned.into_iter().map(|it| it.took).max().expect("a thread");
    let of_pauses = crew.renewing.map(|map| pauses::figures(Load::Turns, map.counts(), longest));
    [vec![(Figure::Turn, mean)], of_pauses.unwrap_or_default()].concat()
}
