//! Operations that are parted among threads, each key with one of them.

use crate::text::{Operation, Reply};
use std::thread;

type Part = Vec<(usize, Operation)>;

/// What the program's arguments ask for: the number of workers, and whether they have ranges of the keys rather than stripes.
pub struct Settings {
    workers: usize,
    by_range: bool,
}

/// Takes `WORKERS stripe` or `WORKERS range`.
pub fn settings(mut words: impl Iterator<Item = String>) -> Option<Settings> {
    let workers = words.next()?.parse().ok().filter(|count| (1..=64).contains(count))?;
    let by_range = match words.next()?.as_str() {
        "stripe" => false,
        "range" => true,
        _ => return None,
    };
    Some(Settings { workers, by_range })
}

fn distinct_keys(operations: &[Operation]) -> Vec<u64> {
    let mut keys: Vec<u64> = operations.iter().map(|operation| operation.key()).collect();
    keys.sort_unstable();
    keys.dedup();
    keys
}

fn part_by(operations: &[Operation], workers: usize, owner: impl Fn(u64) -> usize) -> Vec<Part> {
    let mut parts = vec![Vec::with_capacity(operations.len() / workers); workers];
    for (at, &operation) in operations.iter().enumerate() {
        parts[owner(operation.key())].push((at, operation));
    }
    parts
}

fn part(operations: &[Operation], settings: &Settings) -> Vec<Part> {
    let workers = settings.workers;
    if !settings.by_range {
        return part_by(operations, workers, |key| (key % workers as u64) as usize);
    }
    let keys = distinct_keys(operations);
    let share = keys.len().div_ceil(workers).max(1);
    let starts: Vec<u64> = keys.iter().copied().step_by(share).skip(1).collect();
    part_by(operations, workers, |key| starts.partition_point(|&start| start <= key))
}

/// Does all operations, each part of them in a thread of its own, the first in this one: the replies, in the order of the list.
pub fn work(operations: &[Operation], settings: &Settings, apply: impl Fn(Operation) -> Reply + Sync) -> Vec<Reply> {
    let parts = part(operations, settings);
    let work_off = |part: &Part| -> Vec<(usize, Reply)> {
        let replies = part.iter().map(|&(at, operation)| (at, apply(operation)));
        replies.collect()
    };
    let pieces: Vec<Vec<(usize, Reply)>> = thread::scope(|scope| {
        let others: Vec<_> = parts[1..].iter().map(|part| scope.spawn(|| work_off(part))).collect();
        let first = work_off(&parts[0]);
        let others = others.into_iter().map(|thread| thread.join().unwrap());
        [first].into_iter().chain(others).collect()
    });
    let mut replies = vec![Reply::No; operations.len()];
    for (at, reply) in pieces.into_iter().flatten() {
        replies[at] = reply;
    }
    replies
}
