// A program that bench/run measures elltree against: the same operations in threads, on 16 `BTreeMap`s, each behind a `Mutex`.

mod map;
mod text;
mod workers;

use map::apply;
use std::collections::BTreeMap;
use std::io;
use std::sync::Mutex;
use std::{array, env, process};
use text::{read_bulk, write_answer};
use workers::{settings, work};

const SHARDS: usize = 16;

/// A part of the map with its lock, away from the words of the others.
#[repr(align(128))]
struct Shard(Mutex<BTreeMap<u64, u64>>);

/// The shard of a key, by the mix that bench/hosts has for its shards.
fn shard_of(key: u64) -> usize {
    (key.wrapping_mul(0x9E37_79B9_7F4A_7C15) >> 32) as usize % SHARDS
}

/// Puts pairs, which ascend, into their shards.
fn shards(pairs: Vec<(u64, u64)>) -> [Shard; SHARDS] {
    let mut parts: [Vec<(u64, u64)>; SHARDS] = array::from_fn(|_| Vec::new());
    for pair in pairs {
        parts[shard_of(pair.0)].push(pair);
    }
    parts.map(|part| Shard(Mutex::new(BTreeMap::from_iter(part))))
}

/// The pairs of all shards, ascending: the sort finds the run of each shard, and merges them.
fn pairs(shards: [Shard; SHARDS]) -> Vec<(u64, u64)> {
    let mut pairs: Vec<_> = shards.into_iter().flat_map(|shard| shard.0.into_inner().unwrap()).collect();
    pairs.sort();
    pairs
}

fn main() -> io::Result<()> {
    let Some(settings) = settings(env::args().skip(1)) else {
        eprintln!("sharded: give the number of workers, 1 to 64, and stripe or range");
        process::exit(2);
    };
    let bulk = read_bulk()?;
    let shards = shards(bulk.start);
    let replies = work(&bulk.operations, &settings, |operation| apply(operation, &mut shards[shard_of(operation.key())].0.lock().unwrap()));
    write_answer(bulk.has_values, &replies, pairs(shards).into_iter())
}
