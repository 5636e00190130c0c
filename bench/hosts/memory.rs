//! How much memory a map takes. A process of its own fills it, so that nothing is in the way that another map has left.

use crate::inserts::{Order, fill};
use crate::peers::{Peer, Sizes};
use crate::record::Figure;
use std::process::Command;
use std::{env, fs};

/// The word that has this program fill one map, and tell its memory.
const WORD: &str = "memory";

/// How many bytes a new map takes for each of so many shuffled keys, or of as many as it may have.
pub fn memory(peer: Peer, sizes: Sizes) -> Vec<(Figure, f64)> {
    let program = env::current_exe().expect("this program");
    let told = Command::new(program).args([WORD, peer.name(), &sizes.keys.to_string()]).output().expect("this program runs");
    let bytes = String::from_utf8_lossy(&told.stdout).trim().parse();
    vec![(Figure::BytesAKey, bytes.unwrap_or_else(|_| panic!("{}: {}", peer.name(), String::from_utf8_lossy(&told.stderr))))]
}

/// How many bytes this process has in memory.
fn resident() -> u64 {
    let rollup = fs::read_to_string("/proc/self/smaps_rollup").expect("the memory of this process");
    let kilobytes = rollup.lines().find_map(|line| line.strip_prefix("Rss:")?.strip_suffix("kB")?.trim().parse::<u64>().ok());
    1_024 * kilobytes.expect("a resident set")
}

/// How many bytes a map of this name takes for each key, if these words ask this process to fill one.
pub fn answer(words: &[String]) -> Option<f64> {
    match words {
        [word, name, keys] if word == WORD => Some(bytes_a_key(named(name)?, keys.parse().ok()?)),
        _ => None,
    }
}

fn named(name: &str) -> Option<Peer> {
    Peer::FRONT.iter().copied().find(|peer| peer.name() == name)
}

/// Fills a map in this process, and returns by how much that has grown for each key.
fn bytes_a_key(peer: Peer, count: u64) -> f64 {
    let mut keys = Order::Shuffled.keys(count);
    keys.truncate(peer.most_inserts());
    let before = resident();
    let mut crew = peer.crew(Sizes { keys: 0, writers: 1, readers: 0, shared: true });
    fill(&mut *crew.writers[0], &keys);
    resident().saturating_sub(before) as f64 / keys.len() as f64
}
