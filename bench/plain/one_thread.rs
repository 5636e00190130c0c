// A program that bench/run measures elltree against: the same operations on a `BTreeMap`, in one thread.

mod map;
mod text;

use map::apply;
use std::collections::BTreeMap;
use std::io;
use text::{Reply, read_bulk, write_answer};

fn main() -> io::Result<()> {
    let bulk = read_bulk()?;
    let mut map = BTreeMap::from_iter(bulk.start);
    let replies: Vec<Reply> = bulk.operations.into_iter().map(|operation| apply(operation, &mut map)).collect();
    write_answer(bulk.has_values, &replies, map.into_iter())
}
