// A program that bench/run measures elltree against: the same operations in threads, on the same tree over bare atomic words.

mod bare_tree;
mod text;
mod workers;

use bare_tree::BareTree;
use std::io;
use std::{env, process};
use text::{Operation, Reply, read_bulk, write_answer};
use workers::{settings, work};

fn main() -> io::Result<()> {
    let Some(settings) = settings(env::args().skip(1)) else {
        eprintln!("bare: give the number of workers, 1 to 64, and stripe or range");
        process::exit(2);
    };
    let bulk = read_bulk()?;
    let tree = BareTree::reserve(&bulk.start, 4 * bulk.operations.len() as u64 + 64);
    let replies = work(&bulk.operations, &settings, |operation| {
        let reply = match operation {
            Operation::Insert(key, value) => tree.insert(key, value).map(Reply::from),
            Operation::Delete(key) => tree.delete(key).map(Reply::from),
            Operation::Find(key) => Some(Reply::from(tree.find(key))),
        };
        reply.expect("a card for each try")
    });
    write_answer(bulk.has_values, &replies, tree.pairs().into_iter())
}
