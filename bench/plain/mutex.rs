// A program that bench/run measures elltree against: the same operations in threads, on a `BTreeMap` behind a `Mutex`.

mod map;
mod text;
mod workers;

use map::apply;
use std::collections::BTreeMap;
use std::io;
use std::sync::Mutex;
use std::{env, process};
use text::{read_bulk, write_answer};
use workers::{settings, work};

fn main() -> io::Result<()> {
    let Some(settings) = settings(env::args().skip(1)) else {
        eprintln!("mutex: give the number of workers, 1 to 64, and stripe or range");
        process::exit(2);
    };
    let bulk = read_bulk()?;
    let map = Mutex::new(BTreeMap::from_iter(bulk.start));
    let replies = work(&bulk.operations, &settings, |operation| apply(operation, &mut map.lock().unwrap()));
    write_answer(bulk.has_values, &replies, map.into_inner().unwrap().into_iter())
}
