//! Four threads of Rust with handles of one tree on neighboring keys, each on keys of its own, so that its answers are those of a `BTreeMap` of its
//! own, while a fifth one looks at all keys; then four that use up all cards, and go on in a new tree with the pairs of the old one, again and
//! again.
use elltree::{Handle, Refused, Tree};
use std::collections::BTreeMap;
use std::sync::atomic::{AtomicBool, Ordering};

const THREADS: u64 = 4;
const KEYS: u64 = 1000;
const CALLS: u64 = 60_000;
const CARDS: u64 = 10_000;

type Plain = BTreeMap<u64, u64>;

fn next(seed: &mut u64) -> u64 {
    *seed ^= *seed << 13;
    *seed ^= *seed >> 7;
    *seed ^= *seed << 17;
    *seed
}

// A value has its key in the low digits.
fn value_of(key: u64, random: u64) -> u64 {
    random % 1_000_000 * KEYS + key
}

// A key of a thread's own.
fn own_key(random: u64, id: u64) -> u64 {
    (random >> 20) % (KEYS / THREADS) * THREADS + id
}

// The pairs of a thread's own keys that a range tells.
fn own_pairs(handle: &mut Handle, id: u64) -> Vec<(u64, u64)> {
    handle.range(..).filter(|pair| pair.0 % THREADS == id).collect()
}

fn work(handle: &mut Handle, id: u64, mut plain: Plain) -> Result<usize, Refused> {
    let (mut seed, mut wrong) = (99 + id, 0);
    for _ in 0..CALLS {
        let random = next(&mut seed);
        let key = own_key(random, id);
        let (value, was) = (value_of(key, random), plain.get(&key).copied());
        wrong += usize::from(match random % 8 {
            0 => {
                plain.entry(key).or_insert(value);
                handle.insert(key, value, 1000)? != was.is_none()
            }
            1 => handle.put(key, value, 1000)? != plain.insert(key, value),
            2 => handle.delete(key, 1000)? != plain.remove(&key).is_some(),
            3 => handle.take(key, 1000)? != plain.remove(&key),
            4 | 5 => handle.find(key) != was,
            _ => handle.look(key) != was,
        });
    }
    Ok(wrong + usize::from(own_pairs(handle, id) != plain.into_iter().collect::<Vec<_>>()))
}

// Changes keys of its own, also by comparing, until all cards are given out.
fn spend(handle: &mut Handle, id: u64, plain: &mut Plain, seed: &mut u64) -> Result<(), Refused> {
    loop {
        let random = next(seed);
        let key = own_key(random, id);
        let value = value_of(key, random);
        match plain.get(&key).copied() {
            None => assert!(handle.insert(key, value, 1000)?),
            Some(was) if random.is_multiple_of(3) => {
                assert_eq!((handle.remove_if(key, was ^ 1, 1000)?, handle.remove_if(key, was, 1000)?), (Err(Some(was)), Ok(was)));
            }
            Some(was) => {
                assert_eq!(handle.compare_exchange(key, was, value, 1000)?, Ok(was));
                plain.insert(key, value);
                continue;
            }
        }
        if plain.remove(&key).is_none() {
            plain.insert(key, value);
        }
    }
}

// One tree, from these pairs on, whose cards four threads use up: its pairs at the end. They are those of the threads' plain maps.
fn use_up(start: &[(u64, u64)], plain: &mut [Plain], seeds: &mut [u64]) -> Result<Vec<(u64, u64)>, Refused> {
    let tree = Tree::open(start, CARDS)?;
    let mut handle = tree.handle()?;
    assert_eq!((handle.cards_left(), handle.range(..).collect::<Vec<_>>()), (CARDS, start.to_vec()));
    std::thread::scope(|threads| {
        for ((plain, seed), id) in plain.iter_mut().zip(seeds).zip(0..) {
            let tree = &tree;
            threads.spawn(move || {
                let mut handle = tree.handle().unwrap();
                assert_eq!((spend(&mut handle, id, plain, seed), handle.cards_left()), (Err(Refused::Spent), 0));
            });
        }
    });
    let all: BTreeMap<u64, u64> = plain.iter().flatten().map(|(&key, &value)| (key, value)).collect();
    drop(tree);
    assert!((0..KEYS).all(|key| handle.find(key) == all.get(&key).copied() && handle.look(key) == handle.find(key)));
    let pairs: Vec<(u64, u64)> = handle.range(..).collect();
    assert!(pairs.iter().copied().eq(all));
    Ok(pairs)
}

// Looks at all keys until the others are done: how many values are not of their keys.
fn look_at_all(handle: &mut Handle, is_over: &AtomicBool) -> usize {
    let mut wrong = 0;
    while !is_over.load(Ordering::SeqCst) {
        wrong += (0..KEYS).filter(|key| handle.look(*key).is_some_and(|value| value % KEYS != *key)).count();
        wrong += handle.range(..).filter(|(key, value)| value % KEYS != *key).count();
    }
    wrong
}

fn main() -> Result<(), Refused> {
    let (mut plain, mut seeds, mut pairs) = (vec![Plain::new(); THREADS as usize], (1..=THREADS).collect::<Vec<_>>(), Vec::new());
    for _ in 0..10 {
        pairs = use_up(&pairs, &mut plain, &mut seeds)?;
    }
    let start: Vec<(u64, u64)> = (0..KEYS).step_by(2).map(|key| (key, value_of(key, key))).collect();
    let tree = Tree::open(&start, 400_000)?;
    let mut reader = tree.handle()?;
    let is_over = AtomicBool::new(false);
    let wrong = std::thread::scope(|threads| {
        let looking = threads.spawn(|| look_at_all(&mut reader, &is_over));
        let working: Vec<_> = (0..THREADS)
            .map(|id| {
                let plain = start.iter().copied().filter(|pair| pair.0 % THREADS == id).collect();
                let tree = &tree;
                threads.spawn(move || work(&mut tree.handle().unwrap(), id, plain).unwrap())
            })
            .collect();
        let wrong: usize = working.into_iter().map(|thread| thread.join().unwrap()).sum();
        is_over.store(true, Ordering::SeqCst);
        wrong + looking.join().unwrap()
    });
    assert_eq!(Tree::open(&[], 0).unwrap_err().to_string(), "cards are not 1 to 1,000,000");
    println!("{wrong} wrong");
    assert_eq!(wrong, 0);
    Ok(())
}
