//! Threads of Rust, 2 to 64, that share one map, which another thread renews all the time: they get, insert, put, remove and exchange the same
//! few keys and go over ranges of them. Each call is noted with its begin and its end by one clock, and the calls on each key are to be in order,
//! by the check of shared.rs. A range is noted as a get of each of its keys, and so is a snapshot. All threads add to counters in each way that
//! there is, and no addition is lost. A forked child can't use the map, and a closure that panics leaves it as it is. With `--seconds=N` it makes
//! rounds, with new seeds, for so long, and at the end the process has not much more memory than after a third of the time: the allocator takes
//! some more for a while, but a tree that is lost at each renewal would be many times as much.
use elltree::{Map, MapError, MapSettings};
use shared::{Call, Made, are_in_order, next, of_each};
use std::panic::{catch_unwind, resume_unwind};
use std::sync::atomic::{AtomicBool, AtomicU64, Ordering::SeqCst};
use std::time::{Duration, Instant};

#[allow(dead_code)]
#[path = "shared.rs"]
mod shared;

const START: [(u64, u64); 2] = [(1, 901), (3, 903)];
const ADDITIONS: u64 = 2_000;
// A counter stands behind the keys that the calls of a round are on.
const COUNTER: u64 = 1_000;

/// A map with few cards.
fn open(start: &[(u64, u64)]) -> Result<Map, MapError> {
    Map::from_sorted(start, MapSettings { cards: 1_000, ..Default::default() })
}

/// Exchanges the value that the worker has seen last for another: what it found is what it has seen.
fn exchange(map: &Map, key: u64, seen: &mut u64, new: u64) -> Result<Call, MapError> {
    let (current, said) = (*seen, map.compare_exchange(key, *seen, new)?);
    let found = said.map_or_else(|there| there, Some);
    *seen = if said.is_ok() { new } else { found.unwrap_or(current) };
    Ok(Call::Exchange(current, new, found))
}

/// Removes the key if it has the value that the worker has seen last.
fn remove_seen(map: &Map, key: u64, seen: u64) -> Result<Call, MapError> {
    Ok(match map.remove_if(key, seen)? {
        Ok(was) => Call::Take(Some(was)),
        Err(there) => Call::Find(there),
    })
}

/// Puts a value: this is an exchange of the value that was there, or an insert.
fn put(map: &Map, key: u64, new: u64) -> Result<Call, MapError> {
    Ok(match map.insert(key, new)? {
        Some(was) => Call::Exchange(was, new, Some(was)),
        None => Call::Insert(new, true),
    })
}

/// Gets or inserts a value: this is a get of the value that was there, or an insert.
fn get_or_insert(map: &Map, key: u64, new: u64) -> Result<Call, MapError> {
    let (there, is_added) = map.get_or_insert(key, new)?;
    assert!(!is_added || there == new, "{new} was added, and {there} is there");
    Ok(if is_added { Call::Insert(new, true) } else { Call::Find(Some(there)) })
}

/// What a range or a snapshot tells of each key.
fn go_over(map: &Map, keys: u64, random: u64) -> Vec<(u64, Option<u64>)> {
    let (from, upto) = ((random >> 24) % keys, (random >> 40) % keys + 1);
    let upto = upto.max(from);
    match random >> 12 & 15 {
        0 => of_each(0..keys, &map.pairs().into_iter().filter(|pair| pair.0 < keys).collect::<Vec<_>>()),
        1..=4 => {
            let mut pairs: Vec<_> = map.range(from..upto).rev().collect();
            pairs.reverse();
            of_each(from..upto, &pairs)
        }
        _ => of_each(from..upto, &map.range(from..upto).collect::<Vec<_>>()),
    }
}

/// One worker makes so many calls on keys below a number. No two values that are to be stored are the same.
fn work(map: &Map, worker: u32, keys: u64, calls: u64, mut seed: u64, clock: &AtomicU64) -> Result<Vec<Made>, MapError> {
    let (mut all, mut seen) = (Vec::new(), vec![0; keys as usize]);
    for number in 0..calls {
        let random = next(&mut seed);
        let (key, value) = ((random >> 20) % keys, u64::from(worker) << 32 | number);
        let begun = clock.fetch_add(1, SeqCst);
        let call = match random % 16 {
            0 | 1 => Call::Insert(value, map.try_insert(key, value)?),
            2 | 3 => get_or_insert(map, key, value)?,
            4 | 5 => Call::Delete(map.delete(key)?),
            6 => Call::Take(map.remove(key)?),
            7 => remove_seen(map, key, seen[key as usize])?,
            8 | 9 => exchange(map, key, &mut seen[key as usize], value)?,
            10 => put(map, key, value)?,
            11 => {
                let told = go_over(map, keys, random);
                let ended = clock.fetch_add(1, SeqCst);
                all.extend(told.into_iter().map(|(key, value)| Made { worker, key, call: Call::Find(value), begun, ended }));
                continue;
            }
            12 => {
                map.fetch_add(COUNTER, 1)?.unwrap();
                continue;
            }
            _ => Call::Find(map.get(key)),
        };
        let ended = clock.fetch_add(1, SeqCst);
        if let Call::Find(Some(there)) = call {
            seen[key as usize] = there;
        }
        all.push(Made { worker, key, call, begun, ended });
    }
    Ok(all)
}

/// Renews a map until this is over, and once at least.
fn renew_until(map: &Map, is_over: &AtomicBool) -> Result<(), MapError> {
    loop {
        map.renew()?;
        if is_over.load(SeqCst) {
            return Ok(());
        }
    }
}

/// Some threads call, beside one that renews the map: what each of them makes of its number.
fn in_threads<T: Send>(map: &Map, threads: u32, of_one: impl Fn(u32) -> Result<T, MapError> + Sync) -> Vec<T> {
    let (of_one, is_over) = (&of_one, &AtomicBool::new(false));
    std::thread::scope(|scope| {
        let renewing = scope.spawn(move || renew_until(map, is_over).unwrap());
        let working: Vec<_> = (0..threads).map(|worker| scope.spawn(move || of_one(worker).unwrap())).collect();
        let ended = working.into_iter().map(|thread| thread.join()).collect::<Vec<_>>();
        is_over.store(true, SeqCst);
        renewing.join().unwrap();
        ended.into_iter().map(Result::unwrap).collect()
    })
}

/// One round of so many threads on keys below a number: how many calls they made, and how often the map was renewed.
fn round(threads: u32, keys: u64, calls: u64, seed: u64) -> Result<(usize, u64), MapError> {
    let mut start: Vec<(u64, u64)> = START.into_iter().filter(|pair| pair.0 < keys).collect();
    start.push((COUNTER, 0));
    let (map, clock) = (open(&start)?, AtomicU64::new(1));
    let seed_of = |worker: u32| (seed * 64 + u64::from(worker) + 1).wrapping_mul(0x9e37_79b9_7f4a_7c15);
    let made = in_threads(&map, threads, |worker| work(&map, worker, keys, calls, seed_of(worker), &clock)).concat();
    let mut there = 1;
    for key in 0..keys {
        let left = map.get(key);
        there += usize::from(left.is_some());
        let mut history: Vec<Made> = made.iter().filter(|made| made.key == key).copied().collect();
        history.push(Made { worker: 63, key, call: Call::Find(left), begun: u64::MAX, ended: u64::MAX });
        let first = start.iter().find(|pair| pair.0 == key).map(|pair| pair.1);
        assert!(are_in_order(first, &history), "out of order: key {key}, {threads} threads, {keys} keys, seed {seed}");
    }
    assert_eq!((map.len(), map.pairs().len()), (there, there), "{threads} threads, {keys} keys, seed {seed}");
    Ok((made.len(), map.counts().renewals))
}

/// Adds one by a get and as many exchanges as it takes.
fn exchange_one_more(map: &Map, key: u64) -> Result<(), MapError> {
    let mut value = map.get(key).unwrap();
    while let Err(there) = map.compare_exchange(key, value, value + 1)? {
        value = there.unwrap();
    }
    Ok(())
}

/// All threads add to three counters: each ends at the sum. One way calls the map again while it computes.
fn count(threads: u32) -> Result<u64, MapError> {
    let map = open(&[(1, 0), (2, 0), (3, 0), (4, 0)])?;
    let each = ADDITIONS / u64::from(threads);
    in_threads(&map, threads, |_| {
        for _ in 0..each {
            map.fetch_add(1, 1)?.unwrap();
            map.update(2, |value| value + map.get(4).map_or(0, |zero| zero + 1))?.unwrap();
            exchange_one_more(&map, 3)?;
        }
        Ok(())
    });
    for key in 1..=3 {
        assert_eq!(map.get(key), Some(each * u64::from(threads)), "counter {key} of {threads} threads");
    }
    Ok(map.counts().renewals)
}

/// The pages that the process has in memory.
fn pages() -> u64 {
    let text = std::fs::read_to_string("/proc/self/statm").unwrap_or_default();
    text.split(' ').nth(1).and_then(|pages| pages.parse().ok()).unwrap_or(0)
}

/// All kinds of rounds, each once: how many calls they made, and how often the maps were renewed.
fn rounds(seed: u64) -> Result<(usize, u64), MapError> {
    let mut sums = (0, 0);
    for threads in [2, 4, 8, 16, 32, 64] {
        for keys in [2, 8, 64] {
            let (made, renewals) = round(threads, keys, 8_000 / u64::from(threads), seed)?;
            sums = (sums.0 + made, sums.1 + renewals);
        }
        sums.1 += count(threads)?;
    }
    Ok(sums)
}

/// Returns whether a forked child can't use its parent's map: each call that changes keys is refused, also one that is made of others, and calls that
/// read find no key.
fn is_refused(map: &Map) -> bool {
    let changes = [
        map.insert(1, 11).err(),
        map.try_insert(2, 20).err(),
        map.get_or_insert(1, 11).err(),
        map.update(1, |value| value + 1).err(),
        map.remove(1).err(),
        map.remove_if(1, 10).err(),
        map.pop_first().err(),
        map.pop_last().err(),
        map.extend([(3, 30)]).err(),
        map.clear().err(),
        map.retain(|_, _| false).err(),
        map.renew().err(),
    ];
    changes.iter().all(|why| *why == Some(MapError::Forked))
        && map.get(1).is_none()
        && map.is_empty()
        && map.iter().next().is_none()
        && map.pairs().is_empty()
}

/// Forks a child that calls a map of this process.
fn fork() -> Result<(), MapError> {
    unsafe extern "C" {
        fn fork() -> i32;
        fn waitpid(child: i32, status: &mut i32, options: i32) -> i32;
        fn _exit(status: i32) -> !;
    }
    let (map, mut status) = (Map::try_from_iter([(1, 10)])?, 1);
    // SAFETY: the child calls the map and nothing else before it ends.
    unsafe {
        let child = fork();
        if child == 0 {
            _exit(i32::from(!is_refused(&map)));
        }
        waitpid(child, &mut status, 0);
    }
    assert!(status == 0 && map.get(1) == Some(10), "a forked child ends with {status}");
    Ok(())
}

/// A closure of the caller's that panics ends its call, and the map goes on with what it had.
fn panics() -> Result<(), MapError> {
    fn end<T>() -> T {
        resume_unwind(Box::new("a closure"))
    }
    let map = Map::try_from_iter([(1, 10), (2, 20), (3, 30)])?;
    assert!(catch_unwind(|| map.update(1, |_| end())).is_err() && map.pairs() == [(1, 10), (2, 20), (3, 30)]);
    assert!(catch_unwind(|| map.retain(|key, _| if key < 3 { key == 2 } else { end() })).is_err() && map.pairs() == [(2, 20), (3, 30)]);
    map.renew()?; // waits for calls under way
    assert_eq!((map.insert(1, 11)?, map.update(1, |value| value + 1)?, map.get(1)), (None, Some(11), Some(12)));
    Ok(())
}

/// What docs/MAP.md shows of keys and values that have types of their own.
fn typed() -> Result<(), MapError> {
    let bids = elltree::TypedMap::<i64, u32>::try_from_iter([(-5, 50), (7, 70), (-20, 200)])?;
    assert_eq!(bids.range(-10..).collect::<Vec<_>>(), [(-5, 50), (7, 70)]);
    assert_eq!(bids.pop_first()?, Some((-20, 200)));
    Ok(())
}

fn main() -> Result<(), MapError> {
    fork()?;
    panics()?;
    typed()?;
    let seconds = std::env::args().nth(1).map_or(0, |word| word.strip_prefix("--seconds=").expect("--seconds=N").parse().expect("a number"));
    let begun = Instant::now();
    let (mut seed, mut calls, mut renewals, mut first_pages) = (0, 0, 0, 0);
    while seed == 0 || begun.elapsed() < Duration::from_secs(seconds) {
        seed += 1;
        let (made, renewed) = rounds(seed)?;
        (calls, renewals) = (calls + made, renewals + renewed);
        if begun.elapsed() < Duration::from_secs(seconds / 3) {
            first_pages = pages();
        }
    }
    assert!(renewals > 50, "{renewals} renewals");
    assert!(seed < 10 || pages() < first_pages * 3 / 2 + 4_096, "{first_pages} pages, and then {}", pages());
    println!("{calls} calls in order, {renewals} renewals, {first_pages} pages and then {}, {} s", pages(), begun.elapsed().as_secs());
    Ok(())
}
