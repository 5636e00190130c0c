//! Threads of Rust, 2 to 64, each with a handle of one tree, that find, insert, delete, take, put, add to, exchange and remove by their values the
//! same few keys, and go over ranges of them, both ways. Each call is noted with its begin and its end by one clock, and the calls on each key are
//! to be in order: each has a point between its begin and its end, and one map gives their answers in the order of these points. A range is noted
//! as a find of each of its keys. At the end of each round each key is as the last of them leave it. So it is also in trees of few cards, which come
//! back, where a call is made again if each card was in use. Then all threads at once insert one key, and
//! delete it, again and again: each time one of them answers yes. All threads add to counters in each way that there is, and no addition is lost,
//! and no sum is answered twice; beside a thread that puts ascending values, the others find one each time, and never a lower one than before. With
//! `--seconds=N` it makes rounds, with new seeds, for so long. The check of the order is tried first, on histories that a person worked out.
use elltree::{Handle, Refused, Tree};
use std::collections::{BTreeSet, HashSet};
use std::sync::Barrier;
use std::sync::atomic::{AtomicU64, Ordering::SeqCst};
use std::time::{Duration, Instant};

const TRIES: u32 = 100_000;
const CARDS: u64 = 100_000;
const START: [(u64, u64); 2] = [(1, 901), (3, 903)];
const RACES: u64 = 20;
const ADDITIONS: u64 = 2_000;

/// A call, with what it answered.
#[derive(Clone, Copy, Debug, PartialEq)]
pub enum Call {
    Find(Option<u64>),
    Insert(u64, bool),
    Delete(bool),
    /// A delete that answers the value that it took.
    Take(Option<u64>),
    /// An exchange of one value for another, with the value that it found.
    Exchange(u64, u64, Option<u64>),
}

impl Call {
    /// The value of the key behind the call, if it is answered so where the key has this one.
    fn after(self, value: Option<u64>) -> Option<Option<u64>> {
        match (self, value) {
            (Call::Find(said), _) if said == value => Some(value),
            (Call::Insert(_, false), Some(_)) | (Call::Delete(false), None) => Some(value),
            (Call::Insert(new, true), None) => Some(Some(new)),
            (Call::Delete(true), Some(_)) => Some(None),
            (Call::Take(said), _) if said == value => Some(None),
            (Call::Exchange(current, new, said), _) if said == value => Some(if said == Some(current) { Some(new) } else { value }),
            _ => None,
        }
    }
}

/// A call with its worker, below 64, its key, and its begin and its end. A worker makes one call at a time.
#[derive(Clone, Copy, Debug)]
pub struct Made {
    pub worker: u32,
    pub key: u64,
    pub call: Call,
    pub begun: u64,
    pub ended: u64,
}

/// What an order of points comes to: which workers have had the points of their calls that go on, by bits, and the value of the key.
type Standing = (u64, Option<u64>);

/// Adds all standings to which points of calls that go on lead, of one call the last.
fn explore(standing: Standing, going: &[Made], last: u32, seen: &mut HashSet<Standing>) {
    let (mut done, value) = standing;
    // A call that changes nothing may have its point at once: no order is lost by that.
    for made in going.iter().filter(|made| made.call.after(value) == Some(value)) {
        done |= 1 << made.worker;
    }
    if !seen.insert((done, value)) || done >> last & 1 == 1 {
        return;
    }
    let left: Vec<&Made> = going.iter().filter(|made| done >> made.worker & 1 == 0).collect();
    for made in &left {
        // Of two that change the key alike, the one that ends first comes first: no order is lost by that either.
        let is_first = left.iter().all(|other| other.call != made.call || made.ended <= other.ended);
        if let (true, Some(next)) = (is_first, made.call.after(value)) {
            explore((done | 1 << made.worker, next), going, last, seen);
        }
    }
}

/// The calls, where inserts whose values no call finds all add one value, which no call finds.
fn with_found_values(calls: &[Made]) -> Vec<Made> {
    let found_by = |call: Call| if let Call::Find(said) | Call::Take(said) | Call::Exchange(_, _, said) = call { said } else { None };
    let found: HashSet<u64> = calls.iter().filter_map(|made| found_by(made.call)).collect();
    let other = (0..).find(|value| !found.contains(value)).unwrap();
    let with_found = |call: Call| match call {
        Call::Insert(value, said) if !found.contains(&value) => Call::Insert(other, said),
        _ => call,
    };
    calls.iter().map(|made| Made { call: with_found(made.call), ..*made }).collect()
}

/// Whether calls on one key are in order, from its value at the start.
pub fn are_in_order(start: Option<u64>, calls: &[Made]) -> bool {
    let calls = with_found_values(calls);
    let mut moments: Vec<(u64, bool, &Made)> = calls.iter().flat_map(|made| [(made.begun, false, made), (made.ended, true, made)]).collect();
    moments.sort_by_key(|&(time, ends, _)| (time, ends));
    let (mut going, mut standings) = (Vec::<Made>::new(), HashSet::from([(0, start)]));
    for (_, ends, made) in moments {
        if !ends {
            going.push(*made);
            continue;
        }
        let (mut seen, bit) = (HashSet::new(), 1 << made.worker);
        for standing in standings {
            explore(standing, &going, made.worker, &mut seen);
        }
        standings = seen.into_iter().filter(|standing| standing.0 & bit != 0).map(|(done, value)| (done & !bit, value)).collect();
        going.retain(|other| other.worker != made.worker);
    }
    !standings.is_empty()
}

/// Tries the check on histories of calls by workers 0, 1 and so on, each with its begin and its end, from the key absent.
fn try_the_check() {
    use Call::*;
    let wrong: [&[(Call, u64, u64)]; 15] = [
        &[(Insert(50, true), 1, 4), (Insert(51, true), 2, 3)],
        &[(Insert(50, false), 1, 2)],
        &[(Find(Some(50)), 1, 2), (Insert(50, true), 3, 4)],
        &[(Insert(50, true), 1, 2), (Find(None), 3, 4)],
        &[(Insert(50, true), 1, 2), (Delete(false), 3, 4)],
        &[(Insert(50, true), 1, 2), (Insert(51, false), 3, 4), (Find(Some(51)), 5, 6)],
        &[(Insert(50, true), 1, 10), (Find(Some(50)), 2, 3), (Find(None), 4, 5)],
        &[(Insert(50, true), 1, 2), (Delete(true), 3, 6), (Delete(true), 4, 5)],
        &[(Insert(50, true), 1, 2), (Delete(true), 3, 9), (Insert(51, true), 4, 8), (Find(Some(51)), 5, 6), (Find(Some(50)), 7, 10)],
        &[(Insert(50, true), 1, 2), (Exchange(50, 51, Some(50)), 3, 4), (Find(Some(50)), 5, 6)],
        &[(Insert(50, true), 1, 2), (Exchange(50, 51, Some(50)), 3, 6), (Exchange(50, 52, Some(50)), 4, 5)],
        &[(Insert(50, true), 1, 2), (Exchange(49, 51, Some(50)), 3, 4), (Find(Some(51)), 5, 6)],
        &[(Insert(50, true), 1, 2), (Take(Some(50)), 3, 6), (Take(Some(50)), 4, 5)],
        &[(Insert(50, true), 1, 2), (Exchange(50, 51, Some(50)), 3, 4), (Take(Some(50)), 5, 6)],
        &[(Insert(50, true), 1, 2), (Delete(true), 3, 5), (Insert(51, true), 6, 7), (Take(Some(50)), 4, 8)],
    ];
    let right: [&[(Call, u64, u64)]; 8] = [
        &[(Insert(50, false), 1, 4), (Insert(51, true), 2, 3)],
        &[(Insert(50, true), 1, 10), (Find(Some(50)), 2, 3), (Find(Some(50)), 4, 5)],
        &[(Insert(50, true), 1, 10), (Find(None), 2, 5), (Find(Some(50)), 3, 4)],
        &[(Insert(50, true), 1, 6), (Insert(51, true), 2, 5), (Delete(true), 3, 4), (Find(Some(50)), 7, 8)],
        &[(Insert(50, true), 1, 9), (Delete(true), 2, 8), (Find(Some(50)), 3, 7), (Insert(51, false), 4, 6), (Find(None), 10, 11)],
        &[(Insert(50, true), 1, 2), (Exchange(50, 51, Some(50)), 3, 8), (Find(Some(51)), 4, 5), (Exchange(50, 52, Some(51)), 6, 7)],
        &[(Insert(50, true), 1, 2), (Exchange(50, 51, Some(50)), 3, 6), (Delete(true), 4, 5), (Exchange(51, 52, None), 7, 8)],
        &[(Insert(50, true), 1, 8), (Insert(51, true), 2, 7), (Take(Some(51)), 3, 6), (Take(Some(50)), 4, 5)],
    ];
    for (histories, is_right) in [(&wrong[..], false), (&right[..], true)] {
        for history in histories {
            let calls: Vec<Made> = (0..).zip(*history).map(|(worker, &(call, begun, ended))| Made { worker, key: 5, call, begun, ended }).collect();
            assert_eq!(are_in_order(None, &calls), is_right, "{history:?}");
        }
    }
}

pub fn next(seed: &mut u64) -> u64 {
    *seed ^= *seed << 13;
    *seed ^= *seed >> 7;
    *seed ^= *seed << 17;
    *seed
}

/// The value of each key of a range, by its pairs, which strictly ascend.
pub fn of_each(keys: std::ops::Range<u64>, pairs: &[(u64, u64)]) -> Vec<(u64, Option<u64>)> {
    assert!(pairs.windows(2).all(|two| two[0].0 < two[1].0) && pairs.iter().all(|pair| keys.contains(&pair.0)), "{pairs:?} in {keys:?}");
    keys.map(|key| (key, pairs.iter().find(|pair| pair.0 == key).map(|pair| pair.1))).collect()
}

/// Goes over a range of keys below a number, in one of the ways that there are: what it was told of each key.
fn go_over(handle: &mut Handle, keys: u64, random: u64) -> Vec<(u64, Option<u64>)> {
    let (from, upto) = ((random >> 24) % keys, (random >> 40) % keys + 1);
    let upto = upto.max(from);
    match random >> 12 & 7 {
        0 => match handle.next_at_least(from) {
            Some(pair) => of_each(from..pair.0 + 1, &[pair]),
            None => of_each(from..keys, &[]),
        },
        1 => match handle.last_at_most(upto - 1) {
            Some(pair) => of_each(pair.0..upto, &[pair]),
            None => of_each(0..upto, &[]),
        },
        2 | 3 => {
            let mut pairs: Vec<_> = handle.range(from..upto).rev().collect();
            pairs.reverse();
            of_each(from..upto, &pairs)
        }
        4 => {
            let mut range = handle.range(from..upto);
            let (low, high) = (range.next(), range.next_back());
            let pairs: Vec<_> = low.into_iter().chain(range).chain(high).collect();
            of_each(from..upto, &pairs)
        }
        _ => of_each(from..upto, &handle.range(from..upto).collect::<Vec<_>>()),
    }
}

/// Exchanges the value that the worker has seen last for another: what it found is what it has seen.
fn exchange(handle: &mut Handle, key: u64, seen: &mut u64, new: u64) -> Result<Call, Refused> {
    let (current, said) = (*seen, handle.compare_exchange(key, *seen, new, TRIES)?);
    let found = said.map_or_else(|there| there, Some);
    *seen = if said.is_ok() { new } else { found.unwrap_or(current) };
    Ok(Call::Exchange(current, new, found))
}

/// Removes the key if it has the value that the worker has seen last: what a history says of that.
fn remove_seen(handle: &mut Handle, key: u64, seen: u64) -> Result<Call, Refused> {
    Ok(match handle.remove_if(key, seen, TRIES)? {
        Ok(was) => Call::Take(Some(was)),
        Err(there) => Call::Find(there),
    })
}

/// Puts a value, or adds to it: what a history says of that, and what the worker has seen of the key, if it is there.
fn replace(handle: &mut Handle, key: u64, seen: &mut u64, value: u64, is_put: bool) -> Result<Call, Refused> {
    let said = if is_put { handle.put(key, value, TRIES)? } else { handle.fetch_add(key, value, TRIES)? };
    match said {
        Some(was) => {
            *seen = if is_put { value } else { was.wrapping_add(value) };
            Ok(Call::Exchange(was, *seen, said))
        }
        None if is_put => Ok(Call::Insert(value, true)),
        None => Ok(Call::Find(None)),
    }
}

/// One call on a key, of which the worker has seen a value last.
fn call_on(handle: &mut Handle, random: u64, key: u64, value: u64, seen: &mut u64) -> Result<Call, Refused> {
    Ok(match random % 16 {
        0..=3 => Call::Insert(value, handle.insert(key, value, TRIES)?),
        4 | 5 => Call::Delete(handle.delete(key, TRIES)?),
        6 => Call::Take(handle.take(key, TRIES)?),
        7 => remove_seen(handle, key, *seen)?,
        8 | 9 => exchange(handle, key, seen, value)?,
        10 | 11 => replace(handle, key, seen, value, random & 16 == 0)?,
        _ if random & 1024 == 0 => Call::Find(handle.find(key)),
        _ => Call::Find(handle.look(key)),
    })
}

/// One worker makes so many calls on keys below a number. Hardly two values that are to be stored are the same.
fn work(handle: &mut Handle, worker: u32, keys: u64, calls: u64, mut seed: u64, clock: &AtomicU64, comes_back: bool) -> Result<Vec<Made>, Refused> {
    let (mut all, mut seen) = (Vec::new(), vec![0; keys as usize]);
    for number in 0..calls {
        let random = next(&mut seed);
        let (key, value) = ((random >> 20) % keys, u64::from(worker) << 32 | number);
        let begun = clock.fetch_add(1, SeqCst);
        if random % 16 == 12 {
            let told = go_over(handle, keys, random);
            let ended = clock.fetch_add(1, SeqCst);
            all.extend(told.into_iter().map(|(key, value)| Made { worker, key, call: Call::Find(value), begun, ended }));
            continue;
        }
        let call = loop {
            match call_on(handle, random, key, value, &mut seen[key as usize]) {
                Err(Refused::Spent) if comes_back => std::thread::yield_now(), // it has changed nothing
                said => break said?,
            }
        };
        let ended = clock.fetch_add(1, SeqCst);
        if let Call::Find(Some(there)) = call {
            seen[key as usize] = there;
        }
        all.push(Made { worker, key, call, begun, ended });
    }
    Ok(all)
}

/// Some threads call, each with a handle: what each of them makes of its own and its number.
fn in_threads<T: Send>(handles: &mut [Handle], of_one: impl Fn(&mut Handle, u32) -> Result<T, Refused> + Sync) -> Vec<T> {
    let of_one = &of_one;
    std::thread::scope(|threads| {
        let working: Vec<_> = handles.iter_mut().zip(0..).map(|(handle, worker)| threads.spawn(move || of_one(handle, worker).unwrap())).collect();
        working.into_iter().map(|thread| thread.join().unwrap()).collect()
    })
}

fn open(threads: u32, start: &[(u64, u64)]) -> Result<Vec<Handle>, Refused> {
    let tree = Tree::open(start, CARDS)?;
    (0..threads).map(|_| tree.handle()).collect()
}

/// The same, of a tree with few cards, which come back.
fn open_reusing(threads: u32, start: &[(u64, u64)], cards: u64) -> Result<Vec<Handle>, Refused> {
    let tree = Tree::open_reusing(start, cards, threads)?;
    (0..threads).map(|_| tree.handle()).collect()
}

/// One round of so many threads on keys below a number: how many calls they made, and how many keys are there at the end.
fn round(threads: u32, keys: u64, calls: u64, seed: u64, comes_back: bool) -> Result<(usize, usize), Refused> {
    let start: Vec<(u64, u64)> = START.into_iter().filter(|pair| pair.0 < keys).collect();
    let handles = if comes_back { open_reusing(threads, &start, 3 * keys + 4 * u64::from(threads)) } else { open(threads, &start) };
    let (mut handles, clock) = (handles?, AtomicU64::new(1));
    let seed_of = |worker: u32| (seed * 64 + u64::from(worker) + 1).wrapping_mul(0x9e37_79b9_7f4a_7c15);
    let made = in_threads(&mut handles, |handle, worker| work(handle, worker, keys, calls, seed_of(worker), &clock, comes_back)).concat();
    let mut there = BTreeSet::new();
    for key in 0..keys {
        let left = handles[0].find(key);
        there.extend(left.map(|_| key));
        let mut history: Vec<Made> = made.iter().filter(|made| made.key == key).copied().collect();
        history.push(Made { worker: 63, key, call: Call::Find(left), begun: u64::MAX, ended: u64::MAX });
        let first = start.iter().find(|pair| pair.0 == key).map(|pair| pair.1);
        let changes = |is_so: fn(&Call) -> bool| history.iter().filter(|made| is_so(&made.call)).count();
        let (came, went) =
            (changes(|call| matches!(call, Call::Insert(_, true))), changes(|call| matches!(call, Call::Delete(true) | Call::Take(Some(_)))));
        assert_eq!(came + usize::from(first.is_some()), went + usize::from(left.is_some()), "key {key}, {threads} threads, {keys} keys, seed {seed}");
        assert!(are_in_order(first, &history), "out of order: key {key}, {threads} threads, {keys} keys, seed {seed}");
    }
    Ok((made.len(), there.len()))
}

/// All threads insert one key at once, and then delete it: of each just one answers yes.
fn race(threads: u32) -> Result<(), Refused> {
    let (mut handles, barrier) = (open(threads, &[(6, 60), (8, 80)])?, Barrier::new(threads as usize));
    let said = in_threads(&mut handles, |handle, worker| {
        let mut said = Vec::new();
        for _ in 0..RACES {
            barrier.wait();
            let inserted = handle.insert(7, u64::from(worker), TRIES)?;
            barrier.wait();
            assert!(handle.find(7).is_some_and(|value| !inserted || value == u64::from(worker)));
            barrier.wait();
            said.push((inserted, handle.delete(7, TRIES)?));
        }
        Ok(said)
    });
    for race in 0..RACES as usize {
        let yes = |of: fn(&(bool, bool)) -> bool| said.iter().filter(|said| of(&said[race])).count();
        assert_eq!((yes(|said| said.0), yes(|said| said.1)), (1, 1), "race {race} of {threads} threads");
    }
    assert_eq!((handles[0].find(6), handles[0].find(7), handles[0].find(8)), (Some(60), None, Some(80)));
    Ok(())
}

/// Adds one by a find and as many exchanges as it takes: the value that was there.
fn exchange_one_more(handle: &mut Handle, key: u64) -> Result<u64, Refused> {
    let mut value = handle.find(key).unwrap();
    while let Err(there) = handle.compare_exchange(key, value, value + 1, TRIES)? {
        value = there.unwrap();
    }
    Ok(value)
}

/// All threads add to two counters: each ends at the sum, and no value is answered twice.
fn count(threads: u32) -> Result<(), Refused> {
    let mut handles = open(threads, &[(1, 0), (2, 0)])?;
    let each = ADDITIONS / u64::from(threads);
    let found = in_threads(&mut handles, |handle, _| {
        (0..each).map(|_| Ok((handle.fetch_add(1, 1, TRIES)?.unwrap(), exchange_one_more(handle, 2)?))).collect::<Result<Vec<_>, _>>()
    });
    let sum = each * u64::from(threads);
    let (first, second): (BTreeSet<u64>, BTreeSet<u64>) = found.into_iter().flatten().unzip();
    assert!(first.into_iter().eq(0..sum) && second.into_iter().eq(0..sum), "{threads} threads");
    assert_eq!((handles[0].find(1), handles[0].find(2)), (Some(sum), Some(sum)), "{threads} threads");
    Ok(())
}

/// The first thread puts ascending values, and the others find them.
fn put_and_find(threads: u32) -> Result<(), Refused> {
    let mut handles = open(threads, &[(5, 0)])?;
    in_threads(&mut handles, |handle, worker| {
        let mut last = 0;
        for value in 1..=ADDITIONS {
            if worker == 0 {
                assert_eq!(handle.put(5, value, TRIES)?, Some(value - 1));
                continue;
            }
            let there = if value % 2 == 0 { handle.find(5) } else { handle.look(5) };
            assert!(there.is_some_and(|there| there >= last), "{there:?} after {last}");
            last = there.unwrap();
        }
        Ok(())
    });
    assert_eq!((handles[0].find(5), handles[0].put(6, 1, TRIES)?, handles[0].fetch_add(7, 1, TRIES)?), (Some(ADDITIONS), None, None));
    Ok(())
}

fn main() -> Result<(), Refused> {
    let seconds = std::env::args().nth(1).map_or(0, |word| word.strip_prefix("--seconds=").expect("--seconds=N").parse().expect("a number"));
    let begun = Instant::now();
    let (mut seeds, mut rounds, mut calls, mut left) = (0, 0, 0, 0);
    try_the_check();
    while seeds == 0 || begun.elapsed() < Duration::from_secs(seconds) {
        seeds += 1;
        for threads in [2, 4, 8, 16, 32, 64] {
            for (keys, comes_back) in [(2, false), (8, false), (64, false), (2, true), (8, true), (64, true)] {
                let (made, there) = round(threads, keys, 8_000 / u64::from(threads), seeds, comes_back)?;
                (rounds, calls, left) = (rounds + 1, calls + made, left + there);
            }
            race(threads)?;
            count(threads)?;
            put_and_find(threads)?;
        }
    }
    println!("{rounds} rounds, {calls} calls in order, {left} keys at the ends, {} s", begun.elapsed().as_secs());
    Ok(())
}
