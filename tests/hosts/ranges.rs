//! Ranges, and the next key above or below one, by a single thread of Rust, of a handle and of a map, compared with a `BTreeMap`: random keys between
//! random bounds, from the front, from the back, and from both ends at once. Then the edges: no key, one, the least and the greatest, ranges without
//! keys, and many pairs. Beside other threads ranges are tried by `shared.rs` and `map.rs`.
use elltree::{Handle, KEY_MAX, Map, MapSettings, Tree};
use std::collections::BTreeMap;
use std::error::Error;
use std::ops::{Bound, RangeBounds};

const TRIES: u32 = 1_000;
const ROUNDS: u64 = 60;
const CALLS: u64 = 300;
const KEYS: u64 = 90;

type Bounds = (Bound<u64>, Bound<u64>);
type Pair = Option<(u64, u64)>;

fn next(seed: &mut u64) -> u64 {
    *seed ^= *seed << 13;
    *seed ^= *seed >> 7;
    *seed ^= *seed << 17;
    *seed
}

/// A key of those in use: most are few, and some are the greatest.
fn key(random: u64) -> u64 {
    match random % 16 {
        0 => KEY_MAX - random / 16 % 3,
        _ => random / 16 % KEYS,
    }
}

/// A number that may be no key.
fn number(random: u64) -> u64 {
    match random % 16 {
        1 => u64::MAX - random / 16 % 5,
        _ => key(random),
    }
}

fn bound(random: u64, key: u64) -> Bound<u64> {
    match random % 4 {
        0 => Bound::Unbounded,
        1 => Bound::Excluded(key),
        _ => Bound::Included(key),
    }
}

/// What handles and maps have alike.
trait Ordered: Sized {
    fn of(pairs: &[(u64, u64)]) -> Self;
    fn pairs(&mut self, bounds: impl RangeBounds<u64>) -> impl DoubleEndedIterator<Item = (u64, u64)>;
    fn at_least(&mut self, key: u64) -> Pair;
    fn at_most(&mut self, key: u64) -> Pair;

    /// The first pair of a range, and the last, each from a range of its own.
    fn ends(&mut self, bounds: impl RangeBounds<u64> + Clone) -> [Pair; 2] {
        let first = self.pairs(bounds.clone()).next();
        [first, self.pairs(bounds).next_back()]
    }
}

impl Ordered for Handle {
    fn of(pairs: &[(u64, u64)]) -> Handle {
        Tree::open(pairs, 4 * CALLS).unwrap().handle().unwrap()
    }

    fn pairs(&mut self, bounds: impl RangeBounds<u64>) -> impl DoubleEndedIterator<Item = (u64, u64)> {
        self.range(bounds)
    }

    fn at_least(&mut self, key: u64) -> Pair {
        self.next_at_least(key)
    }

    fn at_most(&mut self, key: u64) -> Pair {
        self.last_at_most(key)
    }
}

impl Ordered for Map {
    fn of(pairs: &[(u64, u64)]) -> Map {
        Map::from_sorted(pairs, MapSettings::default()).unwrap()
    }

    fn pairs(&mut self, bounds: impl RangeBounds<u64>) -> impl DoubleEndedIterator<Item = (u64, u64)> {
        self.range(bounds)
    }

    fn at_least(&mut self, key: u64) -> Pair {
        self.next_at_least(key)
    }

    fn at_most(&mut self, key: u64) -> Pair {
        self.last_at_most(key)
    }
}

/// The pairs of a range by the model, which is a plain filter.
fn pairs_of(model: &BTreeMap<u64, u64>, bounds: Bounds) -> Vec<(u64, u64)> {
    model.iter().map(|(&key, &value)| (key, value)).filter(|pair| bounds.contains(&pair.0)).collect()
}

/// Takes pairs from both ends at random until there are none, and then asks both ends twice: all of them, ascending.
fn from_both_ends(it: &mut impl Ordered, bounds: Bounds, seed: &mut u64) -> Vec<(u64, u64)> {
    let (mut front, mut back, mut range) = (Vec::new(), Vec::new(), it.pairs(bounds));
    let turns = next(seed) % 8; // of 8 turns so many are the front's
    loop {
        let is_front = next(seed) % 8 < turns;
        let Some(pair) = (if is_front { range.next() } else { range.next_back() }) else {
            break;
        };
        if is_front { &mut front } else { &mut back }.push(pair);
    }
    assert_eq!((range.next(), range.next_back(), range.next(), range.next_back()), (None, None, None, None));
    front.extend(back.into_iter().rev());
    front
}

/// The pair of references as one of numbers.
fn pair(there: Option<(&u64, &u64)>) -> Pair {
    there.map(|(&key, &value)| (key, value))
}

/// One range, and the keys next to one.
fn compare(it: &mut impl Ordered, model: &BTreeMap<u64, u64>, mut seed: u64) {
    let seed = &mut seed;
    let (one, other) = (number(next(seed)), number(next(seed)));
    let bounds = (bound(next(seed), one), bound(next(seed), other));
    let wanted = pairs_of(model, bounds);
    assert_eq!(it.pairs(bounds).collect::<Vec<_>>(), wanted, "{bounds:?}");
    assert!(it.pairs(bounds).rev().eq(wanted.iter().rev().copied()), "{bounds:?}");
    assert_eq!(from_both_ends(it, bounds, seed), wanted, "{bounds:?}");
    assert_eq!(it.at_least(one), pair(model.range(one..).next()), "{one}");
    assert_eq!(it.at_most(one), pair(model.range(..=one).next_back()), "{one}");
}

/// The calls that a map alone has.
fn compare_map(map: &Map, model: &BTreeMap<u64, u64>, one: u64) {
    assert_eq!(map.next_after(one), pair(model.range((Bound::Excluded(one), Bound::Unbounded)).next()), "{one}");
    assert_eq!(map.last_before(one), pair(model.range(..one).next_back()), "{one}");
    assert_eq!((map.first_key_value(), map.last_key_value()), (pair(model.first_key_value()), pair(model.last_key_value())));
}

/// One round: changes at random, and a comparison after each of them.
fn round(mut seed: u64) -> Result<(), Box<dyn Error>> {
    let (mut handle, mut map, mut model) = (Handle::of(&[]), Map::of(&[]), BTreeMap::new());
    for call in 0..CALLS {
        let (key, random) = (key(next(&mut seed)), next(&mut seed));
        if random % 3 == 0 {
            let was = model.remove(&key);
            assert_eq!((handle.delete(key, TRIES)?, map.remove(key)?), (was.is_some(), was));
        } else {
            let was = model.insert(key, call);
            assert_eq!((handle.put(key, call, TRIES)?, map.insert(key, call)?), (was, was));
        }
        let seed = next(&mut seed);
        compare(&mut handle, &model, seed);
        compare(&mut map, &model, seed);
        compare_map(&map, &model, number(seed));
    }
    Ok(())
}

/// What a range has at its edges.
fn edges<O: Ordered>() {
    let mut none = O::of(&[]);
    assert_eq!((none.ends(..), none.at_least(0), none.at_most(u64::MAX)), ([None, None], None, None));
    let mut one = O::of(&[(0, 1)]);
    assert_eq!((one.ends(..), one.ends(1..)), ([Some((0, 1)), Some((0, 1))], [None, None]));
    assert_eq!((one.at_most(0), one.at_least(0), one.at_least(1), one.at_most(1)), (Some((0, 1)), Some((0, 1)), None, Some((0, 1))));
    let mut ends = O::of(&[(0, 1), (KEY_MAX, 2)]);
    let both = vec![(0, 1), (KEY_MAX, 2)];
    assert_eq!(ends.pairs(..).collect::<Vec<_>>(), both);
    assert_eq!(ends.pairs(..=u64::MAX).collect::<Vec<_>>(), both);
    assert_eq!(ends.pairs(0..u64::MAX).collect::<Vec<_>>(), both);
    assert_eq!(ends.pairs(..KEY_MAX).collect::<Vec<_>>(), both[..1]);
    assert_eq!(ends.pairs(1..=KEY_MAX).rev().collect::<Vec<_>>(), both[1..]);
    assert_eq!((ends.at_least(KEY_MAX), ends.at_least(KEY_MAX + 1), ends.at_least(u64::MAX)), (Some(both[1]), None, None));
    assert_eq!((ends.at_most(u64::MAX), ends.at_most(KEY_MAX), ends.at_most(KEY_MAX - 1)), (Some(both[1]), Some(both[1]), Some(both[0])));
    let without_keys: [Bounds; 5] = [
        (Bound::Included(0), Bound::Excluded(0)),
        (Bound::Included(9), Bound::Included(0)),
        (Bound::Excluded(0), Bound::Excluded(0)),
        (Bound::Excluded(u64::MAX), Bound::Unbounded),
        (Bound::Excluded(KEY_MAX), Bound::Included(u64::MAX)),
    ];
    for bounds in without_keys {
        assert_eq!(ends.ends(bounds), [None, None], "{bounds:?}");
    }
}

/// The edges of the calls that a map alone has.
fn edges_of_maps() {
    let (none, one, ends) = (Map::of(&[]), Map::of(&[(0, 1)]), Map::of(&[(0, 1), (KEY_MAX, 2)]));
    assert_eq!((none.first_key_value(), none.last_key_value(), none.next_after(0), none.last_before(KEY_MAX)), (None, None, None, None));
    assert_eq!((one.last_before(0), one.next_after(0), one.last_before(1)), (None, None, Some((0, 1))));
    assert_eq!((ends.first_key_value(), ends.last_key_value()), (Some((0, 1)), Some((KEY_MAX, 2))));
    assert_eq!((ends.next_after(0), ends.next_after(KEY_MAX), ends.next_after(u64::MAX)), (Some((KEY_MAX, 2)), None, None));
    assert_eq!((ends.last_before(u64::MAX), ends.last_before(KEY_MAX)), (Some((KEY_MAX, 2)), Some((0, 1))));
}

/// Many pairs, from the front, from the back, and as many of them as are asked for.
fn many<O: Ordered>(pairs: u64) -> O {
    let start: Vec<(u64, u64)> = (0..pairs).map(|key| (7 * key, key)).collect();
    let mut it = O::of(&start);
    assert!(it.pairs(..).eq(start.iter().copied()));
    assert!(it.pairs(..).rev().eq(start.iter().rev().copied()));
    assert!(it.pairs(8..).take(100).eq(start[2..102].iter().copied()));
    it
}

fn main() -> Result<(), Box<dyn Error>> {
    edges::<Handle>();
    edges::<Map>();
    edges_of_maps();
    many::<Map>(20_000);
    let mut handle: Handle = many(20_000);
    let steps = handle.steps();
    assert_eq!(handle.range(7 * 19_998..).count(), 2);
    assert!(handle.steps() - steps < 1_000, "a short range takes {} steps", handle.steps() - steps);
    for seed in 1..=ROUNDS {
        round(seed.wrapping_mul(0x9e37_79b9_7f4a_7c15))?;
    }
    println!("{} ranges as in a BTreeMap", ROUNDS * CALLS * 6);
    Ok(())
}
