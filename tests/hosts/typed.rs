//! Maps whose keys and values have types of their own, for each of these types: their calls answer as those of a `BTreeMap`, also on the least and
//! the greatest keys, and ranges go over the keys in the order of their type. Keys whose numbers are too great are absent, and refused by calls that
//! change keys.
use elltree::{Key, Map, MapError, TypedMap, Value};
use std::collections::BTreeMap;
use std::fmt::Debug;
use std::num::NonZeroU64;

const CALLS: u64 = 4_000;

fn next(seed: &mut u64) -> u64 {
    *seed ^= *seed << 13;
    *seed ^= *seed >> 7;
    *seed ^= *seed << 17;
    *seed >> 8
}

/// The pair that a plain map pops.
fn popped<K: Key, V: Value>(plain: &mut BTreeMap<K, V>, is_first: bool) -> Option<(K, V)> {
    if is_first { plain.pop_first() } else { plain.pop_last() }
}

/// Makes random calls on a map and on a plain one, with keys of a list, which ascend, and compares the answers.
fn compare<K: Key + Debug, V: Value + Debug + PartialEq>(keys: &[K], values: &[V]) -> Result<(), MapError> {
    let (map, mut plain, mut seed) = (TypedMap::<K, V>::new()?, BTreeMap::new(), 88_172_645_463_325_252);
    assert!(keys.windows(2).all(|pair| pair[0] < pair[1] && pair[0].into_key() < pair[1].into_key()));
    for _ in 0..CALLS {
        let key = keys[next(&mut seed) as usize % keys.len()];
        let (value, other) = (values[next(&mut seed) as usize % values.len()], values[next(&mut seed) as usize % values.len()]);
        let was = plain.get(&key).copied();
        match next(&mut seed) % 13 {
            0 | 1 => assert_eq!(map.insert(key, value)?, plain.insert(key, value)),
            2 => assert_eq!(map.remove(key)?, plain.remove(&key)),
            3 => assert_eq!(map.try_insert(key, value)?, plain.insert(key, was.unwrap_or(value)).is_none()),
            4 => assert_eq!(map.get_or_insert(key, value)?, (*plain.entry(key).or_insert(value), was.is_none())),
            5 => {
                let said = map.compare_exchange(key, value, other)?;
                assert_eq!(said, if was == Some(value) { Ok(value) } else { Err(was) });
                plain.entry(key).and_modify(|there| *there = if said.is_ok() { other } else { *there });
            }
            6 => {
                assert_eq!(map.update(key, |there| if there == value { other } else { there })?, was);
                plain.entry(key).and_modify(|there| *there = if *there == value { other } else { *there });
            }
            11 => {
                let said = map.remove_if(key, value)?;
                assert_eq!(said, if was == Some(value) { Ok(value) } else { Err(was) });
                plain.retain(|there, _| said.is_err() || *there != key);
            }
            7 if next(&mut seed) & 7 == 0 => {
                let is_first = next(&mut seed) & 1 == 0;
                assert_eq!(if is_first { map.pop_first()? } else { map.pop_last()? }, popped(&mut plain, is_first));
            }
            8 => assert!(map.range(..key).rev().eq(plain.range(..key).rev().map(|(&key, &value)| (key, value)))),
            9 => assert!(map.range(key..).eq(plain.range(key..).map(|(&key, &value)| (key, value)))),
            10 => {
                let of_plain = |pair: Option<(&K, &V)>| pair.map(|(&key, &value)| (key, value));
                assert_eq!(map.next_at_least(key), of_plain(plain.range(key..).next()));
                assert_eq!(map.last_before(key), of_plain(plain.range(..key).next_back()));
                assert_eq!((map.first_key_value(), map.last_key_value()), (of_plain(plain.first_key_value()), of_plain(plain.last_key_value())));
                assert_eq!(map.next_after(key), of_plain(plain.range(key..).find(|pair| *pair.0 > key)));
                assert_eq!(map.last_at_most(key), of_plain(plain.range(..=key).next_back()));
            }
            _ => assert_eq!((map.get(key), map.contains_key(key), map.len(), map.is_empty()), (was, was.is_some(), plain.len(), plain.is_empty())),
        }
    }
    let pairs: Vec<(K, V)> = plain.iter().map(|(&key, &value)| (key, value)).collect();
    assert_eq!((map.pairs(), format!("{map:?}")), (pairs.clone(), format!("{plain:?}")));
    map.retain(|key, value| plain.get(&key) == Some(&value) && Some(key) != pairs.first().map(|pair| pair.0))?;
    assert!(map.iter().eq(pairs.iter().copied().skip(1)));
    assert_eq!(TypedMap::from_sorted(&pairs, Default::default())?.pairs(), pairs);
    assert_eq!(TypedMap::try_from_iter(pairs.iter().rev().copied())?.pairs(), pairs);
    map.clear()?;
    map.extend(pairs.iter().copied())?;
    assert!(map.iter().eq(pairs.iter().copied()) && (&map).into_iter().rev().eq(pairs.into_iter().rev()));
    Ok(())
}

/// Keys whose numbers no map has.
fn refuse<K: Key + Debug>(keys: &[K], below: K) -> Result<(), MapError> {
    let map = TypedMap::<K, u32>::new()?;
    map.insert(below, 5)?;
    for &key in keys {
        assert_eq!((map.get(key), map.next_at_least(key), map.last_at_most(key)), (None, None, Some((below, 5))));
        assert_eq!(
            (map.insert(key, 1), map.try_insert(key, 1), map.get_or_insert(key, 1).map(|told| told.0)),
            (Err(MapError::BadKey), Err(MapError::BadKey), Err(MapError::BadKey))
        );
        assert_eq!((map.remove(key), map.update(key, |value| value)), (Err(MapError::BadKey), Err(MapError::BadKey)));
        assert_eq!(map.range(below..=key).collect::<Vec<_>>(), [(below, 5)]);
        assert_eq!(TypedMap::try_from_iter([(key, 0_u8)]).err(), Some(MapError::BadKey));
    }
    Ok(())
}

/// Sums of signed and unsigned values wrap around.
fn add() -> Result<(), MapError> {
    let map = TypedMap::<bool, i64>::try_from_iter([(false, -3), (true, i64::MAX)])?;
    assert_eq!((map.fetch_add(false, -4)?, map.fetch_add(false, 10)?, map.get(false)), (Some(-3), Some(-7), Some(3)));
    assert_eq!((map.fetch_add(true, 1)?, map.get(true)), (Some(i64::MAX), Some(i64::MIN)));
    let map = TypedMap::<(), u64>::try_from_iter([((), u64::MAX)])?;
    assert_eq!((map.fetch_add((), 2)?, map.get(())), (Some(u64::MAX), Some(1)));
    Ok(())
}

/// Threads share a map of typed keys: each pair that is inserted is popped once.
fn share() -> Result<(), MapError> {
    let map = TypedMap::<i64, (u32, u32)>::new()?;
    let sum_of = |thread: i64| -> Result<i64, MapError> {
        let mut sum = 0;
        for count in 0..5_000 {
            map.insert((count - 2_500) * 4 + thread, (count as u32, thread as u32))?;
            sum += if count % 2 == 0 { map.pop_first()? } else { map.pop_last()? }.map_or(0, |(key, value)| {
                assert_eq!(key, (i64::from(value.0) - 2_500) * 4 + i64::from(value.1));
                i64::from(value.0)
            });
        }
        Ok(sum)
    };
    let sums: i64 = std::thread::scope(|threads| {
        let working: Vec<_> = (0..4).map(|thread| threads.spawn(move || sum_of(thread).unwrap())).collect();
        working.into_iter().map(|thread| thread.join().unwrap()).sum()
    });
    let left: i64 = map.iter().map(|(_, value)| i64::from(value.0)).sum();
    assert_eq!(sums + left, 4 * (0..5_000).sum::<i64>());
    Ok(())
}

/// The last value of a key goes into a map that is made of pairs in any order, as in a `BTreeMap`.
fn collect() -> Result<(), MapError> {
    let mut seed = 7;
    let pairs: Vec<(u64, u64)> = (0..3_000).map(|value| (next(&mut seed) % 1_000, value)).collect();
    let plain: BTreeMap<u64, u64> = pairs.iter().copied().collect();
    assert!(Map::try_from_iter(pairs)?.iter().eq(plain));
    Ok(())
}

fn main() -> Result<(), MapError> {
    let values = [0, 1, 7, u64::MAX - 1, u64::MAX];
    compare(&(0..=u8::MAX).collect::<Vec<_>>(), &[i8::MIN, -1, 0, 1, i8::MAX])?;
    compare(&(i8::MIN..=i8::MAX).collect::<Vec<_>>(), &[0, 5, u8::MAX])?;
    compare(&[0, 1, 2, 300, u16::MAX - 1, u16::MAX], &[i16::MIN, -1, 0, i16::MAX])?;
    compare(&[i16::MIN, i16::MIN + 1, -1, 0, 1, i16::MAX], &[0, u16::MAX])?;
    compare(&[0, 1, 70_000, u32::MAX - 1, u32::MAX], &[i32::MIN, -1, 0, i32::MAX])?;
    compare(&[i32::MIN, -70_000, -1, 0, 1, i32::MAX - 1, i32::MAX], &[0, u32::MAX])?;
    compare(&[0, 1, 1 << 40, elltree::KEY_MAX - 1, elltree::KEY_MAX], &values)?;
    compare(&[i64::MIN, -(1 << 40), -1, 0, 1, 1 << 40, i64::MAX - 2], &[i64::MIN, -1, 0, i64::MAX])?;
    compare(&[0, 1, usize::MAX - 2], &[0, usize::MAX])?;
    compare(&[isize::MIN, -1, 0, 1, isize::MAX - 2], &[isize::MIN, -1, isize::MAX])?;
    compare(&[(0, 0), (0, u32::MAX), (1, 0), (1, 1), (u32::MAX, 0), (u32::MAX, u32::MAX - 2)], &[(0, 0), (u32::MAX, 5), (5, u32::MAX)])?;
    let not_zero = |number| NonZeroU64::new(number).unwrap();
    compare(&[1, 2, 1 << 40, elltree::KEY_MAX].map(not_zero), &[1, 2, u64::MAX].map(not_zero))?;
    compare(&[false, true], &[false, true])?;
    compare(&[()], &[()])?;
    refuse(&[u64::MAX - 1, u64::MAX], 7)?;
    refuse(&[i64::MAX - 1, i64::MAX], -7)?;
    refuse(&[(u32::MAX, u32::MAX - 1), (u32::MAX, u32::MAX)], (7, 7))?;
    refuse(&[u64::MAX - 1, u64::MAX].map(not_zero), not_zero(7))?;
    add()?;
    share()?;
    collect()?;
    println!("{CALLS} calls of each of 14 types answered as a BTreeMap");
    Ok(())
}
