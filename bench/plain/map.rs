//! The operations on a `BTreeMap`.

use crate::text::{Operation, Reply};
use std::collections::btree_map::{BTreeMap, Entry};

pub fn apply(operation: Operation, map: &mut BTreeMap<u64, u64>) -> Reply {
    match operation {
        Operation::Insert(key, value) => insert(map, key, value).into(),
        Operation::Delete(key) => map.remove(&key).is_some().into(),
        Operation::Find(key) => map.get(&key).copied().into(),
    }
}

/// Adds a key with its value, unless it is present: whether it was absent.
fn insert(map: &mut BTreeMap<u64, u64>, key: u64, value: u64) -> bool {
    let Entry::Vacant(place) = map.entry(key) else {
        return false;
    };
    place.insert(value);
    true
}
