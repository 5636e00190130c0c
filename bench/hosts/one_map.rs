//! The library's one map, which all threads share without handles.

use crate::peers::{Counters, Crew, Queue, Sizes, View};
use crate::ranges::{Ranges, Told, told};
use elltree::{Map, MapResult, MapSettings};
use std::sync::Arc;

impl View for Arc<Map> {
    fn find(&mut self, key: u64) -> Option<u64> {
        Map::get(self, key)
    }

    fn insert(&mut self, key: u64, value: u64) -> bool {
        Map::try_insert(self, key, value).unwrap()
    }

    fn delete(&mut self, key: u64) -> bool {
        Map::delete(self, key).unwrap()
    }
}

impl Counters for Arc<Map> {
    fn add(&mut self, key: u64) -> Option<u64> {
        Some(self.fetch_add(key, 1).unwrap().expect("a counter"))
    }
}

impl Queue for Arc<Map> {
    fn add_last(&mut self, key: u64) -> bool {
        View::insert(self, key, key + 7)
    }

    fn take_least(&mut self) -> Option<u64> {
        self.pop_first().unwrap().map(|(key, _)| key)
    }
}

impl Ranges for Arc<Map> {
    fn range(&mut self, from: u64, upto: u64) -> Told {
        told(Map::range(self, from..upto))
    }

    fn next_at_least(&mut self, key: u64) -> Option<(u64, u64)> {
        Map::next_at_least(self, key)
    }

    fn swap(&mut self, key: u64, value: u64) -> Option<u64> {
        self.update(key, |_| value).unwrap()
    }
}

/// The threads of a new map with these pairs and the usual settings.
fn crew<V: ?Sized>(pairs: &[(u64, u64)], sizes: Sizes, view: impl Fn(Arc<Map>) -> Box<V>) -> MapResult<Crew<V>> {
    let map = Arc::new(Map::from_sorted(pairs, MapSettings::default())?);
    let views = |count| (0..count).map(|_| view(map.clone())).collect();
    let (writers, readers) = (views(sizes.writers), views(sizes.readers));
    Ok(Crew { writers, readers, renewing: (sizes.writers > 0).then_some(map) })
}

/// A new map.
pub fn sharing(sizes: Sizes) -> MapResult<Crew> {
    crew(&sizes.start().collect::<Vec<_>>(), sizes, |map| Box::new(map) as Box<dyn View>)
}

/// The same, of which ranges are told.
pub fn ranging(sizes: Sizes) -> MapResult<Crew<dyn Ranges>> {
    crew(&sizes.start().collect::<Vec<_>>(), sizes, |map| Box::new(map) as Box<dyn Ranges>)
}

/// A new map of counters.
pub fn counters(sizes: Sizes) -> MapResult<Crew<dyn Counters>> {
    crew(&sizes.zeros(), sizes, |map| Box::new(map) as Box<dyn Counters>)
}

/// A new map that is a queue.
pub fn queue(sizes: Sizes) -> MapResult<Crew<dyn Queue>> {
    crew(&sizes.full(), sizes, |map| Box::new(map) as Box<dyn Queue>)
}
