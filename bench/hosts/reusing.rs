//! The handles of a tree whose cards come back.

use crate::peers::{Counters, Crew, Queue, Sizes, TRIES, View, boxed};
use elltree::{Handle, Refused, Result, Tree};

/// How many cards there are for each handle, beside two for each key: those that wait until the oldest call under way has ended.
const CARDS_A_HANDLE: u64 = 1_000;

/// A handle of a tree whose cards come back. A change for which there is none at the moment is made again, since others then go on.
pub struct Reusing(Handle);

impl Reusing {
    fn change<T>(&mut self, change: impl Fn(&mut Handle) -> Result<T>) -> T {
        loop {
            match change(&mut self.0) {
                Err(Refused::Spent) => {}
                other => return other.expect("a change"),
            }
        }
    }
}

impl View for Reusing {
    fn find(&mut self, key: u64) -> Option<u64> {
        self.0.find(key)
    }

    fn look(&mut self, key: u64) -> Option<u64> {
        self.0.look(key)
    }

    fn insert(&mut self, key: u64, value: u64) -> bool {
        self.change(|handle| handle.insert(key, value, TRIES))
    }

    fn delete(&mut self, key: u64) -> bool {
        self.change(|handle| handle.delete(key, TRIES))
    }
}

impl Counters for Reusing {
    fn add(&mut self, key: u64) -> Option<u64> {
        self.change(|handle| handle.fetch_add(key, 1, TRIES))
    }
}

impl Queue for Reusing {
    fn add_last(&mut self, key: u64) -> bool {
        View::insert(self, key, key + 7)
    }

    fn take_least(&mut self) -> Option<u64> {
        loop {
            let (least, _) = self.0.next_at_least(0)?;
            if View::delete(self, least) {
                return Some(least);
            }
        }
    }
}

/// So many handles of a tree with these pairs, for at most so many keys.
fn handles(start: &[(u64, u64)], keys: u64, count: u64) -> Result<impl Iterator<Item = Reusing>> {
    let tree = Tree::open_reusing(start, 2 * keys + CARDS_A_HANDLE * count, count as u32)?;
    let handles: Result<Vec<Handle>> = (0..count).map(|_| tree.handle()).collect();
    Ok(handles?.into_iter().map(Reusing))
}

/// The threads of a tree.
pub fn sharing(sizes: Sizes) -> Result<Crew> {
    let start = sizes.start().collect::<Vec<_>>();
    let mut handles = handles(&start, sizes.keys, sizes.writers + sizes.readers)?;
    let writers = boxed(handles.by_ref().take(sizes.writers as usize));
    Ok(Crew::of(writers, boxed(handles)))
}

/// The threads of a tree of counters.
pub fn counters(sizes: Sizes) -> Result<Crew<dyn Counters>> {
    let handles = handles(&sizes.zeros(), sizes.keys, sizes.writers)?;
    Ok(Crew::of(handles.map(|it| Box::new(it) as Box<dyn Counters>).collect(), Vec::new()))
}

/// The threads of a tree that is a queue.
pub fn queue(sizes: Sizes) -> Result<Crew<dyn Queue>> {
    let handles = handles(&sizes.full(), sizes.keys + sizes.writers, sizes.writers)?;
    Ok(Crew::of(handles.map(|it| Box::new(it) as Box<dyn Queue>).collect(), Vec::new()))
}
