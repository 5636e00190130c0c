//! The library as a program in Rust has it: the one that is built here, and, if there is one, another that was built before a change, whose
//! functions have other names.

use crate::peers::{Counters, Crew, Queue, Sizes, TRIES, View, boxed};
use crate::ranges::{Ranges, Told, told};
use ::elltree::{CARDS_MAX, Handle, Refused, Tree};

/// What a find answers: of a library before 0.3.0 it may be an error.
trait Found {
    fn found(self) -> Option<u64>;
}

impl Found for Option<u64> {
    fn found(self) -> Option<u64> {
        self
    }
}

#[cfg(before)]
impl Found for ::before::Result<Option<u64>> {
    fn found(self) -> Option<u64> {
        self.unwrap()
    }
}

/// So many handles of a tree with these pairs. `run` gives a library that was built before a function that does so too.
fn handles(start: &[(u64, u64)], cards: u64, count: u64) -> ::elltree::Result<Vec<::elltree::Handle>> {
    let tree = Tree::open(start, cards)?;
    (0..count).map(|_| tree.handle()).collect()
}

impl Queue for Handle {
    fn add_last(&mut self, key: u64) -> bool {
        match Handle::insert(self, key, key + 7, TRIES) {
            Ok(is_new) => is_new,
            Err(Refused::Spent) => false,
            other => panic!("an insert of {key} answered {other:?}"),
        }
    }

    fn take_least(&mut self) -> Option<u64> {
        loop {
            let (least, _) = Handle::next_at_least(self, 0)?;
            match Handle::delete(self, least, TRIES) {
                Ok(true) => return Some(least),
                Ok(false) => {}
                Err(Refused::Spent) => return None,
                other => panic!("a delete of {least} answered {other:?}"),
            }
        }
    }
}

/// The threads of a tree that is a queue.
pub fn queue(sizes: Sizes) -> ::elltree::Result<Crew<dyn Queue>> {
    let handles = handles(&sizes.full(), CARDS_MAX, sizes.writers)?;
    Ok(Crew::of(handles.into_iter().map(|it| Box::new(it) as Box<dyn Queue>).collect(), Vec::new()))
}

/// A module for a library: what a thread does with a handle, and new trees.
macro_rules! library {
    ($library:ident, $handles:path) => {
        pub mod $library {
            use super::*;
            use ::$library::{CARDS_MAX, Handle, Refused, Result};

            impl View for Handle {
                fn find(&mut self, key: u64) -> Option<u64> {
                    Handle::find(self, key).found()
                }

                fn look(&mut self, key: u64) -> Option<u64> {
                    Handle::look(self, key).found()
                }

                fn insert(&mut self, key: u64, value: u64) -> bool {
                    Handle::insert(self, key, value, TRIES).unwrap()
                }

                fn delete(&mut self, key: u64) -> bool {
                    Handle::delete(self, key, TRIES).unwrap()
                }
            }

            impl Counters for Handle {
                fn add(&mut self, key: u64) -> Option<u64> {
                    match self.fetch_add(key, 1, TRIES) {
                        Ok(Some(was)) => Some(was),
                        Err(Refused::Spent) => None,
                        other => panic!("an add to the value of {key} answered {other:?}"),
                    }
                }
            }

            impl Ranges for Handle {
                fn range(&mut self, from: u64, upto: u64) -> Told {
                    told(Handle::range(self, from..upto))
                }

                fn next_at_least(&mut self, key: u64) -> Option<(u64, u64)> {
                    Handle::next_at_least(self, key)
                }

                fn swap(&mut self, key: u64, value: u64) -> Option<u64> {
                    let mut there = View::find(self, key)?;
                    loop {
                        match self.compare_exchange(key, there, value, TRIES).unwrap() {
                            Ok(was) => return Some(was),
                            Err(other) => there = other?,
                        }
                    }
                }
            }

            /// The handles of a tree.
            fn of_sizes(sizes: Sizes) -> Result<[Vec<Handle>; 2]> {
                let mut writers = $handles(&sizes.start().collect::<Vec<_>>(), CARDS_MAX, sizes.writers + sizes.readers)?;
                let readers = writers.split_off(sizes.writers as usize);
                Ok([writers, readers])
            }

            /// The threads of a tree.
            pub fn sharing(sizes: Sizes) -> Result<Crew> {
                let [writers, readers] = of_sizes(sizes)?.map(boxed);
                Ok(Crew::of(writers, readers))
            }

            /// The same, of which ranges are told.
            pub fn ranging(sizes: Sizes) -> Result<Crew<dyn Ranges>> {
                let boxed = |handles: Vec<Handle>| handles.into_iter().map(|it| Box::new(it) as Box<dyn Ranges>).collect();
                let [writers, readers] = of_sizes(sizes)?.map(boxed);
                Ok(Crew::of(writers, readers))
            }

            /// The threads of a tree of counters.
            pub fn counters(sizes: Sizes) -> Result<Crew<dyn Counters>> {
                let handles = $handles(&sizes.zeros(), CARDS_MAX, sizes.writers)?;
                Ok(Crew::of(handles.into_iter().map(|it| Box::new(it) as Box<dyn Counters>).collect(), Vec::new()))
            }
        }
    };
}

library!(elltree, handles);
#[cfg(before)]
library!(before, ::before::handles);
