//! The rows of a small table for the first screen of README.md: a few figures of other kinds, and the memory of a map.

use crate::inserts::Order;
use crate::peers::{Peer, Sizes};
use crate::record::{Figure, counted};

/// What rows of the table tell.
#[derive(Clone, Copy, PartialEq)]
pub enum Part {
    /// Operations on shared keys.
    Operations,
    /// Ascending inserts into a map that was empty.
    Inserts,
    /// The worst latency beside a writer that is stopped at times. Each writer has keys of its own.
    Stops,
    /// The memory of a map in which many keys were inserted.
    Memory,
}

impl Part {
    pub const ALL: [Part; 4] = [Part::Operations, Part::Inserts, Part::Stops, Part::Memory];

    /// How many keys there are.
    pub fn keys(self) -> &'static [u64] {
        match self {
            Part::Operations | Part::Stops => &[4_096],
            Part::Inserts => &[200_000],
            Part::Memory => &[1_000_000],
        }
    }

    /// The numbers of writers and readers.
    pub fn crews(self) -> Vec<(u64, u64)> {
        match self {
            Part::Operations | Part::Inserts => vec![(1, 0), (4, 0)],
            Part::Stops => vec![(2, 1)],
            Part::Memory => vec![(1, 0)],
        }
    }

    /// Whether this can be measured of a map. A thread of Java is never stopped by a signal inside a change.
    pub fn suits(self, peer: Peer) -> bool {
        self != Part::Stops || peer.is_of_this_process()
    }

    /// The figure of which a row tells the median.
    pub fn figure(self) -> Figure {
        match self {
            Part::Operations => Figure::Operation,
            Part::Inserts => Figure::Insert(Order::Ascending),
            Part::Stops => Figure::OperationWorst,
            Part::Memory => Figure::BytesAKey,
        }
    }

    /// What a row with such sizes is of.
    pub fn label(self, sizes: Sizes) -> String {
        let keys = counted(sizes.keys);
        let threads = if sizes.writers == 1 { "1 thread".to_string() } else { format!("{} threads", sizes.writers) };
        match self {
            Part::Operations => format!("an operation on {keys} shared keys by {threads}, ns"),
            Part::Inserts => format!("an ascending insert of {keys} by {threads}, ns"),
            Part::Stops => "the worst latency beside a stopped thread, ms".to_string(),
            Part::Memory => format!("memory for a key of {keys}, bytes"),
        }
    }
}
