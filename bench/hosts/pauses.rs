//! What is told of the pauses of a map that renews itself.

use crate::inserts::Order;
use crate::peers::{Crew, Peer, Sizes, Stripe, View};
use crate::record::Figure;
use crate::work::{Stage, Work};
use elltree::MapCounts;
use std::thread;
use std::time::{Duration, Instant};

/// The number of keys of a map that is also measured under changes and finds.
const ALSO_FOUND: u64 = 65_536;

/// What threads do with the map, that the pauses are told of.
#[derive(Clone, Copy, PartialEq, Eq, PartialOrd, Ord)]
pub enum Load {
    Inserts(Order),
    Turns,
    Work(Work),
}

impl Load {
    pub const ALL: [Load; 6] = [
        Load::Inserts(Order::Ascending),
        Load::Inserts(Order::Descending),
        Load::Inserts(Order::Shuffled),
        Load::Turns,
        Load::Work(Work::Changes),
        Load::Work(Work::FewChanges),
    ];

    pub fn name(self) -> &'static str {
        match self {
            Load::Inserts(Order::Ascending) => "ascending inserts",
            Load::Inserts(Order::Descending) => "descending inserts",
            Load::Inserts(Order::Shuffled) => "shuffled inserts",
            Load::Turns => "turns",
            Load::Work(Work::Mixed) => "50 % changes",
            Load::Work(Work::Changes) => "changes",
            Load::Work(Work::FewChanges) => "10 % changes",
        }
    }
}

/// What a number says of the pauses.
#[derive(Clone, Copy, PartialEq, Eq, PartialOrd, Ord)]
pub enum Said {
    /// How many inserts and deletes there were in a second, also those that found nothing to do.
    ChangesASecond,
    Renewals,
    /// For which part of the time a processor was at work on renewals, in percent.
    Work,
    /// Which part of the time the pauses took, in percent.
    Part,
    /// The mean of the pauses in nanoseconds, and the longest.
    Mean,
    Longest,
    /// How many sections the map has in the end, and how many cards.
    Sections,
    Cards,
}

impl Said {
    pub fn name(self) -> &'static str {
        match self {
            Said::ChangesASecond => "changes a second",
            Said::Renewals => "renewals",
            Said::Work => "work on renewals in %",
            Said::Part => "time in pauses in %",
            Said::Mean => "mean pause",
            Said::Longest => "longest pause",
            Said::Sections => "sections",
            Said::Cards => "cards",
        }
    }
}

/// The figures of a map to which this has happened since it was made, so long ago.
pub fn figures(load: Load, counts: MapCounts, time: Duration) -> Vec<(Figure, f64)> {
    let part = |it: Duration| 100.0 * it.as_secs_f64() / time.as_secs_f64();
    let mean = (counts.renewals > 0).then(|| counts.pauses.as_nanos() as f64 / counts.renewals as f64);
    let said = [
        (Said::Renewals, Some(counts.renewals as f64)),
        (Said::Work, Some(part(counts.renewal_time))),
        (Said::Part, Some(part(counts.pauses))),
        (Said::Mean, mean),
        (Said::Longest, mean.map(|_| counts.longest_pause.as_nanos() as f64)),
        (Said::Sections, Some(counts.sections as f64)),
        (Said::Cards, Some(counts.cards as f64)),
    ];
    said.into_iter().filter_map(|(said, it)| Some((Figure::Pauses(load, said), it?))).collect()
}

/// Works without pause until the stage is over, and returns how many changes it made.
fn count_changes(stage: &Stage, seed: u64, writer: &mut dyn View, keys: Stripe, work: Work) -> u64 {
    let mut changes = 0;
    stage.drive(seed, u64::MAX, |random| {
        changes += u64::from(work.is_change(random));
        work.act(writer, keys, random)
    });
    changes
}

/// Has all writers of a new map that renews itself do this work without pause for so long.
fn pauses_of(peer: Peer, sizes: Sizes, work: Work, interval: Duration) -> Vec<(Figure, f64)> {
    let Crew { writers, renewing, .. } = peer.crew(sizes);
    let map = renewing.expect("a map that renews itself");
    let stage = &Stage::of(writers.len());
    let (changes, took) = thread::scope(|scope| {
        let count = |(mut writer, seed): (Box<dyn View>, u64)| scope.spawn(move || count_changes(stage, seed, &mut *writer, sizes.all(), work));
        let threads: Vec<_> = writers.into_iter().zip(0..).map(count).collect();
        stage.begin_to_count();
        let begun = Instant::now();
        thread::sleep(interval);
        stage.end();
        let changes: u64 = threads.into_iter().map(|thread| thread.join().unwrap()).sum();
        (changes, begun.elapsed())
    });
    let load = Load::Work(work);
    let a_second = (Figure::Pauses(load, Said::ChangesASecond), changes as f64 / took.as_secs_f64());
    [vec![a_second], figures(load, map.counts(), took)].concat()
}

/// The pauses of new maps under each load that is measured with so many keys, for so long each.
pub fn pauses(peer: Peer, sizes: Sizes, interval: Duration) -> Vec<(Figure, f64)> {
    let works = if sizes.keys == ALSO_FOUND { &[Work::Changes, Work::FewChanges][..] } else { &[Work::Changes] };
    works.iter().flat_map(|work| pauses_of(peer, sizes, *work, interval)).collect()
}
