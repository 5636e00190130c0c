//! Measures elltree, as a program in Rust has it, as one map and through the handles of a tree, beside the same tree over bare atomic words and as
//! libcds has it, `BTreeMap`s behind locks, one or 16 of them, and a private `BTreeMap` for each thread; of ranges also as a program in C has it,
//! beside Java's skip list; and of some figures beside further maps of libcds, of TBB and of Java. A library that was built before a
//! change may be one more. `bench/hosts/run` builds it, and says what its words are; the tables go to standard output.

mod array;
#[path = "../plain/bare_tree.rs"]
mod bare_tree;
#[cfg(cpp_map)]
mod cpp;
mod ends;
mod front;
mod inserts;
#[cfg(java)]
mod java;
mod library;
mod memory;
mod one_map;
mod pauses;
mod peers;
mod ranges;
mod realtime;
mod record;
mod reusing;
mod work;

use ends::ends;
use front::Part;
use inserts::{Order, inserts, inserts_in};
use memory::memory;
use pauses::pauses;
use peers::{Crew, Peer, Sizes};
use ranges::{Hold, Span, Told, Way, write};
use record::{Figure, Record};
use std::process::ExitCode;
use std::time::Duration;
use std::{env, fs};
use work::{Bursts, Latencies, Random, Speeds, Work, adds, expect_stops, latencies, scans, stops};

const KEYS: [u64; 3] = [64, 4_096, 262_144];

/// How many keys a map has of which ranges are told.
const RANGED: [u64; 2] = [4_096, 262_144];

/// How many counters there are.
const COUNTERS: [u64; 3] = [1, 64, 4_096];

/// How many keys are inserted into a map that was empty.
const INSERTED: [u64; 2] = [200_000, 1_000_000];

/// How many keys a queue has.
const QUEUED: [u64; 1] = [100_000];

/// How many keys a map has of which the pauses are told.
const PAUSING: [u64; 3] = [1_000, 65_536, 262_144];

/// Latencies, and ranges, take longer intervals than other bursts, by so many times, and have fewer rounds, by such a part, as inserts and queues do.
const LATENCIES_LONGER: f64 = 15.0;
const RANGES_LONGER: f64 = 2.5;
const FEWER: usize = 4;

/// For how many rounds a map is kept. Its memory may lie well or badly, by chance, for as long.
const KEPT_FOR: usize = 3;

/// What is measured.
#[derive(Clone, Copy, PartialEq)]
pub enum Kind {
    /// Operations of threads, each on all keys.
    Shared,
    /// Looks of readers, and changes of threads, each of all keys.
    SharedLooks,
    /// Latencies beside a writer without pause. Each writer has keys of its own.
    Running,
    /// Latencies beside a writer that is stopped at times. Each writer has keys of its own.
    Stopped,
    /// Adds to the values of keys that all threads share.
    Counters,
    /// Ranges told to readers, and writes of writers, each on all keys.
    Ranges,
    /// Inserts of all keys into a map without keys.
    Inserts,
    /// Keys that come at the end of a queue, and go at its beginning.
    Ends,
    /// The pauses of a map that renews itself, for some seconds.
    Pauses,
    /// A part of the table for the first screen of README.md.
    Front(Part),
}

/// What is measured of each peer, one after the other.
#[derive(Clone, Copy)]
pub struct Case {
    pub kind: Kind,
    pub sizes: Sizes,
}

impl Kind {
    const ALL: [Kind; 13] = [
        Kind::Shared,
        Kind::SharedLooks,
        Kind::Running,
        Kind::Stopped,
        Kind::Counters,
        Kind::Ranges,
        Kind::Inserts,
        Kind::Ends,
        Kind::Pauses,
        Kind::Front(Part::Operations),
        Kind::Front(Part::Inserts),
        Kind::Front(Part::Stops),
        Kind::Front(Part::Memory),
    ];

    pub fn name(self) -> &'static str {
        match self {
            Kind::Shared => "shared",
            Kind::SharedLooks => "shared-looks",
            Kind::Running => "running",
            Kind::Stopped => "stopped",
            Kind::Counters => "counters",
            Kind::Ranges => "ranges",
            Kind::Inserts => "inserts",
            Kind::Ends => "ends",
            Kind::Pauses => "pauses",
            Kind::Front(_) => "front",
        }
    }

    pub fn peers(self) -> Vec<Peer> {
        let all = Peer::ALL.iter().copied();
        match self {
            Kind::Shared => all.filter(|peer| peer.can_share() && !matches!(peer, Peer::RwLock | Peer::RwLocks)).collect(),
            Kind::SharedLooks => all.filter(|peer| peer.can_share() && !matches!(peer, Peer::Mutex | Peer::Mutexes)).collect(),
            Kind::Running | Kind::Stopped => all.collect(),
            Kind::Counters => Peer::COUNTING.to_vec(),
            Kind::Ranges => Way::ALL.iter().copied().map(Peer::Ranging).collect(),
            Kind::Inserts => Peer::FILLED.to_vec(),
            Kind::Ends => Peer::QUEUES.to_vec(),
            Kind::Pauses => vec![Peer::OneMap],
            Kind::Front(part) => Peer::FRONT.iter().copied().filter(|peer| part.suits(*peer)).collect(),
        }
    }

    /// The peer that is compared with others.
    pub fn ours(self) -> Peer {
        match self {
            Kind::Ranges => Peer::Ranging(Way::Elltree),
            Kind::Pauses => Peer::OneMap,
            _ => Peer::Elltree,
        }
    }

    /// The peer to whose times in the same round those of the others are compared.
    pub fn reference(self) -> Option<Peer> {
        match self {
            Kind::Running | Kind::Stopped | Kind::Front(Part::Stops) | Kind::Ranges | Kind::Pauses => None,
            Kind::Shared | Kind::Counters | Kind::Inserts | Kind::Front(_) => Some(Peer::Mutexes),
            Kind::SharedLooks => Some(Peer::RwLocks),
            Kind::Ends => Some(Peer::Mutex),
        }
    }

    /// The numbers of writers and readers: no more than 4 threads.
    fn crews(self) -> Vec<(u64, u64)> {
        match self {
            Kind::Shared => vec![(1, 0), (2, 0), (4, 0)],
            Kind::SharedLooks => vec![(0, 1), (0, 4), (1, 2), (3, 1)],
            Kind::Running | Kind::Stopped => vec![(2, 1)],
            Kind::Counters | Kind::Inserts | Kind::Ends => vec![(1, 0), (4, 0)],
            Kind::Ranges => vec![(0, 1), (3, 0), (3, 1)],
            Kind::Pauses => vec![(4, 0)],
            Kind::Front(part) => part.crews(),
        }
    }

    /// How many keys there are.
    pub fn keys(self) -> &'static [u64] {
        match self {
            Kind::Counters => &COUNTERS,
            Kind::Ranges => &RANGED,
            Kind::Inserts => &INSERTED,
            Kind::Ends => &QUEUED,
            Kind::Pauses => &PAUSING,
            Kind::Front(part) => part.keys(),
            _ => &KEYS,
        }
    }

    /// Whether all writers change the same keys.
    fn is_of_shared_keys(self) -> bool {
        !matches!(self, Kind::Running | Kind::Stopped | Kind::Front(Part::Stops))
    }

    /// Whether an interval may take seconds. Then its threads are in the normal class, since those of the real-time class lose their
    /// processors for a part of each second.
    fn takes_seconds(self) -> bool {
        matches!(self, Kind::Inserts | Kind::Ends | Kind::Pauses | Kind::Front(Part::Inserts | Part::Memory))
    }

    /// What writers do, if a map is kept from round to round.
    fn work(self) -> Option<Work> {
        match self {
            Kind::Shared | Kind::Front(Part::Operations) => Some(Work::Mixed),
            Kind::SharedLooks => Some(Work::Changes),
            _ => None,
        }
    }

    /// How long an interval takes, unless it takes as long as inserts or turns do, and how many rounds there are.
    fn extent(self, wanted: &Wanted) -> (Duration, usize) {
        let &Wanted { burst, rounds, pauses, .. } = wanted;
        match self {
            Kind::Running | Kind::Stopped | Kind::Front(Part::Stops) => (burst.mul_f64(LATENCIES_LONGER), rounds.div_ceil(FEWER)),
            Kind::Ranges => (burst.mul_f64(RANGES_LONGER), rounds.div_ceil(FEWER)),
            Kind::Inserts | Kind::Ends | Kind::Front(Part::Inserts | Part::Memory) => (burst, rounds.div_ceil(FEWER)),
            Kind::Pauses => (pauses, 1),
            _ => (burst, rounds),
        }
    }

    /// The cases of this kind with so many keys.
    fn cases(self, keys: u64) -> impl Iterator<Item = Case> {
        let shared = self.is_of_shared_keys();
        let sizes = self.crews().into_iter().map(move |(writers, readers)| Sizes { keys, writers, readers, shared });
        sizes.map(move |sizes| Case { kind: self, sizes })
    }
}

/// All cases of these kinds, or those with so many keys.
fn cases(kinds: &[Kind], only: Option<u64>) -> Vec<Case> {
    let are_wanted = |keys: &&u64| only.is_none_or(|only| only == **keys);
    kinds.iter().flat_map(|kind| kind.keys().iter().filter(are_wanted).flat_map(|keys| kind.cases(*keys))).collect()
}

/// The median, 99 % and worst of latencies, if there are any.
fn spread(mut latencies: Vec<u64>, figures: [Figure; 3]) -> Vec<(Figure, f64)> {
    latencies.sort_unstable();
    let Some(&worst) = latencies.last() else {
        return Vec::new();
    };
    let at = |percent| latencies[(latencies.len() - 1) * percent / 100] as f64;
    figures.into_iter().zip([at(50), at(99), worst as f64]).collect()
}

/// A peer in a case, with its map, if that is kept from round to round.
struct Measured {
    case: Case,
    peer: Peer,
    kept: Option<Bursts>,
}

impl Measured {
    fn of(case: Case, peer: Peer) -> Measured {
        let work = case.kind.work().filter(|_| peer.is_of_this_process());
        Measured { case, peer, kept: work.map(|work| Bursts::new(peer, case.sizes, work)) }
    }

    /// What a round of this peer has.
    fn round(&mut self, interval: Duration) -> Vec<(Figure, f64)> {
        let sizes = self.case.sizes;
        let Some(kept) = &mut self.kept else {
            return measure_anew(self.case, self.peer, interval);
        };
        let Speeds { writers, readers } = kept.next(interval);
        let of_writers = if sizes.readers == 0 { Figure::Operation } else { Figure::Change };
        readers.map(|it| (Figure::Look, it)).into_iter().chain(writers.map(|it| (of_writers, it))).collect()
    }
}

/// What an interval of a new map has.
fn measure_anew(case: Case, peer: Peer, interval: Duration) -> Vec<(Figure, f64)> {
    let Case { kind, sizes } = case;
    match (kind, peer) {
        #[cfg(java)]
        (Kind::Front(part), Peer::SkipList) => vec![(part.figure(), java::SkipList::measure(part, sizes, interval))],
        (Kind::Running | Kind::Stopped | Kind::Front(Part::Stops), _) => {
            let Latencies { writers, readers } = latencies(peer, sizes, kind != Kind::Running, interval);
            [spread(readers, Figure::OF_LOOKS), spread(writers, Figure::OF_OPERATIONS)].concat()
        }
        (Kind::Counters, _) => adds(peer, sizes, interval).map(|it| (Figure::Add, it)).into_iter().collect(),
        (Kind::Ranges, Peer::Ranging(way)) => measure_ranges(way, sizes, interval),
        (Kind::Inserts, _) => inserts(peer, sizes),
        (Kind::Ends, _) => ends(peer, sizes),
        (Kind::Pauses, _) => pauses(peer, sizes, interval),
        (Kind::Front(Part::Inserts), _) => inserts_in(Order::Ascending, peer, sizes),
        (Kind::Front(Part::Memory), _) => memory(peer, sizes),
        _ => unreachable!("{} of {} have no new map each time", kind.name(), peer.name()),
    }
}

/// What answers to each span take, and writes beside readers that ask for it; or without readers the writes alone.
fn measure_ranges(way: Way, sizes: Sizes, interval: Duration) -> Vec<(Figure, f64)> {
    let took = |span| match way {
        #[cfg(java)]
        Way::SkipList => java::SkipList::scans(sizes, span, interval),
        _ => scans(way, sizes, span, interval),
    };
    if sizes.readers == 0 {
        return took(Span::Next).writers.map(|it| (Figure::Write, it)).into_iter().collect();
    }
    let figures = |span| {
        let Speeds { writers, readers } = took(span);
        [readers.map(|it| (Figure::Told(span), it)), writers.map(|it| (Figure::WriteBeside(span), it))]
    };
    Span::ALL.into_iter().flat_map(figures).flatten().collect()
}

/// What the writers of a map answer to a fixed sequence of so many operations, in turn, and what its readers say of a key after each.
fn answers(peer: Peer, sizes: Sizes, turns: usize) -> [Vec<Option<u64>>; 2] {
    let Crew { mut writers, mut readers, .. } = peer.crew(sizes);
    let stripes: Vec<_> = sizes.stripes().collect();
    let mut random = Random::new(1);
    let [mut operations, mut looks] = [Vec::new(), Vec::new()];
    for turn in 0..turns {
        let at = turn % writers.len();
        operations.push(Work::Mixed.act(&mut *writers[at], stripes[at], random.next()));
        let key = sizes.all().random_key(random.next());
        looks.extend(readers.iter_mut().map(|reader| reader.look(key)));
    }
    [operations, looks]
}

/// Whether these peers answer so many turns alike, on keys of their own and on shared ones. Private maps have no readers.
fn agree(peers: &[Peer], turns: usize) -> bool {
    let parted = KEYS.map(|keys| Sizes { keys, writers: 4, readers: 2, shared: false });
    let shared = parted.map(|sizes| Sizes { shared: true, ..sizes });
    parted.into_iter().chain(shared).all(|sizes| {
        let expected = answers(Peer::Mutex, sizes, turns);
        peers.iter().filter(|peer| !sizes.shared || peer.can_share()).all(|peer| {
            let [operations, looks] = answers(*peer, sizes, turns);
            operations == expected[0] && (looks == expected[1] || *peer == Peer::Private)
        })
    })
}

/// What the threads of a map answer.
#[derive(Default, PartialEq)]
struct Answers {
    writes: Vec<Option<u64>>,
    ranges: Vec<Told>,
    next_keys: Vec<Option<(u64, u64)>>,
}

/// What the writers of a map answer to a fixed sequence of writes, in turn, and what its readers are told of a range and a next key after
/// each.
fn answers_of_ranges(way: Way, sizes: Sizes) -> Answers {
    let Crew { mut writers, mut readers, .. } = way.crew(sizes);
    let (mut random, mut answers) = (Random::new(3), Answers::default());
    for turn in 0..20_000 {
        let (at, reader_at) = (turn % writers.len(), turn % readers.len());
        let (writer, reader) = (&mut *writers[at], &mut *readers[reader_at]);
        answers.writes.push(write(writer, sizes.all(), random.next()));
        let span = if turn % 5_000 == 0 { Span::All } else { [Span::Of10, Span::Of100][turn / 2 % 2] };
        answers.ranges.push(span.range(reader, sizes, random.next()));
        answers.next_keys.push(reader.next_at_least(sizes.all().random_key(random.next())));
    }
    answers
}

/// Whether all maps of which ranges are told answer alike.
fn ranges_agree() -> bool {
    RANGED.map(|keys| Sizes { keys, writers: 4, readers: 2, shared: true }).into_iter().all(|sizes| {
        let expected = answers_of_ranges(Way::Mutex(Hold::Range), sizes);
        Way::ALL.iter().all(|way| answers_of_ranges(*way, sizes) == expected)
    })
}

/// Whether all that these kinds compare answers alike. A process of Java is asked less often, since each answer takes a message.
fn all_agree(kinds: &[Kind]) -> bool {
    agree(Peer::ALL, 100_000)
        && (!kinds.contains(&Kind::Ranges) || ranges_agree())
        && (!kinds.iter().any(|kind| matches!(kind, Kind::Front(_))) || agree(Peer::FRONT, 20_000))
}

/// Measures one case of these kinds after the other: in each round all of its peers, in another order each time.
fn measure_all(wanted: &Wanted) -> Record {
    let cases = cases(&wanted.kinds, wanted.keys);
    let mut record = Record::new(cases.clone());
    let mut random = Random::new(2);
    for (at, case) in cases.into_iter().enumerate() {
        let (interval, rounds) = case.kind.extent(wanted);
        let (mut peers, mut measured) = (case.kind.peers(), Vec::new());
        for round in 0..rounds {
            if round % KEPT_FOR == 0 {
                measured.clear();
                random.shuffle(&mut peers);
                measured.extend(peers.iter().map(|peer| Measured::of(case, *peer)));
            }
            random.shuffle(&mut measured);
            for it in &mut measured {
                record.add(at, it.peer, it.round(interval));
            }
        }
    }
    record
}

/// What the words of the command ask for.
struct Wanted<'a> {
    burst: Duration,
    rounds: usize,
    /// For how long each case of pauses is measured.
    pauses: Duration,
    kinds: Vec<Kind>,
    /// How many keys there are, if it is not each number that a kind has.
    keys: Option<u64>,
    /// Whether the real-time class is wanted.
    in_real_time: bool,
    /// After how many seconds this ends by a signal, if it has not ended.
    limit: u32,
    /// The file for the rows, and the name that the tables have for it.
    file: &'a str,
    name: &'a str,
}

impl Wanted<'_> {
    fn of(words: &[String]) -> Option<Wanted<'_>> {
        let [seconds, rounds, pauses, what, keys, class, limit, file, name] = words else {
            return None;
        };
        let duration = |seconds: &str| Duration::try_from_secs_f64(seconds.parse().ok()?).ok();
        Some(Wanted {
            burst: duration(seconds)?,
            rounds: rounds.parse().ok().filter(|it| *it > 0)?,
            pauses: duration(pauses)?,
            kinds: Kind::ALL.into_iter().filter(|kind| what == "all" || what == kind.name()).collect(),
            keys: if keys == "all" { None } else { Some(keys.parse().ok()?) },
            in_real_time: class == "real-time",
            limit: limit.parse().ok()?,
            file,
            name,
        })
    }
}

/// The class of the threads that are measured, in words.
fn class_of(wanted: &Wanted) -> String {
    let normal = wanted.kinds.iter().filter(|kind| kind.takes_seconds()).count();
    if normal == wanted.kinds.len() {
        return "normal, since an interval takes seconds".to_string();
    }
    let class = realtime::begin(wanted.in_real_time);
    if normal == 0 { class.to_string() } else { format!("{class}; normal for inserts, ends, pauses and memory") }
}

fn main() -> ExitCode {
    let words: Vec<String> = env::args().skip(1).collect();
    if let Some(bytes) = memory::answer(&words) {
        println!("{bytes}");
        return ExitCode::SUCCESS;
    }
    let Some(wanted) = Wanted::of(&words) else {
        eprintln!(
            "hosts: give seconds, rounds, seconds for pauses, a kind or all, a number of keys or all, real-time or normal, a limit in \
             seconds, a file, and its name in tables"
        );
        return ExitCode::from(2);
    };
    realtime::end_after(wanted.limit);
    let class = class_of(&wanted);
    if !all_agree(&wanted.kinds) {
        eprintln!("hosts: the answers differ");
        return ExitCode::FAILURE;
    }
    expect_stops();
    let record = measure_all(&wanted);
    println!("{}\nThe class of the threads: {class}. They were stopped {} times.", record.tables(wanted.name), stops());
    match fs::write(wanted.file, format!("# class: {class}\n{}", record.rows())) {
        Ok(()) => ExitCode::SUCCESS,
        Err(why) => {
            eprintln!("hosts: {}: {why}", wanted.file);
            ExitCode::FAILURE
        }
    }
}
