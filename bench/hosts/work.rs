//! What threads do with a map, and how long it takes.

use crate::peers::{Counters, Crew, Peer, Sizes, Stripe, View};
use crate::ranges::{Span, Way, write};
use crate::realtime;
use std::hint::{black_box, spin_loop};
use std::sync::Barrier;
use std::sync::atomic::{AtomicU8, AtomicUsize, Ordering};
use std::thread::{self, ScopedJoinHandle};
use std::time::{Duration, Instant};

/// How long a thread is stopped, and how long it works between two stops.
const STOPPED: Duration = Duration::from_millis(10);
const BETWEEN_STOPS: Duration = Duration::from_millis(15);

/// How often a thread makes an operation of which the latency is measured.
const PACE: Duration = Duration::from_micros(20);

/// After how many operations a thread without pause sees whether the interval is over.
const BATCH: u64 = 16;

/// How many threads of a burst may have pseudo-random numbers of their own.
const PLACES: u64 = 64;

const SIGUSR1: i32 = 10;

unsafe extern "C" {
    fn pthread_self() -> usize;
    fn pthread_kill(thread: usize, signal: i32) -> i32;
    fn signal(signal: i32, handler: extern "C" fn(i32)) -> usize;
    fn malloc_trim(pad: usize) -> i32;
}

/// Has the C library put in order what other maps have freed, so that no map that asks for memory later pays for that.
pub fn tidy_memory() {
    // SAFETY: the function may be called at any time.
    unsafe { malloc_trim(0) };
}

/// Pseudo-random numbers.
pub struct Random(u64);

impl Random {
    pub fn new(seed: u64) -> Random {
        Random((seed + 1).wrapping_mul(0x9E37_79B9_7F4A_7C15))
    }

    pub fn next(&mut self) -> u64 {
        self.0 ^= self.0 << 13;
        self.0 ^= self.0 >> 7;
        self.0 ^= self.0 << 17;
        self.0
    }

    pub fn shuffle<T>(&mut self, items: &mut [T]) {
        for last in (1..items.len()).rev() {
            items.swap(last, (self.next() >> 32) as usize % (last + 1));
        }
    }
}

/// What an writer does: operations on random keys.
#[derive(Clone, Copy, PartialEq, Eq, PartialOrd, Ord)]
pub enum Work {
    /// A half are finds, a quarter inserts, and a quarter deletes.
    Mixed,
    /// A half are inserts, and a half deletes.
    Changes,
    /// Nine tenths are finds, a twentieth inserts, and a twentieth deletes.
    FewChanges,
}

impl Work {
    /// Of how many operations one is an insert, and one a delete.
    fn one_in(self) -> u64 {
        match self {
            Work::Mixed => 4,
            Work::Changes => 2,
            Work::FewChanges => 20,
        }
    }

    /// Whether the operation that a random number stands for is an insert or a delete.
    pub fn is_change(self, random: u64) -> bool {
        random % self.one_in() < 2
    }

    /// The operation that a random number stands for.
    pub fn act(self, writer: &mut dyn View, stripe: Stripe, random: u64) -> Option<u64> {
        let key = stripe.random_key(random);
        match random % self.one_in() {
            0 => Some(writer.insert(key, random).into()),
            1 => Some(writer.delete(key).into()),
            _ => writer.find(key),
        }
    }

    /// How many operations all writers of a map may make.
    fn most(self, peer: Peer) -> u64 {
        peer.most_changes().saturating_mul(self.one_in() / 2)
    }
}

/// What a thread did without pause.
#[derive(Clone, Copy, Default)]
pub struct Done {
    /// How long the acts took that count, and how many these were.
    took: Duration,
    counted: u64,
    /// How many acts there were in all.
    all: u64,
}

/// What acts are for: at first to fill the caches with what they need, since other maps were used before; then they count.
#[derive(Clone, Copy)]
enum Phase {
    Leading,
    Counted,
    Over,
}

/// Where the threads of an interval begin together, and see how far it is.
pub struct Stage {
    begin: Barrier,
    phase: AtomicU8,
}

impl Stage {
    /// A stage for so many threads and the one that makes it.
    pub fn of(threads: usize) -> Stage {
        Stage { begin: Barrier::new(threads + 1), phase: AtomicU8::new(Phase::Leading as u8) }
    }

    fn has_begun(&self, phase: Phase) -> bool {
        self.phase.load(Ordering::Relaxed) >= phase as u8
    }

    fn is_over(&self) -> bool {
        self.has_begun(Phase::Over)
    }

    /// Begins a phase, unless it is later already.
    fn enter(&self, phase: Phase) {
        self.phase.fetch_max(phase as u8, Ordering::Relaxed);
    }

    /// Has the threads begin. All that they do counts.
    pub fn begin_to_count(&self) {
        self.begin.wait();
        self.enter(Phase::Counted);
    }

    pub fn end(&self) {
        self.enter(Phase::Over);
    }

    /// Has the threads go through an interval.
    fn conduct(&self, interval: Duration) {
        realtime::rest(interval);
        let _first = realtime::go_first();
        lead(&[self], interval);
        self.end();
    }

    /// Acts again and again until a phase has begun, or so many times: how long it took, and how many acts there were, one batch at least.
    fn act_until<T>(&self, phase: Phase, most: u64, mut act: impl FnMut() -> T) -> (Duration, u64) {
        let (begun, mut done) = (Instant::now(), 0);
        loop {
            for _ in 0..BATCH {
                black_box(act());
            }
            done += BATCH;
            if done >= most || self.has_begun(phase) {
                return (begun.elapsed(), done);
            }
        }
    }

    /// Acts without pause until the interval is over, and ends it after so many acts.
    pub fn drive<T>(&self, seed: u64, most: u64, mut act: impl FnMut(u64) -> T) -> Done {
        let mut random = Random::new(seed);
        self.begin.wait();
        let (_, led) = self.act_until(Phase::Counted, most, || act(random.next()));
        let (took, counted) = self.act_until(Phase::Over, most.saturating_sub(led), || act(random.next()));
        self.end();
        Done { took, counted, all: led + counted }
    }

    /// Adds to random ones of these keys without pause until the interval is over, and ends it if no card is left: what it did, and how many
    /// adds were answered.
    fn add(&self, seed: u64, writer: &mut dyn Counters, keys: Stripe) -> (Done, u64) {
        let mut added = 0;
        let done = self.drive(seed, u64::MAX, |random| match writer.add(keys.random_key(random)) {
            Some(was) => {
                added += 1;
                was
            }
            None => {
                self.end();
                0
            }
        });
        (done, added)
    }

    /// Asks again and again until a phase has begun: how long it took, and how many answers there were.
    fn ask_until(&self, phase: Phase, mut ask: impl FnMut() -> u64) -> (Duration, u64) {
        let (begun, mut answers) = (Instant::now(), 0);
        loop {
            answers += ask();
            if self.has_begun(phase) {
                return (begun.elapsed(), answers);
            }
        }
    }

    /// Asks without pause until the interval is over: an act is an answer.
    fn ask(&self, seed: u64, mut ask: impl FnMut(u64) -> u64) -> Done {
        let mut random = Random::new(seed);
        self.begin.wait();
        let (_, led) = self.ask_until(Phase::Counted, || ask(random.next()));
        let (took, counted) = self.ask_until(Phase::Over, || ask(random.next()));
        Done { took, counted, all: led + counted }
    }

    /// Acts once each `PACE` until the interval is over: how long after it was due each act had been done, in nanoseconds.
    fn pace<T>(&self, seed: u64, mut act: impl FnMut(u64) -> T) -> Vec<u64> {
        let (mut random, mut due) = (Random::new(seed), Duration::ZERO);
        let mut latencies = Vec::with_capacity(1 << 16);
        self.begin.wait();
        let begun = Instant::now();
        while !self.is_over() {
            due += PACE;
            while begun.elapsed() < due {
                spin_loop();
            }
            black_box(act(random.next()));
            latencies.push((begun.elapsed() - due).as_nanos() as u64);
        }
        latencies
    }
}

/// Has the threads of these stages begin, lets their acts count after half of such an interval, and waits as long as it is.
fn lead(stages: &[&Stage], interval: Duration) {
    for stage in stages {
        stage.begin.wait();
    }
    thread::sleep(interval / 2);
    for stage in stages {
        stage.enter(Phase::Counted);
    }
    thread::sleep(interval);
}

/// What all these threads did.
fn total(threads: Vec<ScopedJoinHandle<Done>>) -> Done {
    threads.into_iter().map(|thread| thread.join().unwrap()).fold(Done::default(), Done::and)
}

impl Done {
    fn and(self, other: Done) -> Done {
        Done { took: self.took + other.took, counted: self.counted + other.counted, all: self.all + other.all }
    }

    /// Nanoseconds an act.
    fn mean(self) -> Option<f64> {
        (self.counted > 0).then(|| self.took.as_nanos() as f64 / self.counted as f64)
    }
}

/// How long operations take: none if nobody makes them.
pub struct Speeds {
    /// Nanoseconds an operation of an writer.
    pub writers: Option<f64>,
    /// Nanoseconds a look of a reader.
    pub readers: Option<f64>,
}

/// A map that goes through bursts, one after the other, in which all writers do this work without pause, and all readers look at any key. If
/// it could have too few cards for the next burst, another takes its place, unless it renews itself.
pub struct Bursts {
    peer: Peer,
    sizes: Sizes,
    work: Work,
    crew: Crew,
    /// How many operations its writers may make yet, and how many they made in the last burst.
    left: u64,
    last: u64,
    count: u64,
}

impl Bursts {
    pub fn new(peer: Peer, sizes: Sizes, work: Work) -> Bursts {
        Bursts { peer, sizes, work, crew: peer.crew(sizes), left: work.most(peer), last: 0, count: 0 }
    }

    fn renew_if_due(&mut self) {
        if self.left / 2 < self.last {
            *self = Bursts { count: self.count, ..Bursts::new(self.peer, self.sizes, self.work) };
        }
    }

    /// The next burst, of which so long counts.
    pub fn next(&mut self, interval: Duration) -> Speeds {
        self.renew_if_due();
        let Bursts { sizes, work, .. } = *self;
        let stage = &Stage::of(self.crew.threads());
        let most = self.left / sizes.writers.max(1);
        let (mut places, seed) = (0.., PLACES * self.count);
        let (writers, readers) = thread::scope(|scope| {
            let writers = self.crew.writers.iter_mut().zip(sizes.stripes()).zip(&mut places).map(|((writer, stripe), place)| {
                let act = move |random| work.act(&mut **writer, stripe, random);
                realtime::spawn(scope, place, move || stage.drive(seed + place as u64, most, act))
            });
            let writers = writers.collect();
            let readers = self.crew.readers.iter_mut().zip(places).map(|(reader, place)| {
                let look = move |random| reader.look(sizes.all().random_key(random));
                realtime::spawn(scope, place, move || stage.drive(seed + place as u64, u64::MAX, look))
            });
            let readers = readers.collect();
            stage.conduct(interval);
            (total(writers), total(readers))
        });
        (self.last, self.left, self.count) = (writers.all, self.left.saturating_sub(writers.all), self.count + 1);
        Speeds { writers: writers.mean(), readers: readers.mean() }
    }
}

/// Has all writers add to any counters without pause for so long, or until no card is left: nanoseconds an add. The sum of the counters
/// has to be the number of adds that were answered.
pub fn adds(peer: Peer, sizes: Sizes, interval: Duration) -> Option<f64> {
    let Crew { mut writers, .. } = peer.counters(sizes);
    let stage = &Stage::of(writers.len());
    let keys = sizes.all();
    let (done, added) = thread::scope(|scope| {
        let threads =
            writers.iter_mut().zip(0..).map(|(writer, place)| realtime::spawn(scope, place, move || stage.add(place as u64, &mut **writer, keys)));
        let threads: Vec<_> = threads.collect();
        stage.conduct(interval);
        let ended = threads.into_iter().map(|thread| thread.join().unwrap());
        ended.fold((Done::default(), 0), |(done, added), it| (done.and(it.0), added + it.1))
    });
    let counted: u64 = keys.keys().map(|key| writers[0].find(key).expect("a counter")).sum();
    assert_eq!(counted, added, "the counters of {} and its answers", peer.name());
    done.mean()
}

/// Has all writers write at random without pause, and all readers ask for such ranges, for so long. Then the writers go on until each reader
/// has its last answer. If the writers have made as many writes as they may, all end early. The map is a worn one.
pub fn scans(way: Way, sizes: Sizes, span: Span, interval: Duration) -> Speeds {
    let Crew { writers, readers, .. } = way.worn_crew(sizes);
    let (writing, reading) = (&Stage::of(writers.len()), &Stage::of(readers.len()));
    let most = way.most_writes(sizes) / sizes.writers.max(1);
    let mut places = 0..;
    thread::scope(|scope| {
        let writers = writers.into_iter().zip(&mut places).map(|(mut writer, place)| {
            realtime::spawn(scope, place, move || {
                let done = writing.drive(place as u64, most, |random| write(&mut *writer, sizes.all(), random));
                reading.end();
                done
            })
        });
        let writers = writers.collect();
        let readers = readers.into_iter().zip(places).map(|(mut reader, place)| {
            let ask = move |random| span.ask(&mut *reader, sizes, random);
            realtime::spawn(scope, place, move || reading.ask(place as u64, ask))
        });
        let readers = readers.collect();
        realtime::rest(interval);
        let _first = realtime::go_first();
        lead(&[writing, reading], interval);
        reading.end();
        let readers = total(readers).mean();
        writing.end();
        Speeds { writers: total(writers).mean(), readers }
    })
}

static STOPS: AtomicUsize = AtomicUsize::new(0);

extern "C" fn stop(_: i32) {
    STOPS.fetch_add(1, Ordering::Relaxed);
    thread::sleep(STOPPED);
}

/// How often a thread was stopped.
pub fn stops() -> usize {
    STOPS.load(Ordering::Relaxed)
}

/// Has a thread stop where it is whenever `SIGUSR1` is sent to it.
pub fn expect_stops() {
    // SAFETY: the handler counts and sleeps.
    unsafe { signal(SIGUSR1, stop) };
}

/// Stops a thread again and again, for so long in all. This thread wakes late, by many operations of the other and by another number each
/// time: so a stop comes at a random moment of an operation.
fn stop_at_times(thread: usize, interval: Duration) {
    let begun = Instant::now();
    while begun.elapsed() + BETWEEN_STOPS + STOPPED <= interval {
        thread::sleep(BETWEEN_STOPS);
        // SAFETY: the caller has yet to join the thread, which may have ended.
        unsafe { pthread_kill(thread, SIGUSR1) };
        thread::sleep(STOPPED);
    }
    thread::sleep(interval.saturating_sub(begun.elapsed()));
}

fn all_of(threads: Vec<ScopedJoinHandle<Vec<u64>>>) -> Vec<u64> {
    threads.into_iter().flat_map(|thread| thread.join().unwrap()).collect()
}

/// Latencies in nanoseconds.
pub struct Latencies {
    pub writers: Vec<u64>,
    pub readers: Vec<u64>,
}

/// Has the first writer change keys without pause for so long, and be stopped at times if so asked; and has the others and the readers
/// make an operation each `PACE`.
pub fn latencies(peer: Peer, sizes: Sizes, is_stopped: bool, interval: Duration) -> Latencies {
    let crew = peer.crew(sizes);
    let stage = &Stage::of(crew.threads());
    let first_thread = &AtomicUsize::new(0);
    let mut writers = crew.writers.into_iter().zip(sizes.stripes());
    let (mut first, first_stripe) = writers.next().expect("an writer");
    thread::scope(|scope| {
        let changing = realtime::spawn(scope, 0, move || {
            // SAFETY: it asks nothing.
            first_thread.store(unsafe { pthread_self() }, Ordering::SeqCst);
            stage.drive(0, Work::Changes.most(peer), |random| Work::Changes.act(&mut *first, first_stripe, random))
        });
        let mut places = 1..;
        let writers = writers.zip(&mut places).map(|((mut writer, stripe), place)| {
            let act = move |random| Work::Mixed.act(&mut *writer, stripe, random);
            realtime::spawn(scope, place, move || stage.pace(place as u64, act))
        });
        let writers = writers.collect();
        let readers = crew.readers.into_iter().zip(places).map(|(mut reader, place)| {
            let look = move |random| reader.look(sizes.all().random_key(random));
            realtime::spawn(scope, place, move || stage.pace(place as u64, look))
        });
        let readers = readers.collect();
        realtime::rest(interval);
        let _first = realtime::go_first();
        stage.begin_to_count();
        if is_stopped {
            stop_at_times(first_thread.load(Ordering::SeqCst), interval);
        } else {
            thread::sleep(interval);
        }
        stage.end();
        changing.join().unwrap();
        Latencies { writers: all_of(writers), readers: all_of(readers) }
    })
}
