//! Has each thread that is measured on a processor of its own and in the real-time class, where that is allowed, so that nothing else that
//! the machine does takes time from it. The thread that ends an interval has a higher priority then, since it would get no processor
//! while the others work.

use std::sync::OnceLock;
use std::thread::{self, Scope, ScopedJoinHandle};
use std::time::Duration;

/// How many processors are needed: the most threads of a case.
const NEEDED: usize = 4;

/// The priorities in the real-time class: of a thread that is measured, and of the one that ends an interval.
const MEASURED: i32 = 1;
const FIRST: i32 = 2;

/// What part of an interval this process leaves the processors to others before it: the system takes them from threads of this class that
/// had them for more than 0.95 seconds of one.
const REST: u32 = 5;

const SCHED_OTHER: i32 = 0;
const SCHED_FIFO: i32 = 1;
const WORDS: usize = 16;

/// A bit for each processor.
type Set = [u64; WORDS];

#[repr(C)]
struct Parameters {
    priority: i32,
}

unsafe extern "C" {
    fn sched_getaffinity(thread: i32, size: usize, set: &mut Set) -> i32;
    fn sched_setaffinity(thread: i32, size: usize, set: &Set) -> i32;
    fn sched_setscheduler(thread: i32, class: i32, parameters: &Parameters) -> i32;
    fn alarm(seconds: u32) -> u32;
}

/// The processors of this process, if the real-time class is used.
static PROCESSORS: OnceLock<Option<Vec<usize>>> = OnceLock::new();

fn processors() -> Option<&'static [usize]> {
    PROCESSORS.get()?.as_deref()
}

/// Puts this thread into a class. Returns whether that is allowed.
fn enter(class: i32, priority: i32) -> bool {
    // SAFETY: the parameters are there during the call.
    unsafe { sched_setscheduler(0, class, &Parameters { priority }) == 0 }
}

/// The processors on which this process may run.
fn usable_processors() -> Vec<usize> {
    let mut set = [0; WORDS];
    // SAFETY: the set is as long as said.
    if unsafe { sched_getaffinity(0, size_of::<Set>(), &mut set) } != 0 {
        return Vec::new();
    }
    (0..64 * WORDS).filter(|at| set[at / 64] >> (at % 64) & 1 == 1).collect()
}

/// Sees, before the first thread is measured, whether the real-time class can be used, if it is wanted. Returns what is used, in words.
pub fn begin(is_wanted: bool) -> &'static str {
    let usable = usable_processors();
    let (chosen, said) = if !is_wanted {
        (None, "normal, as asked")
    } else if usable.len() < NEEDED {
        (None, "normal, since there are fewer than 4 processors")
    } else if !enter(SCHED_FIFO, FIRST) || !enter(SCHED_OTHER, 0) {
        (None, "normal, since SCHED_FIFO is not allowed")
    } else {
        (Some(usable), "real time (SCHED_FIFO), each thread on a processor of its own")
    };
    PROCESSORS.set(chosen).expect("this is called once");
    said
}

/// Ends this process by a signal after so many seconds, whatever its threads do then.
pub fn end_after(seconds: u32) {
    // SAFETY: it asks nothing.
    unsafe { alarm(seconds) };
}

/// Gives this thread the processor at a place, in the real-time class, if that is used.
fn take_processor(place: usize) {
    let Some(processors) = processors() else {
        return;
    };
    let processor = processors[place % processors.len()];
    let mut set = [0; WORDS];
    set[processor / 64] = 1 << (processor % 64);
    // SAFETY: the set is as long as said.
    let is_pinned = unsafe { sched_setaffinity(0, size_of::<Set>(), &set) } == 0;
    assert!(is_pinned && enter(SCHED_FIFO, MEASURED), "processor {processor} was there before");
}

/// Runs this in a thread that is measured: each place has a processor of its own.
pub fn spawn<'scope, T: Send + 'scope>(
    scope: &'scope Scope<'scope, '_>,
    place: usize,
    run: impl FnOnce() -> T + Send + 'scope,
) -> ScopedJoinHandle<'scope, T> {
    scope.spawn(move || {
        take_processor(place);
        run()
    })
}

/// This thread comes before those that are measured, until the drop.
pub struct First(());

/// Has this thread come before those that are measured. A thread that it starts meanwhile would do so too.
pub fn go_first() -> First {
    if processors().is_some() {
        enter(SCHED_FIFO, FIRST);
    }
    First(())
}

impl Drop for First {
    fn drop(&mut self) {
        if processors().is_some() {
            enter(SCHED_OTHER, 0);
        }
    }
}

/// Leaves the processors to others for a while, before such an interval.
pub fn rest(interval: Duration) {
    if processors().is_some() {
        thread::sleep(interval / REST);
    }
}
