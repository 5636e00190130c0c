//! A timer queue: the first part of a timer's key is when it is due. Threads schedule timers and cancel some, while one thread takes those that are
//! due, in their order. Build and run it as `src/main.rs` of a package, by
//!     cargo add --path PREFIX/share/elltree/rust && cargo run --release
use std::sync::atomic::{AtomicU32, Ordering};
use std::thread;

use elltree::{MapResult, TypedMap};

/// When a timer is due, and a number that no other timer has. Of the timers of one moment, the one with the least number goes first.
type Timer = (u32, u32);

const THREADS: u32 = 4;
const TICKS: u32 = 2_000;
const END: u32 = u32::MAX;

/// Timers, each with a value that says what it is for.
struct Timers {
    queue: TypedMap<Timer, u32>,
    scheduled: AtomicU32,
}

impl Timers {
    fn new() -> MapResult<Timers> {
        Ok(Timers { queue: TypedMap::new()?, scheduled: AtomicU32::new(0) })
    }

    fn schedule(&self, due: u32, purpose: u32) -> MapResult<Timer> {
        let timer = (due, self.scheduled.fetch_add(1, Ordering::Relaxed));
        self.queue.insert(timer, purpose)?;
        Ok(timer)
    }

    /// Returns whether the timer was canceled. If another thread has taken it or canceled it, it was not.
    fn cancel(&self, timer: Timer) -> MapResult<bool> {
        Ok(self.queue.remove(timer)?.is_some())
    }

    /// Takes the first timer if it is due, and returns it with its purpose. (`pop_first` would also take one that is not due yet.)
    fn take_due(&self, now: u32) -> MapResult<Option<(Timer, u32)>> {
        while let Some((timer, _)) = self.queue.first_key_value().filter(|(timer, _)| timer.0 <= now) {
            if let Some(purpose) = self.queue.remove(timer)? {
                return Ok(Some((timer, purpose)));
            }
            // This one was canceled meanwhile, so another one is the first now.
        }
        Ok(None)
    }
}

/// Schedules two timers in each tick, and cancels every second one of those that are far ahead. Returns how many it has canceled. Once the clock of
/// a thread shows a tick, the thread schedules no timer that is due in that tick or before it.
fn schedule_all(timers: &Timers, clock: &AtomicU32, thread: u32) -> MapResult<usize> {
    let mut canceled = 0;
    for now in 0..TICKS {
        clock.store(now, Ordering::Release);
        timers.schedule(now + 1 + (7 * now + thread) % 10, thread)?;
        let far = timers.schedule(now + 1_000, thread)?;
        canceled += usize::from(now % 2 == 0 && timers.cancel(far)?);
    }
    Ok(canceled)
}

/// Takes the timers that are due by the clocks of all threads, until these have ended. Returns them in the order in which it took them.
fn take_all(timers: &Timers, clocks: &[AtomicU32]) -> MapResult<Vec<(Timer, u32)>> {
    let mut taken = Vec::new();
    loop {
        let now = clocks.iter().map(|clock| clock.load(Ordering::Acquire)).min().unwrap_or(END);
        while let Some(timer) = timers.take_due(now)? {
            taken.push(timer);
        }
        if now == END {
            return Ok(taken);
        }
        thread::yield_now();
    }
}

fn main() -> MapResult<()> {
    let timers = Timers::new()?;
    let clocks: Vec<AtomicU32> = (0..THREADS).map(|_| AtomicU32::new(0)).collect();
    let (taken, canceled) = thread::scope(|scope| {
        let schedule = |(thread, clock)| {
            let canceled = schedule_all(&timers, clock, thread);
            clock.store(END, Ordering::Release); // also after an error, so that nobody waits for this thread
            canceled
        };
        let threads: Vec<_> = (0..).zip(&clocks).map(|each| scope.spawn(move || schedule(each))).collect();
        let taken = take_all(&timers, &clocks)?;
        let canceled = threads.into_iter().map(|thread| thread.join().expect("no panic")).sum::<MapResult<usize>>()?;
        Ok((taken, canceled))
    })?;
    println!("{} scheduled, {canceled} canceled, {} taken when due", timers.scheduled.into_inner(), taken.len());
    println!("each one was taken in its order: {}", taken.is_sorted());
    if let Some(((due, _), _)) = taken.last() {
        println!("the last one was due in tick {due}");
    }
    Ok(())
}
