//! Checksums, numbers without a pattern, times, and threads that work side by side.

use std::ffi::{c_int, c_long};
use std::thread;
use std::time::Instant;

const FACTOR: u64 = 6_364_136_223_846_793_005;

#[derive(Clone, Copy, Default)]
pub struct Checksum(pub u64);

impl Checksum {
    pub fn add(&mut self, word: u64) {
        self.0 = self.0.wrapping_mul(FACTOR).wrapping_add(word);
    }
}

pub struct Draws(u64);

impl Draws {
    pub const START: Draws = Draws(1);

    pub fn next_number(&mut self) -> u32 {
        self.0 = self.0.wrapping_mul(FACTOR).wrapping_add(1_442_695_040_888_963_407);
        (self.0 >> 32) as u32
    }
}

/// What a benchmark computed and took.
pub struct Measured {
    pub operations: u64,
    pub nanos: u64,
    /// What the nanoseconds are of: processor time, or wall time where threads work side by side.
    pub clock: &'static str,
    pub checksum: Checksum,
}

/// The processor time that the process had used.
pub struct Stopwatch(u64);

impl Stopwatch {
    pub fn start() -> Stopwatch {
        Stopwatch(processor_nanos())
    }

    pub fn measured(self, operations: u64, checksum: Checksum) -> Measured {
        let nanos = processor_nanos() - self.0;
        Measured { operations, nanos, clock: "processor", checksum }
    }
}

/// C's `struct timespec`, where `time_t` is a `long`.
#[repr(C)]
struct Timespec {
    seconds: c_long,
    nanos: c_long,
}

unsafe extern "C" {
    fn clock_gettime(clock: c_int, time: *mut Timespec) -> c_int;
}

/// Linux's number of the clock of a process's processor time.
const CLOCK_PROCESS_CPUTIME_ID: c_int = 2;

fn processor_nanos() -> u64 {
    let mut time = Timespec { seconds: 0, nanos: 0 };
    // SAFETY: `time` is a timespec that may be written.
    let status = unsafe { clock_gettime(CLOCK_PROCESS_CPUTIME_ID, &mut time) };
    assert_eq!(status, 0, "the clock of processor time");
    time.seconds as u64 * 1_000_000_000 + time.nanos as u64
}

/// What came of the calls of threads, and from when to when they were made.
#[derive(Clone, Copy, Default)]
pub struct Tally {
    pub calls: u64,
    pub sum: u64,
    pub marked: u64,
    span: Option<(Instant, Instant)>,
}

impl Tally {
    pub fn add(&mut self, answer: u64, marked: bool) {
        self.calls += 1;
        self.sum = self.sum.wrapping_add(answer);
        self.marked += u64::from(marked);
    }

    pub fn since(mut self, begun: Instant) -> Tally {
        self.span = Some((begun, Instant::now()));
        self
    }

    fn with(self, other: Tally) -> Tally {
        let span = match (self.span, other.span) {
            (Some((begun, ended)), Some((first, last))) => {
                Some((begun.min(first), ended.max(last)))
            }
            (span, None) | (None, span) => span,
        };
        Tally {
            calls: self.calls + other.calls,
            sum: self.sum.wrapping_add(other.sum),
            marked: self.marked + other.marked,
            span,
        }
    }

    /// With a checksum over the number of calls, how many were marked, and one more word.
    pub fn measured(self, word: u64) -> Measured {
        let (begun, ended) = self.span.expect("a thread that worked");
        let mut checksum = Checksum::default();
        for word in [self.calls, self.marked, word] {
            checksum.add(word);
        }
        let nanos = (ended - begun).as_nanos() as u64;
        Measured { operations: self.calls, nanos, clock: "wall", checksum }
    }
}

/// Does some work in so many threads, and answers what came of all of it.
pub fn side_by_side(threads: u32, work: impl Fn(u32) -> Tally + Sync) -> Tally {
    let work = &work;
    thread::scope(|scope| {
        let workers: Vec<_> = (0..threads).map(|place| scope.spawn(move || work(place))).collect();
        let done = workers.into_iter().map(|worker| worker.join().expect("no panic"));
        done.fold(Tally::default(), Tally::with)
    })
}
