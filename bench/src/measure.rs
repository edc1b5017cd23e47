//! Measuring one thing on all sides.

use std::hint::black_box;
use std::time::{Duration, Instant};

/// What a piece of work came to. All sides must come to the same.
#[derive(PartialEq, Eq)]
pub struct Done {
    /// The events, ticks, tables and so on that were done.
    pub units: u64,
    /// What was made, where it is more than a count.
    pub result: Vec<u8>,
}

/// Work of a size: so many events of a script, or so many times the same.
pub type Work = Box<dyn Fn(usize) -> Done>;

/// Sees that the states of all sides are the same after work of a size.
pub type Ends = Box<dyn Fn(usize)>;

pub struct Measurement {
    pub name: String,
    pub note: String,
    pub table_bytes: usize,
    /// The least ratio of the speeds.
    pub goal: Option<f64>,
    /// The greatest size.
    pub most: usize,
    pub ours: Work,
    pub plain: Work,
    /// Only what is run has a limit.
    pub limit: Option<Work>,
    /// For runs, which tell events and clock only.
    pub ends: Option<Ends>,
}

/// The least time of one call, and how many times as long as one without events
/// it is to be, so that reading the model or table is a small part of it.
const LEAST: Duration = Duration::from_millis(5);
const LEAST_TIMES: u32 = 30;
/// Calls of both sides that last so long together are not made any longer.
const LONG: Duration = Duration::from_millis(300);

/// Enough repetitions.
const ENOUGH_TIME: Duration = Duration::from_millis(400);
const FEWEST: u32 = 3;
const MOST: u32 = 30;

/// The best times of all sides for the same work.
pub struct Times {
    pub units: u64,
    pub ours: Duration,
    pub plain: Duration,
    pub limit: Option<Duration>,
    /// The part of the time in percent that we and the plain model need without
    /// any event.
    pub reading: [f64; 2],
}

impl Times {
    pub fn per_second(&self, time: Duration) -> f64 {
        self.units as f64 / time.as_secs_f64()
    }
}

/// Measures the times of all sides in turns, and keeps the best.
pub fn times(measurement: &Measurement) -> Times {
    let idle = [&measurement.ours, &measurement.plain].map(|work| best_of_three(work, 0));
    let size = sized(measurement, idle);
    let began = Instant::now();
    let mut best = measurement.round(size);
    let mut rounds = 1;
    while rounds < FEWEST || (rounds < MOST && began.elapsed() < ENOUGH_TIME) {
        best = best.or_better(&measurement.round(size));
        rounds += 1;
    }
    if let Some(ends) = &measurement.ends {
        ends(size);
    }
    let part = |idle: Duration, all: Duration| 100.0 * idle.as_secs_f64() / all.as_secs_f64();
    Times {
        units: best.units,
        ours: best.ours,
        plain: best.plain,
        limit: best.limit,
        reading: [part(idle[0], best.ours), part(idle[1], best.plain)],
    }
}

/// A size at which a call lasts long enough.
fn sized(measurement: &Measurement, idle: [Duration; 2]) -> usize {
    let least = idle.map(|idle| LEAST.max(idle * LEAST_TIMES));
    let mut size = measurement.most.min(16);
    loop {
        let round = measurement.round(size);
        let enough = round.ours >= least[0] && round.plain >= least[1];
        if enough || round.ours + round.plain > LONG || size == measurement.most {
            return size;
        }
        size = size.saturating_mul(2).min(measurement.most);
    }
}

fn best_of_three(work: &Work, size: usize) -> Duration {
    (0..3)
        .map(|_| timed(work, size).1)
        .min()
        .unwrap_or_default()
}

/// The times of one call of each side.
struct Round {
    units: u64,
    ours: Duration,
    plain: Duration,
    limit: Option<Duration>,
}

impl Round {
    /// The better time of each side.
    fn or_better(&self, other: &Round) -> Round {
        Round {
            units: other.units,
            ours: self.ours.min(other.ours),
            plain: self.plain.min(other.plain),
            limit: self.limit.min(other.limit),
        }
    }
}

impl Measurement {
    /// One call of each side, and where it ends.
    #[cfg(test)]
    pub fn try_once(&self, size: usize) {
        self.round(size);
        if let Some(ends) = &self.ends {
            ends(size);
        }
    }

    /// One call of each side; they must come to the same.
    fn round(&self, size: usize) -> Round {
        let (ours, our_time) = timed(&self.ours, size);
        let (plain, plain_time) = timed(&self.plain, size);
        assert!(ours == plain, "{}: both come to the same", self.name);
        let limit = self.limit.as_ref().map(|limit| {
            let (limit, time) = timed(limit, size);
            assert!(ours == limit, "{}: the limit comes to the same", self.name);
            time
        });
        Round {
            units: ours.units,
            ours: our_time,
            plain: plain_time,
            limit,
        }
    }
}

/// The processor's time, so that other programs beside this one do not count.
fn timed(work: &Work, size: usize) -> (Done, Duration) {
    let began = processor_time();
    let done = bench_measured(work, size);
    (done, processor_time() - began)
}

/// What clock_gettime of 64-bit Linux fills in.
#[repr(C)]
struct Timespec {
    seconds: u64,
    nanoseconds: u64,
}

extern "C" {
    fn clock_gettime(clock: i32, time: *mut Timespec) -> i32;
}

fn processor_time() -> Duration {
    const CLOCK_PROCESS_CPUTIME_ID: i32 = 2;
    let mut time = Timespec {
        seconds: 0,
        nanoseconds: 0,
    };
    // SAFETY: the place is valid, and large enough for what is written.
    let failed = unsafe { clock_gettime(CLOCK_PROCESS_CPUTIME_ID, &mut time) };
    assert_eq!(failed, 0, "there is such a clock");
    Duration::new(time.seconds, time.nanoseconds as u32)
}

/// One call of one side. Its name is known to the count of instructions.
#[no_mangle]
#[inline(never)]
pub fn bench_measured(work: &Work, size: usize) -> Done {
    black_box(work(black_box(size)))
}
