//! States of a model that differ only by a shift of time, as one.
//!
//! A model compares instants with the clock and with each other, and asks
//! whether the clock is a multiple of a period or of a least common multiple of
//! periods. Shifted by the hyperperiod, the least common multiple of all of
//! them, the clock and all instants that are still looked at answer alike, and
//! what an event sets is shifted alike: no instant comes near the end of 32 bits,
//! where a sum would stop. Instants that are no longer looked at count for nothing.
//! Values of ports and locals never depend on the clock, and no event looks at how
//! many deadlines were missed.

use futonkestrel::Variables;

use super::LAST_CLOCK;
use crate::format::{Item, MODEL};
use crate::record::records;
use crate::variables::{is_time, EXECUTION, WAITING_EXECUTION};

const NOW: usize = 0;
const PHASE: usize = 2;
const ENTERED_AT: usize = 4;
/// Of thread 0; those of the other threads follow.
const STATE: usize = 32;
const DISPATCH_TIME: usize = 48;
const DUE: usize = 64;
const END: usize = 80;
const MISSED: usize = 112;
const THREADS: usize = 16;

/// The phase in which LEAVE looks at EnteredAt.
const CHANGING: i32 = 2;

#[derive(Clone, Copy, Debug, PartialEq, Eq)]
pub struct Fold {
    /// Nothing where it lies past the last clock.
    pub hyperperiod: Option<i32>,
    /// Whether states that differ by counts of misses are told apart.
    pub tells_misses: bool,
}

/// Whether folded variables may not tell the value of this one.
pub fn is_folded(variable: usize) -> bool {
    is_time(variable as i64) || is_missed(variable)
}

/// Whether a variable counts misses.
pub fn is_missed(variable: usize) -> bool {
    (MISSED..MISSED + THREADS).contains(&variable)
}

impl Fold {
    /// By all periods of an accepted model.
    pub fn of(model: &[u8], tells_misses: bool) -> Fold {
        let threads = records(&MODEL, model);
        let threads = threads.iter().filter(|record| record.is(Item::Thread));
        let periods = threads.filter_map(|thread| thread.value("period"));
        // One that lies past the last clock takes part no longer.
        let past = LAST_CLOCK as u64 + 1;
        let common = periods.fold(1, |common, period| {
            common_multiple(common, period as u64).min(past)
        });
        Fold {
            hyperperiod: (common < past).then_some(common as i32),
            tells_misses,
        }
    }

    /// The variables with the clock within the hyperperiod and instants from now
    /// on; what nothing looks at is 0.
    pub fn folded(self, variables: &Variables) -> Variables {
        let mut folded = *variables;
        let now = variables[NOW];
        if let Some(hyperperiod) = self.hyperperiod {
            folded[NOW] = now % hyperperiod;
        }
        let from_now = |instant: i32, is_live: bool| if is_live { instant - now } else { 0 };
        let changing = variables[PHASE] == CHANGING;
        folded[ENTERED_AT] = from_now(variables[ENTERED_AT], changing);
        for thread in 0..THREADS {
            let code = variables[STATE + thread];
            let has_job = code >= WAITING_EXECUTION as i32;
            let runs = code == EXECUTION as i32;
            for (instant, is_live) in [(DISPATCH_TIME, has_job), (DUE, has_job), (END, runs)] {
                let at = instant + thread;
                folded[at] = from_now(variables[at], is_live);
            }
        }
        if !self.tells_misses {
            folded[MISSED..MISSED + THREADS].fill(0);
        }
        folded
    }
}

fn common_multiple(a: u64, b: u64) -> u64 {
    a / common_divisor(a, b) * b
}

fn common_divisor(a: u64, b: u64) -> u64 {
    match b {
        0 => a.max(1),
        _ => common_divisor(b, a % b),
    }
}
