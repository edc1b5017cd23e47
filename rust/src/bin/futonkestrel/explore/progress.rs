//! How far a long exploration has come, on standard error.

use std::time::{Duration, Instant};

use super::Search;
use crate::complain;
use crate::figures::grouped;

/// After the first second, then after twice the time, then every minute.
const FIRST: Duration = Duration::from_secs(1);
const LONGEST_SILENCE: Duration = Duration::from_secs(60);
/// The time is looked at after so many states.
const STATES: u32 = 64;

pub struct Progress {
    started: Instant,
    next: Duration,
    /// States until the time is looked at.
    left: u32,
}

impl Progress {
    pub fn begin() -> Progress {
        Progress {
            started: Instant::now(),
            next: FIRST,
            left: STATES,
        }
    }

    pub fn elapsed(&self) -> Duration {
        self.started.elapsed()
    }

    /// Tells where the search is, if it is time to.
    pub fn tell(&mut self, search: &Search) {
        self.left -= 1;
        if self.left > 0 {
            return;
        }
        self.left = STATES;
        let elapsed = self.elapsed();
        if self.is_due(elapsed) {
            complain(&format!(
                "explore: {} s, depth {}, {} states, {} steps\n",
                elapsed.as_secs(),
                search.depth,
                grouped(search.store.len() as i64),
                grouped(search.taken as i64)
            ));
        }
    }

    fn is_due(&mut self, elapsed: Duration) -> bool {
        let is_due = elapsed >= self.next;
        if is_due {
            self.next = elapsed + elapsed.min(LONGEST_SILENCE);
        }
        is_due
    }
}

#[cfg(test)]
mod tests {
    use super::{Duration, Progress};

    #[test]
    fn seldom() {
        let mut progress = Progress::begin();
        let told = (0..300).filter(|second| progress.is_due(Duration::from_secs(*second)));
        let told: Vec<u64> = told.collect();
        assert_eq!(told, [1, 2, 4, 8, 16, 32, 64, 124, 184, 244]);
    }
}
