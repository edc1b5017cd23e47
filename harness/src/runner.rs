//! Many cases, on several threads.

use std::ops::Range;
use std::sync::atomic::{AtomicU64, Ordering};
use std::thread;

use crate::case::Case;
use crate::check::{check, Difference};
use crate::tally::Tally;

/// What to run.
#[derive(Clone)]
pub struct Plan {
    pub seed: u64,
    pub cases: Range<u64>,
    pub threads: usize,
    /// Heed this comparison alone.
    pub only: Option<String>,
    /// Name each case before it is run.
    pub trace: bool,
}

impl Plan {
    /// What the gate runs.
    pub fn gate() -> Plan {
        Plan {
            seed: 20_000,
            cases: 0..20_000,
            threads: 2,
            only: None,
            trace: false,
        }
    }
}

/// A case with differences.
pub struct Failure {
    pub case: Case,
    pub differences: Vec<Difference>,
}

/// What came of many cases: the first one with differences, if any, whatever
/// the number of threads.
#[derive(Default)]
pub struct Outcome {
    pub tally: Tally,
    pub failure: Option<Failure>,
}

/// Checks cases up to the first one with differences.
pub fn run(plan: &Plan) -> Outcome {
    let first_failure = &AtomicU64::new(u64::MAX);
    let shares: Vec<Outcome> = thread::scope(|scope| {
        let workers: Vec<_> = (0..plan.threads)
            .map(|share| scope.spawn(move || run_share(plan, share, first_failure)))
            .collect();
        let outcomes = workers.into_iter().map(|worker| worker.join());
        outcomes
            .map(|outcome| outcome.expect("no check panics"))
            .collect()
    });
    let mut outcome = Outcome::default();
    for share in shares {
        outcome.tally.add(&share.tally);
        outcome.failure = earlier(outcome.failure, share.failure);
    }
    outcome
}

/// One thread's cases. It stops at its first failure, or past that of another.
fn run_share(plan: &Plan, share: usize, first_failure: &AtomicU64) -> Outcome {
    let mut tally = Tally::default();
    for number in plan.cases.clone().skip(share).step_by(plan.threads) {
        if number > first_failure.load(Ordering::Relaxed) {
            break;
        }
        if let Some(failure) = run_case(plan, number, &mut tally) {
            first_failure.fetch_min(number, Ordering::Relaxed);
            return Outcome {
                tally,
                failure: Some(failure),
            };
        }
    }
    Outcome {
        tally,
        failure: None,
    }
}

fn run_case(plan: &Plan, number: u64, tally: &mut Tally) -> Option<Failure> {
    let seed = plan.seed;
    if plan.trace {
        eprintln!("case {number}");
    }
    let _witness = Witness { seed, number };
    let case = Case::new(seed, number);
    let mut differences = check(&case, tally);
    if let Some(only) = &plan.only {
        differences.retain(|difference| difference.comparison == only);
    }
    (!differences.is_empty()).then_some(Failure { case, differences })
}

fn earlier(one: Option<Failure>, other: Option<Failure>) -> Option<Failure> {
    one.into_iter()
        .chain(other)
        .min_by_key(|failure| failure.case.number)
}

/// Tells which case it was if checking it panics.
struct Witness {
    seed: u64,
    number: u64,
}

impl Drop for Witness {
    fn drop(&mut self) {
        if thread::panicking() {
            eprintln!("panic in case: {}", reproduce(self.seed, self.number));
        }
    }
}

/// The command that runs one case again.
pub fn reproduce(seed: u64, number: u64) -> String {
    format!("harness --seed {seed} --case {number}")
}

impl Failure {
    /// All that is needed to look into the case.
    pub fn report(&self) -> String {
        let Case {
            seed,
            number,
            model,
            script,
            table,
            table_script,
            ..
        } = &self.case;
        let mut text = format!("difference in case {number} of seed {seed}\n");
        for Difference {
            comparison,
            text: how,
        } in &self.differences
        {
            text += &format!("{comparison}: {how}\n");
        }
        text += &format!("reproduce: {}\n", reproduce(*seed, *number));
        for (what, bytes) in [
            ("model", model),
            ("script", script),
            ("table", table),
            ("script of the table", table_script),
        ] {
            text += &format!("{what}, {} bytes: {}\n", bytes.len(), hexadecimal(bytes));
        }
        text
    }
}

/// The bytes as text, but for the end of very many.
fn hexadecimal(bytes: &[u8]) -> String {
    let shown: String = bytes
        .iter()
        .take(8_000)
        .map(|byte| format!("{byte:02x}"))
        .collect();
    let more = if bytes.len() > 8_000 { "..." } else { "" };
    shown + more
}
