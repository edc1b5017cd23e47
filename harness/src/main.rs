//! Compares the library with the plain model on random cases.
//!
//!     harness [CASES] [--seed S] [--case N] [--only COMPARISON] [--threads T] [--trace]
//!
//! Without arguments it is the gate's run. Prints a summary, or the first case
//! with a difference and exit status 1.
//! `--trace` names each case before it is run, for a case that ends the program.

use std::env;
use std::process::exit;

use harness::runner::{self, Plan};

fn main() {
    let plan = plan(env::args().skip(1)).unwrap_or_else(|problem| {
        eprintln!("harness: {problem}");
        exit(2);
    });
    let outcome = runner::run(&plan);
    print!("{}", outcome.tally);
    if let Some(failure) = outcome.failure {
        print!("{}", failure.report());
        exit(1);
    }
    if let Some(only) = plan.only {
        if !outcome.tally.comparisons.contains_key(only.as_str()) {
            eprintln!("harness: no comparison {only:?}");
            exit(2);
        }
    }
    println!("no difference");
}

/// The plan that the arguments ask for.
fn plan(mut arguments: impl Iterator<Item = String>) -> Result<Plan, String> {
    let mut plan = Plan::gate();
    while let Some(argument) = arguments.next() {
        let mut next = || arguments.next().unwrap_or_default();
        match argument.as_str() {
            "--seed" => plan.seed = number(&next())?,
            "--case" => {
                let case = number(&next())?;
                plan.cases = case..case + 1;
            }
            "--only" => plan.only = Some(next()),
            "--threads" => plan.threads = number(&next())?.max(1) as usize,
            "--trace" => plan.trace = true,
            cases => plan.cases = 0..number(cases)?,
        }
    }
    Ok(plan)
}

fn number(text: &str) -> Result<u64, String> {
    text.parse().map_err(|_| format!("no number: {text:?}"))
}
