//! A worked example: every order of a model's events, up to a depth.
//!
//!     explore [MODEL [DEPTH]]
//!
//! Reads a model file (that of the lesson, if none is named), makes its table, and
//! walks both side by side, breadth-first from their starts. In every state all
//! that is enabled is tried: START with its shortest and its longest length, and
//! besides TICK 1. Model and table must offer the same events, answer them alike
//! and have the same values after each. Prints how many states each depth adds,
//! and what was seen.

use std::collections::HashSet;
use std::{env, fs, process};

use futonkestrel::{translate_to_vec, Model, Refusal, State, Table, Variables, VARIABLES};

const LESSON: &str = concat!(env!("CARGO_MANIFEST_DIR"), "/../examples/lesson/model.bin");
const DEPTH: usize = 24;

const TICK: [u8; 3] = [0x0B, 1, 0];

const NOW: usize = 0;
const THREADS: usize = 16;
/// Variables of thread 0; those of the other threads follow.
const CODE: usize = 32;
const DUE: usize = 64;
const END: usize = 80;
const MISSED: usize = 112;

fn main() {
    if let Err(problem) = run() {
        eprintln!("explore: {problem}");
        process::exit(1);
    }
}

fn run() -> Result<(), String> {
    let mut arguments = env::args().skip(1);
    let file = arguments.next().unwrap_or_else(|| LESSON.to_string());
    let depth = match arguments.next() {
        None => DEPTH,
        Some(text) => text.parse().map_err(|_| format!("no depth: {text}"))?,
    };
    let refused = |refusal: Refusal| format!("{file}: {refusal}");
    let bytes = fs::read(&file).map_err(|error| format!("{file}: {error}"))?;
    let made = translate_to_vec(&bytes).map_err(refused)?;
    let both = Both {
        model: Model::read(&bytes).map_err(refused)?,
        table: Table::read(&made).map_err(refused)?,
    };
    print!("{}", report(&both, depth)?);
    Ok(())
}

/// Explores and tells what was seen, or where model and table differ.
fn report(both: &Both, depth: usize) -> Result<String, String> {
    let mut seen = Seen::new(both.start());
    let mut text = format!("{} bytes of table\n", both.table.bytes().len());
    for step in 1..=depth {
        let added = seen.go_on(both)?;
        text += &format!("depth {step}: {added} new states\n");
    }
    let states = seen.states.len();
    text += &format!(
        "{states} states, {} events taken, largest clock {}, largest Missed {}\n",
        seen.taken, seen.clock, seen.missed
    );
    text += "model and table agreed in all of them\n";
    Ok(text)
}

/// A model and its table.
struct Both<'a> {
    model: Model,
    table: Table<'a>,
}

/// A state of both.
#[derive(Clone)]
struct Stage {
    state: State,
    variables: Variables,
}

impl Both<'_> {
    fn start(&self) -> Stage {
        Stage {
            state: self.model.start(),
            variables: self.table.start(),
        }
    }

    /// The events that both offer.
    fn events(&self, stage: &Stage) -> Result<Vec<Vec<u8>>, String> {
        let enabled = self.model.enabled(&stage.state);
        let of_table = self.table.enabled(&stage.variables);
        if enabled != of_table {
            return Err(format!(
                "the model offers {enabled:?}, its table {of_table:?}"
            ));
        }
        let mut events = Vec::new();
        for offer in enabled.events {
            events.push(offer.shortest());
            if offer.low != offer.high {
                events.push(offer.longest());
            }
        }
        events.extend(enabled.tick.then(|| TICK.to_vec()));
        Ok(events)
    }

    /// Gives both an event that they offer.
    fn step(&self, stage: &Stage, event: &[u8]) -> Result<Stage, String> {
        let mut next = stage.clone();
        let of_model = self.model.step(&mut next.state, event);
        let of_table = self.table.step(&mut next.variables, event);
        if (of_model, of_table) != (Ok(()), Ok(())) {
            return Err(format!(
                "{event:?} is offered, yet the model answers {of_model:?}, its table {of_table:?}"
            ));
        }
        match difference(&self.model.variables(&next.state), &next.variables) {
            None => Ok(next),
            Some(variable) => Err(format!("variable {variable} differs after {event:?}")),
        }
    }
}

/// The first variable in which a model and its table differ. Due stands for
/// something while a job is in hand, End while it runs.
fn difference(of_model: &Variables, of_table: &Variables) -> Option<usize> {
    let means_nothing = |variable: usize| match variable {
        DUE..END => of_model[variable - DUE + CODE] < 2,
        END.. if variable < END + THREADS => of_model[variable - END + CODE] != 3,
        _ => false,
    };
    (0..VARIABLES)
        .find(|&variable| of_model[variable] != of_table[variable] && !means_nothing(variable))
}

/// What the exploration has met so far. States are told apart by the variables of
/// the table.
struct Seen {
    states: HashSet<Variables>,
    /// The states met last, from which it goes on.
    edge: Vec<Stage>,
    taken: usize,
    clock: i32,
    missed: i32,
}

impl Seen {
    fn new(start: Stage) -> Seen {
        Seen {
            states: HashSet::from([start.variables]),
            edge: vec![start],
            taken: 0,
            clock: 0,
            missed: 0,
        }
    }

    /// Tries all that is enabled in every state met last. The result is the
    /// number of states not met before.
    fn go_on(&mut self, both: &Both) -> Result<usize, String> {
        for stage in std::mem::take(&mut self.edge) {
            for event in both.events(&stage)? {
                self.taken += 1;
                self.meet(both.step(&stage, &event)?);
            }
        }
        Ok(self.edge.len())
    }

    fn meet(&mut self, stage: Stage) {
        let variables = &stage.variables;
        if self.states.insert(*variables) {
            let missed = &variables[MISSED..MISSED + THREADS];
            self.missed = missed.iter().copied().fold(self.missed, i32::max);
            self.clock = self.clock.max(variables[NOW]);
            self.edge.push(stage);
        }
    }
}

/// A model beside the table of another: the difference is told.
#[cfg(test)]
mod tests {
    use super::*;

    /// One thread of Period 5, this Deadline, Min 1 and this Max.
    fn model(deadline: u8, longest: u8) -> Vec<u8> {
        let mut model = vec![0x01, 1, 0, 0x02];
        for figure in [5, deadline, 1, longest] {
            model.extend([figure, 0, 0, 0]);
        }
        model.extend([1, 0, 0]);
        model
    }

    fn beside(table: &[u8]) -> Result<String, String> {
        let both = Both {
            model: Model::read(&model(4, 5)).expect("accepted"),
            table: Table::read(table).expect("accepted"),
        };
        report(&both, 6)
    }

    fn made(deadline: u8, longest: u8) -> Vec<u8> {
        translate_to_vec(&model(deadline, longest)).expect("accepted")
    }

    #[test]
    fn its_own_table_agrees() {
        let report = beside(&made(4, 5)).expect("alike");
        assert!(report.ends_with("model and table agreed in all of them\n"));
    }

    #[test]
    fn other_tables_differ() {
        let due = beside(&made(3, 5)).expect_err("another Due");
        assert_eq!(due, "variable 64 differs after [3, 0]");
        let longest = beside(&made(4, 4)).expect_err("another Max");
        assert!(longest.starts_with("the model offers "), "{longest}");
        let nothing = beside(&[]).expect_err("no rules");
        assert!(nothing.ends_with("its table Enabled { events: [], tick: true }"));
        // Its rule for ACTIVATE sets a variable twice.
        let mut twice = made(4, 5);
        let update = twice.iter().position(|&kind| kind == 0x24).expect("one");
        let record = twice[update..update + 17].to_vec();
        twice.splice(update..update, record);
        let refused = beside(&twice).expect_err("two updates");
        assert!(refused.ends_with("its table Err(13)"), "{refused}");
    }

    /// Due and End are not compared where they stand for nothing.
    #[test]
    fn figures_that_stand_for_nothing() {
        let mut of_model = [0; VARIABLES];
        for (code, due_differs, end_differs) in [
            (0, None, None),
            (1, None, None),
            (2, Some(DUE + 7), None),
            (3, Some(DUE + 7), Some(END + 7)),
            (4, Some(DUE + 7), None),
        ] {
            of_model[CODE + 7] = code;
            let differs_at = |place: usize| {
                let mut of_table = of_model;
                of_table[place] = 9;
                difference(&of_model, &of_table)
            };
            assert_eq!(differs_at(DUE + 7), due_differs, "code {code}");
            assert_eq!(differs_at(END + 7), end_differs, "code {code}");
            assert_eq!(differs_at(NOW), Some(NOW));
            assert_eq!(differs_at(VARIABLES - 1), Some(VARIABLES - 1));
        }
    }
}
