//! What the library says of an input.

use std::cell::OnceCell;

use futonkestrel::{events, raw};

use crate::answers::{
    After, Listing, Run, Said, Step, Told, Translation, Variables, BEHIND, BYTE, DUE, END, FIGURE,
    THREADS, VARIABLES,
};
use crate::lending::{lend_marks, Lending};
use crate::starts::Question;
use crate::stepped::{index_into, index_size, StateWalk};

/// All that the library says of a model and a script as a whole. Listings go into
/// outputs of the rooms given. [`crate::stepped`] has what is said event by event,
/// which stands in for the events of a long script that are not looked at here.
pub fn of_model(model: &[u8], script: &[u8], rooms: &[usize], walk: &StateWalk) -> Said {
    let read = told(|told| raw::read_model(model, told));
    Said {
        read,
        start: model_after(model, &[], &[]),
        steps: if read.number == 0 {
            model_steps(model, script, &walk.steps)
        } else {
            Vec::new()
        },
        run: run(|told| raw::run_model(model, script, told)),
        listings: listings(rooms, |output| raw::model_listing(model, script, output)),
        offers: Vec::new(),
        shown: Vec::new(),
        asked: Vec::new(),
    }
}

/// All that the library says of a table and a script.
pub fn of_table(table: &[u8], script: &[u8], rooms: &[usize]) -> Said {
    let read = told(|told| raw::read_table(table, told));
    let start = table_start(table);
    Said {
        read,
        steps: if read.number == 0 {
            table_steps(&Indexes::new(table, &[]), &start.variables, script)
        } else {
            Vec::new()
        },
        start,
        run: run(|told| raw::run_table(table, script, told)),
        listings: listings(rooms, |output| raw::table_listing(table, script, output)),
        offers: Vec::new(),
        shown: Vec::new(),
        asked: Vec::new(),
    }
}

/// The variables as the start records have them.
pub fn table_start(table: &[u8]) -> After {
    lend_variables(&[FIGURE; VARIABLES], |lent| raw::table_start(table, lent))
}

pub fn translation(model: &[u8], room: usize) -> Translation {
    let mut output = vec![BYTE; room];
    let mut told = [usize::MAX; 3];
    let number = raw::translate(model, &mut output, &mut told);
    let [start, end, length] = told;
    Translation {
        told: Told { number, start, end },
        length,
        output,
    }
}

/// The size of the table made from a model, told into each number of places.
pub fn sizes(model: &[u8], places: &[usize]) -> Vec<Lending<usize>> {
    let told = |&count| lend_marks(count, |told| raw::table_size(model, told));
    places.iter().map(told).collect()
}

/// START's test in the state that a script leaves, told into each number of places.
pub fn start_tests(
    model: &[u8],
    script: &[u8],
    question: Question,
    places: &[usize],
) -> Vec<Lending<usize>> {
    let Question { thread, length } = question;
    let test = |told: &mut [usize]| raw::start_test(model, script, thread, length, told);
    places
        .iter()
        .map(|&count| lend_marks(count, test))
        .collect()
}

/// The length of each part of a script.
pub fn part_lengths(script: &[u8]) -> Vec<usize> {
    events(script).map(<[u8]>::len).collect()
}

/// One event of its own, on variables of its own, by an index.
pub fn lent_step(table: &[u8], index: &[usize], variables: &Variables, event: &[u8]) -> After {
    lend_variables(variables, |lent| raw::table_step(table, index, lent, event))
}

fn told(call: impl Fn(&mut [usize]) -> u32) -> Told {
    let mut told = [usize::MAX; 2];
    let number = call(&mut told);
    let [start, end] = told;
    Told { number, start, end }
}

fn run(call: impl Fn(&mut [usize]) -> u32) -> Run {
    let mut told = [usize::MAX; 4];
    let number = call(&mut told);
    let [start, end, taken, clock] = told;
    Run {
        told: Told { number, start, end },
        taken,
        clock,
    }
}

/// Lends variables, and some figures behind them, to a call.
pub fn lend_variables(variables: &Variables, call: impl Fn(&mut [i32]) -> u32) -> After {
    let mut lent = [FIGURE; VARIABLES + BEHIND];
    lent[..VARIABLES].copy_from_slice(variables);
    let answer = call(&mut lent);
    let (variables, behind) = lent.split_at(VARIABLES);
    After {
        answer,
        variables: variables.try_into().expect("split there"),
        behind: behind.try_into().expect("split there"),
    }
}

/// The state after one event that comes after a script.
fn model_after(model: &[u8], script: &[u8], event: &[u8]) -> After {
    lend_variables(&[FIGURE; VARIABLES], |lent| {
        raw::model_after(model, script, event, lent)
    })
}

/// Each look at the state runs the script again up to there, so of a long script
/// so many events are looked at, or a few more.
const LOOKS: usize = 64;

fn model_steps(model: &[u8], script: &[u8], walked: &[Step]) -> Vec<Step> {
    let each = 1 + walked.len() / LOOKS;
    steps(script)
        .map(|(number, start, event)| Step {
            number,
            start,
            end: start + event.len(),
            after: match walked.get(number) {
                Some(step) if number % each != 0 => without_times(&step.after),
                _ => model_after(model, &script[..start], event),
            },
        })
        .collect()
}

/// A state that is shown after a script has no Due and no End.
fn without_times(after: &After) -> After {
    let mut after = after.clone();
    after.variables[DUE..DUE + THREADS].fill(0);
    after.variables[END..END + THREADS].fill(0);
    after
}

/// A table, an index of it, and its whole index, which is for the events at which
/// a long table would be walked too often.
pub struct Indexes<'a> {
    pub table: &'a [u8],
    given: &'a [usize],
    whole: OnceCell<Vec<usize>>,
}

impl Indexes<'_> {
    pub fn new<'a>(table: &'a [u8], given: &'a [usize]) -> Indexes<'a> {
        Indexes {
            table,
            given,
            whole: OnceCell::new(),
        }
    }

    /// The index by which an event of this place among the others goes.
    pub fn at(&self, number: usize) -> &[usize] {
        if number < 4 + 250_000 / self.table.len().max(1) {
            return self.given;
        }
        let whole = || index_into(self.table, index_size(self.table));
        self.whole.get_or_init(whole)
    }
}

/// A table stepped by an index; with an empty one it is walked.
pub fn table_steps(indexes: &Indexes, start: &Variables, script: &[u8]) -> Vec<Step> {
    let mut variables = *start;
    steps(script)
        .map(|(number, start, event)| {
            let after = lent_step(indexes.table, indexes.at(number), &variables, event);
            variables = after.variables;
            Step {
                number,
                start,
                end: start + event.len(),
                after,
            }
        })
        .collect()
}

/// The events of a script with their numbers and where they start.
pub fn steps(script: &[u8]) -> impl Iterator<Item = (usize, usize, &[u8])> {
    let mut position = 0;
    events(script).enumerate().map(move |(number, event)| {
        let start = position;
        position += event.len();
        (number, start, event)
    })
}

fn listings(rooms: &[usize], call: impl Fn(&mut [u8]) -> usize) -> Vec<Listing> {
    rooms
        .iter()
        .map(|&room| {
            let mut output = vec![BYTE; room];
            let length = call(&mut output);
            Listing { length, output }
        })
        .collect()
}
