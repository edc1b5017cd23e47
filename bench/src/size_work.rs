//! The sizes of tables, told without making them: beside the plain model's, and
//! beside our own translations.

use std::cell::RefCell;
use std::hint::black_box;

use futonkestrel::{raw, ROOM_FOR_TABLE};
use plain::size::{table_size, TableSize};

use crate::measure::{Done, Measurement, Work};
use crate::subjects::Pair;
use crate::work::{measurement, with, GOAL};

/// Telling the size of the longest table is to be so many times faster than
/// making it.
const SIZE_GOAL: f64 = 20.0;
/// The longest table that a model can have.
const LONGEST_MADE: usize = 174_485;

/// What is told of an accepted model: its part refused, which is none, then bytes,
/// rules, clauses, atoms and updates.
const PLACES: usize = 7;
const BYTES: usize = 2;

pub fn table_sizes(name: String, pair: &Pair) -> Measurement {
    let ours = our_sizes(pair, done);
    let plain = with(pair.model.clone(), |model, size| {
        let mut last = TableSize::default();
        for _ in 0..size {
            let (refusal, told) = table_size(black_box(model));
            assert_eq!(refusal, None, "accepted");
            last = black_box(told);
        }
        let [bytes, rules, clauses, atoms, updates] = last.told();
        done(size, &[0, 0, bytes, rules, clauses, atoms, updates])
    });
    measurement(name, pair, GOAL, usize::MAX, ours, plain)
}

/// Our translations stand in the plain model's place, so the ratio is how many
/// times faster the size is told.
pub fn sizes_to_translations(name: String, pair: &Pair) -> Measurement {
    let ours = our_sizes(pair, |size, told| done(size, &told[BYTES..=BYTES]));
    let output = RefCell::new(vec![0; ROOM_FOR_TABLE]);
    let translations = with((pair.model.clone(), output), |(model, output), size| {
        let mut output = output.borrow_mut();
        let mut length = 0;
        for _ in 0..size {
            length = futonkestrel::translate(black_box(model), &mut output).expect("accepted");
        }
        done(size, &[length])
    });
    let goal = (pair.table.len() == LONGEST_MADE).then_some(SIZE_GOAL);
    Measurement {
        note: "plain/s: our translations".to_string(),
        ..measurement(name, pair, goal, usize::MAX, ours, translations)
    }
}

/// Our sizes, and what of the last one is compared.
fn our_sizes(pair: &Pair, compared: fn(usize, &[usize]) -> Done) -> Work {
    with(pair.model.clone(), move |model, size| {
        let mut told = [0; PLACES];
        for _ in 0..size {
            let number = raw::table_size(black_box(model), black_box(&mut told));
            assert_eq!(number, 0, "accepted");
        }
        compared(size, &told)
    })
}

fn done(units: usize, numbers: &[usize]) -> Done {
    Done {
        units: units as u64,
        result: numbers.iter().flat_map(|n| n.to_le_bytes()).collect(),
    }
}

#[cfg(test)]
mod tests {
    use super::{table_size, LONGEST_MADE};
    use crate::models::full;

    /// Else the goal would be no row's.
    #[test]
    fn the_goal_is_that_of_the_full_model() {
        let (refusal, size) = table_size(&full(1));
        assert_eq!((refusal, size.bytes), (None, LONGEST_MADE));
    }
}
