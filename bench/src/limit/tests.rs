//! The limit beside the plain model, on the harness's random cases: the same
//! answers and the same variables after every event, refused ones among them.

use std::cell::RefCell;

use harness::case::Case;
use harness::ends::{ModelEnds, TableEnds};
use harness::stops::Stops;
use plain::model::{COMPLETED, EXECUTION, WAITING_EXECUTION};
use plain::refusal::EVENT;
use plain::script::{run_on, COMPLETE};
use plain::show::show;
use plain::{model, table};

use super::{read, Machine, Model, Scratch, State, Table};

/// The seed and the number of cases.
const SEED: u64 = 7;
const CASES: u64 = 4_000;

/// What models met: threads that left with a job, and sums that stop at an end.
#[derive(Default)]
struct Met {
    stops: Stops,
    ends: ModelEnds,
}

/// Both ends are met, by each sort of sum.
fn assert_ends(met: &[(&str, [u64; 2])]) {
    for (what, ends) in met {
        assert!(ends.iter().all(|count| *count > 0), "{what}: {ends:?}");
    }
}

/// Runs a model's script on both.
fn model_agrees(read_model: &model::Model, case: &Case, met: &mut Met) {
    let number = case.number;
    let decoded = Model::decode(read_model);
    let mut ours = State::start(&decoded);
    let mut plain = model::start_state(read_model);
    assert_eq!(ours.show(&decoded), show(read_model, &plain));
    let met = RefCell::new(met);
    run_on(
        &case.script,
        &mut plain,
        |state, event| {
            let came = model::step(read_model, state, event);
            let mut met = met.borrow_mut();
            met.stops.note(read_model, state, event, &came);
            if event.kind == COMPLETE && came.is_ok() {
                if let Some(taken) = model::first_enabled(read_model, state, event.id.into()) {
                    met.ends.note(read_model, state, taken);
                }
            }
            came
        },
        |answer, state| {
            let found = match read(&case.script, answer.start) {
                Some((event, _)) => ours.step(&decoded, &event),
                None => EVENT,
            };
            assert_eq!(found, answer.number, "case {number}, {answer:?}");
            let shown = show(read_model, state);
            assert_eq!(ours.show(&decoded), shown, "case {number}");
        },
    );
}

#[test]
fn models_agree() {
    let mut accepted = 0;
    let mut met = Met::default();
    for number in 0..CASES {
        let case = Case::new(SEED, number);
        if let Ok(read_model) = model::read(&case.model) {
            accepted += 1;
            model_agrees(&read_model, &case, &mut met);
        }
    }
    assert!(accepted > CASES / 2, "{accepted}");
    for code in [WAITING_EXECUTION, EXECUTION, COMPLETED].map(usize::from) {
        let Stops {
            taken,
            critical,
            awaited,
            ..
        } = &met.stops;
        assert!(taken[code] >= 80, "stops: {taken:?}");
        assert!(critical[code] >= 5, "refused stops: {critical:?}");
        assert!(awaited[code] >= 5, "stops that ticks await: {awaited:?}");
    }
    assert_ends(&met.ends.met());
}

/// A run keeps what it knows of quiet ticks, single steps do not.
fn tables_agree(bytes: &[u8], script: &[u8], number: u64, ends: &mut TableEnds) -> bool {
    let Ok(read_table) = table::read(bytes) else {
        return false;
    };
    let decoded = Table::decode(&read_table);
    let mut run = Machine::start(&decoded);
    let mut lent = decoded.start;
    let mut scratch = Scratch::default();
    let mut plain = table::start_state(&read_table);
    let ends = RefCell::new(ends);
    run_on(
        script,
        &mut plain,
        |variables, event| {
            let came = table::step(&read_table, variables, event);
            if came.is_ok() {
                ends.borrow_mut().note(&read_table, variables, event);
            }
            came
        },
        |answer, variables| {
            let (of_run, of_step) = match read(script, answer.start) {
                Some((event, _)) => (
                    run.step(&event),
                    decoded.step(&mut lent, &event, &mut scratch),
                ),
                None => (EVENT, EVENT),
            };
            let answers = [of_run, of_step];
            assert_eq!(answers, [answer.number; 2], "case {number}, {answer:?}");
            assert!(
                run.variables == *variables && lent == *variables,
                "case {number}"
            );
        },
    );
    true
}

#[test]
fn made_tables_agree() {
    let mut ends = TableEnds::default();
    let cases = (0..CASES / 4).map(|number| Case::new(SEED, number));
    let accepted = cases.filter(|case| {
        let made = case.made.as_ref();
        made.is_some_and(|made| tables_agree(made, &case.script, case.number, &mut ends))
    });
    assert!(accepted.count() as u64 > CASES / 8);
    // Lengths and clock figures of a model are never so large.
    assert_ends(&ends.met()[..4]);
}

#[test]
fn other_tables_agree() {
    let mut ends = TableEnds::default();
    let cases = (0..CASES).map(|number| Case::new(SEED, number));
    let accepted =
        cases.filter(|case| tables_agree(&case.table, &case.table_script, case.number, &mut ends));
    assert!(accepted.count() as u64 > CASES / 8);
    assert_ends(&ends.met());
}
