//! Document 01's starred examples, each on the model and on its table, with sums as
//! document 02 has them (W6).

mod common;
mod taken;

use common::{model_and_table, simulation};
use plain::listing::{rules, steps, LIMIT};
use plain::model::{self, Duration};
use plain::refusal::Refusal;
use plain::script::{Event, TICK};
use plain::table;
use plain::table::variable::{self, NOW};
use taken::variables_after;

/// A head of one mode.
const HEAD: [u8; 3] = [0x01, 1, 0];

const ACTIVATE: [u8; 2] = [0x01, 0];
const DISPATCH: [u8; 2] = [0x03, 0];
const COMPLETE: [u8; 2] = [0x05, 0];
const DEADLINE: [u8; 2] = [0x06, 0];
const MISS: [u8; 2] = [0x07, 0];

fn start(length: u32) -> Vec<u8> {
    [&[0x04, 0][..], &length.to_le_bytes()].concat()
}

fn tick(n: u16) -> Vec<u8> {
    [&[0x0B][..], &n.to_le_bytes()].concat()
}

/// A thread record with Min 1, Max 5 and behaviour state 0.
fn thread(period: u32, deadline: u32, mode_mask: u8, critical: u8) -> Vec<u8> {
    let mut record = vec![0x02];
    for figure in [period, deadline, 1, 5] {
        record.extend(figure.to_le_bytes());
    }
    record.extend([mode_mask, critical, 0]);
    record
}

/// Document 01's model M.
fn model_m() -> Vec<u8> {
    [&HEAD[..], &thread(5, 4, 1, 0)].concat()
}

/// ACTIVATE, DISPATCH, then the given events.
fn dispatched(events: &[&[u8]]) -> Vec<u8> {
    [&[&ACTIVATE[..], &DISPATCH[..]], events].concat().concat()
}

/// The last line of both programs, which must print the same.
fn last_line(model: &[u8], script: &[u8]) -> String {
    let lines = steps(model, script);
    assert_eq!(lines, rules(model, script, LIMIT));
    simulation(model, script).expect("model and table agree");
    lines.lines().last().expect("a last line").to_string()
}

#[test]
fn that_run() {
    let script = dispatched(&[&start(2), &tick(2), &COMPLETE, &tick(2), &DEADLINE]);
    let printed = "1 0 1 0\n2 0 3 0\n3 0 4 0\n4 2 11 2\n5 2 5 0\n6 4 11 2\n7 4 6 0\nend 7 0 4\n";
    assert_eq!(steps(&model_m(), &script), printed);
    assert_eq!(rules(&model_m(), &script, LIMIT), printed);
}

#[test]
fn tick_3_after_start_2() {
    let script = dispatched(&[&start(2), &tick(3)]);
    assert_eq!(last_line(&model_m(), &script), "end 3 10 0");
}

#[test]
fn dispatch_first() {
    assert_eq!(last_line(&model_m(), &DISPATCH), "end 0 10 0");
}

#[test]
fn start_5_tick_4() {
    let miss = dispatched(&[&start(5), &tick(4), &MISS]);
    assert_eq!(last_line(&model_m(), &miss), "end 5 0 4");
    let complete = dispatched(&[&start(5), &tick(4), &COMPLETE]);
    assert_eq!(last_line(&model_m(), &complete), "end 4 10 4");
}

#[test]
fn start_4_tick_4() {
    let miss = dispatched(&[&start(4), &tick(4), &MISS]);
    assert_eq!(last_line(&model_m(), &miss), "end 4 10 4");
    let complete = dispatched(&[&start(4), &tick(4), &COMPLETE]);
    assert_eq!(last_line(&model_m(), &complete), "end 5 0 4");
}

#[test]
fn start_6() {
    assert_eq!(
        last_line(&model_m(), &dispatched(&[&start(6)])),
        "end 2 10 0"
    );
}

#[test]
fn empty_model_and_empty_script() {
    assert_eq!(
        model::read(&[]),
        Err(Refusal {
            number: 2,
            start: 0,
            end: 0
        })
    );
    assert_eq!(steps(&[], &ACTIVATE), "end 0 2 0\n");
    assert_eq!(rules(&[], &ACTIVATE, LIMIT), "end 0 2 0\n");
    assert_eq!(last_line(&model_m(), &[]), "end 0 0 0");
}

/// M with two locals and a transition from state 0 to 0 with two assignments,
/// each given as target, op and two operands.
fn model_with_locals(locals: [i32; 2], assignments: &[[u8; 14]]) -> Vec<u8> {
    let mut model = model_m();
    for value in locals {
        model.extend([0x05, 0]);
        model.extend(value.to_le_bytes());
    }
    model.extend([0x08, 0, 0, 0]);
    model.extend(assignments.concat());
    model
}

fn one_job() -> Vec<u8> {
    dispatched(&[&start(1), &tick(1), &COMPLETE])
}

#[test]
fn locals_exchanged() {
    let copies = [
        [0x0A, 2, 0, 0, 2, 1, 0, 0, 0, 0, 0, 0, 0, 0],
        [0x0A, 2, 1, 0, 2, 0, 0, 0, 0, 0, 0, 0, 0, 0],
    ];
    let variables = variables_after(&model_with_locals([1, 2], &copies), &one_job());
    assert_eq!(variables[variable::local(0)], 2);
    assert_eq!(variables[variable::local(1)], 1);
}

#[test]
fn zero_minus_the_least_value() {
    // Local 0 takes the constant 0 minus local 1.
    let subtract = [[0x0A, 2, 0, 2, 0, 0, 0, 0, 0, 2, 1, 0, 0, 0]];
    let model = model_with_locals([7, -2_147_483_648], &subtract);
    let variables = variables_after(&model, &one_job());
    assert_eq!(variables[variable::local(0)], 2_147_483_647);
}

#[test]
fn sum_past_the_greatest_value() {
    // Local 0 takes local 1 plus the constant 1.
    let add = [[0x0A, 2, 0, 1, 2, 1, 0, 0, 0, 0, 1, 0, 0, 0]];
    let variables = variables_after(&model_with_locals([7, 2_147_483_647], &add), &one_job());
    assert_eq!(variables[variable::local(0)], 2_147_483_647);
}

// The same at the lower end, which has no example in the documents.

#[test]
fn difference_past_the_least_value() {
    // Local 0 takes local 1 minus the constant 1.
    let subtract = [[0x0A, 2, 0, 2, 2, 1, 0, 0, 0, 0, 1, 0, 0, 0]];
    let model = model_with_locals([7, -2_147_483_648], &subtract);
    let variables = variables_after(&model, &one_job());
    assert_eq!(variables[variable::local(0)], -2_147_483_648);
}

#[test]
fn sum_past_the_least_value() {
    // Local 0 takes local 1 plus the constant -1.
    let add = [[0x0A, 2, 0, 1, 2, 1, 0, 0, 0, 0, 255, 255, 255, 255]];
    let variables = variables_after(&model_with_locals([7, -2_147_483_648], &add), &one_job());
    assert_eq!(variables[variable::local(0)], -2_147_483_648);
}

#[test]
fn hyperperiods() {
    let transition = [0x07, 0, 0];
    let hyperperiod_old = |critical| {
        let threads = [thread(4, 4, 1, critical), thread(6, 6, 1, critical)].concat();
        let model = [&HEAD[..], &threads, &transition].concat();
        model::read(&model)
            .expect("an accepted model")
            .mode_transitions[0]
            .hyperperiod_old
    };
    assert_eq!(hyperperiod_old(1), Duration(12));
    assert_eq!(hyperperiod_old(0), Duration(1));
}

#[test]
fn last_clock() {
    let (model, table) = model_and_table(&HEAD).expect("an accepted model");
    let mut state = model::start_state(&model);
    state.now = Duration(999_999_999);
    let mut variables = table::start_state(&table);
    variables[NOW] = 999_999_999;

    let tick = |ticks| Event {
        kind: TICK,
        id: 0,
        length: 0,
        ticks,
    };
    let after = model::step(&model, &state, &tick(1)).expect("taken");
    assert_eq!(after.now, Duration(1_000_000_000));
    let after = table::step(&table, &variables, &tick(1)).expect("taken");
    assert_eq!(after[NOW], 1_000_000_000);
    assert_eq!(model::step(&model, &state, &tick(2)), Err(11));
    assert_eq!(table::step(&table, &variables, &tick(2)), Err(11));
}
