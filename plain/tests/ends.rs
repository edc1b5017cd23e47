//! Sums and differences stop at the ends of their range: in the transitions of a
//! model, in what it sends, and in every update of a table, be it made or not.

mod common;
mod taken;

use plain::script::{
    run_on, ACTIVATE, COMPLETE, DEACTIVATE, DEADLINE, DISPATCH, MISS, START, TICK,
};
use plain::sums::{difference, sum};
use plain::table::variable::{self, CPU, NOW};
use plain::table::{self, Table, Variables, LONGEST_TABLE};
use plain::translate::translate;
use taken::variables_after;

const GREATEST: i32 = 2_147_483_647;
const LEAST: i32 = -2_147_483_648;

const COPY: u8 = 0;
const ADD: u8 = 1;
const SUBTRACT: u8 = 2;

/// First operand, op, second operand, and what comes of them.
const RESULTS: [(i32, u8, i32, i32); 43] = [
    // The four of the examples.
    (GREATEST, ADD, 1, GREATEST),
    (LEAST, ADD, -1, LEAST),
    (LEAST, SUBTRACT, 1, LEAST),
    (0, SUBTRACT, LEAST, GREATEST),
    // One inside the upper end, just there, and one past it.
    (GREATEST - 2, ADD, 1, GREATEST - 1),
    (GREATEST - 1, ADD, 1, GREATEST),
    (GREATEST - 1, ADD, 2, GREATEST),
    (1, ADD, GREATEST, GREATEST),
    (1 << 30, ADD, (1 << 30) - 2, GREATEST - 1),
    (1 << 30, ADD, (1 << 30) - 1, GREATEST),
    (1 << 30, ADD, 1 << 30, GREATEST),
    (GREATEST - 2, SUBTRACT, -1, GREATEST - 1),
    (GREATEST - 1, SUBTRACT, -1, GREATEST),
    (GREATEST - 1, SUBTRACT, -2, GREATEST),
    (GREATEST, SUBTRACT, -1, GREATEST),
    // The same at the lower end.
    (LEAST + 2, ADD, -1, LEAST + 1),
    (LEAST + 1, ADD, -1, LEAST),
    (LEAST + 1, ADD, -2, LEAST),
    (-1, ADD, LEAST, LEAST),
    (-(1 << 30), ADD, -(1 << 30) + 1, LEAST + 1),
    (-(1 << 30), ADD, -(1 << 30), LEAST),
    (-(1 << 30), ADD, -(1 << 30) - 1, LEAST),
    (LEAST + 2, SUBTRACT, 1, LEAST + 1),
    (LEAST + 1, SUBTRACT, 1, LEAST),
    (LEAST + 1, SUBTRACT, 2, LEAST),
    // As far outside as can be.
    (GREATEST, ADD, GREATEST, GREATEST),
    (GREATEST, SUBTRACT, LEAST, GREATEST),
    (LEAST, ADD, LEAST, LEAST),
    (LEAST, SUBTRACT, GREATEST, LEAST),
    // The greatest value taken away.
    (0, SUBTRACT, GREATEST, LEAST + 1),
    (-1, SUBTRACT, GREATEST, LEAST),
    (-2, SUBTRACT, GREATEST, LEAST),
    // From an end back into the range.
    (GREATEST, ADD, LEAST, -1),
    (LEAST, ADD, GREATEST, -1),
    (GREATEST, ADD, -1, GREATEST - 1),
    (LEAST, ADD, 1, LEAST + 1),
    (GREATEST, SUBTRACT, 1, GREATEST - 1),
    (LEAST, SUBTRACT, -1, LEAST + 1),
    (GREATEST, SUBTRACT, GREATEST, 0),
    (GREATEST, ADD, 0, GREATEST),
    (LEAST, SUBTRACT, 0, LEAST),
    // A copy has no sum.
    (GREATEST, COPY, 1, GREATEST),
    (LEAST, COPY, -1, LEAST),
];

/// The least value taken away. It has no negated one: to add GREATEST in its place would
/// be one too little where the first operand is below 0, to add LEAST always wrong.
const LEAST_TAKEN_AWAY: [(i32, u8, i32, i32); 9] = [
    (LEAST, SUBTRACT, LEAST, 0),
    (LEAST + 1, SUBTRACT, LEAST, 1),
    (-1_000, SUBTRACT, LEAST, GREATEST - 999),
    (-2, SUBTRACT, LEAST, GREATEST - 1),
    (-1, SUBTRACT, LEAST, GREATEST),
    (0, SUBTRACT, LEAST, GREATEST),
    (1, SUBTRACT, LEAST, GREATEST),
    (1_000, SUBTRACT, LEAST, GREATEST),
    (GREATEST, SUBTRACT, LEAST, GREATEST),
];

fn results() -> impl Iterator<Item = (i32, u8, i32, i32)> {
    RESULTS.into_iter().chain(LEAST_TAKEN_AWAY)
}

/// Beside what is listed: all pairs of numbers near the ends and near 0 come to the
/// exact result where there is such a number, else to the end on its side.
#[test]
fn pairs_of_all_sorts() {
    let near = |number: i32| (-3..=3).map(move |more| number.checked_add(more));
    let places = [LEAST, -(1 << 30), -65_536, 0, 65_536, 1 << 30, GREATEST];
    let numbers: Vec<i32> = places.into_iter().flat_map(near).flatten().collect();
    let nearest = |exact: i128| match i32::try_from(exact) {
        Ok(number) => number,
        Err(_) if exact > 0 => GREATEST,
        Err(_) => LEAST,
    };
    for &first in &numbers {
        for &second in &numbers {
            let (a, b) = (i128::from(first), i128::from(second));
            assert_eq!(sum(first, second), nearest(a + b), "{first} + {second}");
            let found = difference(first, second);
            assert_eq!(found, nearest(a - b), "{first} - {second}");
        }
    }
}

// In models

/// A tag and a number.
type Operand = (u8, i32);

fn operand((tag, number): Operand) -> Vec<u8> {
    [&[tag][..], &number.to_le_bytes()].concat()
}

fn assignment(target: [u8; 2], op: u8, first: Operand, second: Operand) -> Vec<u8> {
    let head = [0x0A, target[0], target[1], op];
    [&head[..], &operand(first), &operand(second)].concat()
}

fn guard(op: u8, local: u8, number: i32) -> Vec<u8> {
    [&[0x09, op, 2, local][..], &operand((0, number))].concat()
}

fn local(start: i32) -> Vec<u8> {
    [&[0x05, 0][..], &start.to_le_bytes()].concat()
}

/// One mode and so many threads of document 01's model M.
fn threads(count: usize) -> Vec<u8> {
    let figures = [5, 4, 1, 5].map(u32::to_le_bytes).concat();
    let thread = [&[0x02], &figures[..], &[1, 0, 0]].concat();
    [&[0x01, 1, 0], &thread.repeat(count)[..]].concat()
}

/// Thread 0 has both operands as starts of input ports and of locals, and gives what
/// comes of them to local 2 and to an output, which goes to the ports 2 and 3 of
/// thread 1, at once and at its deadline.
fn sender(values: [i32; 2], op: u8, first: Operand, second: Operand) -> Vec<u8> {
    let port = |start: i32| [&[0x0B, 0][..], &start.to_le_bytes()].concat();
    [
        threads(2),
        values.map(port).concat(),
        vec![0x03, 1, 0x03, 1, 0x04, 0],
        values.map(local).concat(),
        local(7),
        vec![0x06, 0, 0, 2, 1, 0x06, 1, 0, 3, 1],
        vec![0x08, 0, 0, 1],
        assignment([2, 2], op, first, second),
        assignment([3, 0], op, first, second),
    ]
    .concat()
}

fn start(thread: u8, length: u8) -> [u8; 6] {
    [START, thread, length, 0, 0, 0]
}

fn tick(count: u8) -> [u8; 3] {
    [TICK, count, 0]
}

/// A job of each thread, up to the deadline of the first.
fn both_jobs() -> Vec<u8> {
    [
        &[ACTIVATE, 0, ACTIVATE, 1, DISPATCH, 0, DISPATCH, 1],
        &start(0, 1)[..],
        &tick(1),
        &[COMPLETE, 0],
        &start(1, 1),
        &tick(1),
        &[COMPLETE, 1],
        &tick(2),
        &[DEADLINE, 0],
    ]
    .concat()
}

/// Operands of all three sorts on both sides. The model's table agrees all along, and
/// makes the sum of the buffer at once anew.
#[test]
fn assignments_and_what_is_sent() {
    for (first, op, second, wanted) in results() {
        for left in [(0, first), (1, 0), (2, 0)] {
            for right in [(0, second), (1, 1), (2, 1)] {
                let model = sender([first, second], op, left, right);
                let found = variables_after(&model, &both_jobs());
                for target in [
                    variable::local(2),
                    variable::output_port(0),
                    variable::port_buffer(2),
                    variable::input_port(2),
                    variable::port_buffer(3),
                ] {
                    let what = format!("{first} {op} {second}, {left:?} {right:?}: {target}");
                    assert_eq!(found[target], wanted, "{what}");
                }
                // What was read stays.
                assert_eq!(found[variable::local(0)], first);
                assert_eq!(found[variable::local(1)], second);
            }
        }
    }
}

/// A transition with guard and assignments, each of thread 0.
fn transition(from: u8, to: u8, records: &[Vec<u8>]) -> Vec<u8> {
    [&[0x08, 0, from, to][..], &records.concat()].concat()
}

/// So many jobs of thread 0, one in each period.
fn jobs(count: usize) -> Vec<u8> {
    let job = [
        &[DISPATCH, 0],
        &start(0, 1)[..],
        &tick(1),
        &[COMPLETE, 0],
        &tick(3),
        &[DEADLINE, 0],
        &tick(1),
    ];
    [&[ACTIVATE, 0][..], &job.concat().repeat(count)].concat()
}

/// The local and the behaviour state after so many jobs.
fn after_jobs(model: &[u8], count: usize) -> (i32, i32) {
    let found = variables_after(model, &jobs(count));
    (
        found[variable::local(0)],
        found[variable::behavior_state(0)],
    )
}

/// A total that grows stays heavy: the guard that looks for a feather touch, a total
/// below 0, never holds, and the total never gets there.
#[test]
fn guards_read_what_has_stopped() {
    for (begin, op, end, other_side, this_side) in [
        (GREATEST - 1, ADD, GREATEST, 2, 3),
        (LEAST + 1, SUBTRACT, LEAST, 3, 2),
    ] {
        let more = assignment([2, 0], op, (2, 0), (0, 1));
        let model = [
            threads(1),
            local(begin),
            transition(0, 7, &[guard(other_side, 0, 0)]),
            transition(0, 0, &[guard(this_side, 0, 0), more]),
        ]
        .concat();
        assert_eq!(after_jobs(&model, 0), (begin, 0));
        for count in 1..=4 {
            assert_eq!(after_jobs(&model, count), (end, 0), "{count} jobs");
        }
    }
}

/// A guard that asks for the end itself holds after the sum that lay outside, and the
/// way back begins at the end: what was cut off is gone.
#[test]
fn the_way_back_begins_at_the_end() {
    for (begin, out, end, back, inside) in [
        (GREATEST - 10, ADD, GREATEST, SUBTRACT, GREATEST - 3),
        (LEAST + 10, SUBTRACT, LEAST, ADD, LEAST + 3),
    ] {
        let model = [
            threads(1),
            local(begin),
            transition(0, 1, &[assignment([2, 0], out, (2, 0), (0, 1_000_000_000))]),
            transition(
                1,
                2,
                &[guard(0, 0, end), assignment([2, 0], back, (2, 0), (0, 3))],
            ),
        ]
        .concat();
        assert_eq!(after_jobs(&model, 1), (end, 1));
        assert_eq!(after_jobs(&model, 2), (inside, 2));
    }
}

/// Both ends in one transition, which reads values from before it.
#[test]
fn sums_of_one_transition() {
    let model = [
        threads(1),
        [GREATEST - 5, LEAST + 5, -9].map(local).concat(),
        transition(
            0,
            0,
            &[
                assignment([2, 0], SUBTRACT, (2, 0), (2, 1)),
                assignment([2, 1], ADD, (2, 1), (2, 2)),
                assignment([2, 2], ADD, (2, 0), (2, 2)),
            ],
        ),
    ]
    .concat();
    let found = variables_after(&model, &jobs(1));
    let locals = [0, 1, 2].map(|number| found[variable::local(number)]);
    assert_eq!(locals, [GREATEST, LEAST, GREATEST - 14]);
}

// In tables that no model made

fn initial_value(variable: usize, value: i32) -> Vec<u8> {
    let variable = (variable as u16).to_le_bytes();
    [&[0x20], &variable[..], &value.to_le_bytes()].concat()
}

/// A rule of some kind with id 0; START takes all lengths that a rule may have.
fn rule(kind: u8) -> Vec<u8> {
    let high: u32 = if kind == START { 1_000_000 } else { 0 };
    [&[0x21, kind, 0, 0, 0, 0, 0], &high.to_le_bytes()[..]].concat()
}

/// A clause of one atom.
fn clause(op: u8, variable: usize, number: i32) -> Vec<u8> {
    let variable = (variable as u16).to_le_bytes();
    [&[0x22, 0x23, op], &variable[..], &operand((0, number))].concat()
}

fn update(target: usize, op: u8, first: Operand, second: Operand) -> Vec<u8> {
    let target = (target as u16).to_le_bytes();
    let operands = [operand(first), operand(second)].concat();
    [&[0x24, 255, 255, 0], &target[..], &[op], &operands].concat()
}

fn read(records: &[Vec<u8>]) -> Table {
    table::read(&records.concat()).expect("an accepted table")
}

/// The variables after events, which are all taken.
fn after_events(table: &Table, start: Variables, events: &[u8]) -> Variables {
    let mut variables = start;
    let step = |variables: &_, event: &_| table::step(table, variables, event);
    run_on(events, &mut variables, step, |answer, _| {
        assert_eq!(answer.number, 0);
    });
    variables
}

/// Variables that hold the operands, and the tag of a variable.
const FIRST: usize = 7;
const SECOND: usize = 8;
const VARIABLE: u8 = 1;
const CHOSEN_LENGTH: Operand = (2, 0);

/// Of every kind of variable, with constants and variables on both sides.
#[test]
fn updates_of_all_targets() {
    let targets = [
        1, 2, 3, 4, 5, 6, 16, 32, 48, 64, 79, 80, 95, 96, 112, 127, 128, 160, 192, 224, 256, 287,
    ];
    for (first, op, second, wanted) in results() {
        for left in [(0, first), (VARIABLE, FIRST as i32)] {
            for right in [(0, second), (VARIABLE, SECOND as i32)] {
                let starts = [initial_value(FIRST, first), initial_value(SECOND, second)];
                let updates = targets.map(|target| update(target, op, left, right));
                let table = read(&[starts.concat(), rule(ACTIVATE), updates.concat()]);
                let found = after_events(&table, table::start_state(&table), &[ACTIVATE, 0]);
                for target in targets {
                    let what = format!("{first} {op} {second}, {left:?} {right:?}: {target}");
                    assert_eq!(found[target], wanted, "{what}");
                }
            }
        }
    }
}

/// What it reads and writes is one variable, which goes up to its end and stays.
#[test]
fn updates_of_themselves() {
    let own = (VARIABLE, FIRST as i32);
    for (begin, op, step, seen) in [
        (
            GREATEST - 3,
            ADD,
            2,
            [GREATEST - 1, GREATEST, GREATEST, GREATEST],
        ),
        (LEAST + 3, SUBTRACT, 2, [LEAST + 1, LEAST, LEAST, LEAST]),
        (
            GREATEST - 2,
            SUBTRACT,
            LEAST,
            [GREATEST, GREATEST, GREATEST, GREATEST],
        ),
    ] {
        let table = read(&[
            initial_value(FIRST, begin),
            rule(MISS),
            update(FIRST, op, own, (0, step)),
        ]);
        let mut variables = table::start_state(&table);
        for wanted in seen {
            variables = after_events(&table, variables, &[MISS, 0]);
            assert_eq!(variables[FIRST], wanted, "{begin} {op} {step}");
        }
    }
}

/// What an update by a chosen length comes to, for each of these lengths, where the
/// other operand has a value.
fn chosen(held: i32, first: Operand, op: u8, second: Operand, results: &[(u32, i32)]) {
    // Ends of two threads, and a variable that stands for nothing.
    let targets = [variable::end(0), variable::end(15), 6];
    let updates = targets.map(|target| update(target, op, first, second));
    let table = read(&[initial_value(FIRST, held), rule(START), updates.concat()]);
    for &(length, wanted) in results {
        let event = [&[START, 0][..], &length.to_le_bytes()].concat();
        let found = after_events(&table, table::start_state(&table), &event);
        for target in targets {
            assert_eq!(found[target], wanted, "{held}, {length}: {target}");
        }
    }
}

/// The length that a START chooses, on either side.
#[test]
fn updates_by_a_chosen_length() {
    let (value, length) = ((VARIABLE, FIRST as i32), CHOSEN_LENGTH);
    let above = [(2, GREATEST - 1), (3, GREATEST), (4, GREATEST)];
    chosen(GREATEST - 3, value, ADD, length, &above);
    chosen(GREATEST - 3, length, ADD, value, &above);
    let below = [(2, LEAST + 1), (3, LEAST), (4, LEAST)];
    chosen(LEAST + 3, value, SUBTRACT, length, &below);
    let turned = [(1, GREATEST - 1), (2, GREATEST), (3, GREATEST)];
    chosen(LEAST + 3, length, SUBTRACT, value, &turned);
    // The longest, the shortest, and both operands chosen.
    chosen(GREATEST, value, ADD, length, &[(1_000_000, GREATEST)]);
    chosen(LEAST, value, SUBTRACT, length, &[(1_000_000, LEAST)]);
    let least = [(0, GREATEST), (1, GREATEST), (1_000_000, GREATEST)];
    chosen(LEAST, length, SUBTRACT, value, &least);
    chosen(GREATEST, length, SUBTRACT, value, &[(0, LEAST + 1)]);
    chosen(0, length, ADD, length, &[(0, 0), (1_000_000, 2_000_000)]);
}

/// Atoms of all sorts look at the value that has stopped; had it gone round, others
/// would hold. Of the ends just the least is a multiple of 2.
#[test]
fn atoms_read_what_has_stopped() {
    let (up, down) = ((VARIABLE, FIRST as i32), (VARIABLE, SECOND as i32));
    let atoms = [
        (0, FIRST, GREATEST),
        (1, FIRST, LEAST),
        (3, FIRST, GREATEST),
        (4, FIRST, 0),
        (7, FIRST, 2),
        (0, SECOND, LEAST),
        (1, SECOND, GREATEST),
        (5, SECOND, LEAST),
        (2, SECOND, 0),
        (6, SECOND, 2),
    ];
    let clauses = atoms.map(|(op, variable, number)| clause(op, variable, number));
    let table = read(&[
        initial_value(FIRST, GREATEST - 1),
        initial_value(SECOND, LEAST + 1),
        rule(ACTIVATE),
        update(FIRST, ADD, up, (0, 2)),
        update(SECOND, ADD, down, (0, -2)),
        rule(DEACTIVATE),
        clauses.concat(),
        update(6, COPY, (0, 1), (0, 0)),
    ]);
    let start = table::start_state(&table);
    let refused = |variables: &Variables| {
        let mut after = *variables;
        let step = |variables: &_, event: &_| table::step(&table, variables, event);
        run_on(&[DEACTIVATE, 0], &mut after, step, |_, _| {}) == 0
    };
    assert!(refused(&start));
    let stopped = after_events(&table, start, &[ACTIVATE, 0]);
    assert_eq!([stopped[FIRST], stopped[SECOND]], [GREATEST, LEAST]);
    assert_eq!(after_events(&table, stopped, &[DEACTIVATE, 0])[6], 1);
}

// In made tables

/// Due, End and Missed of model M's table, on variables that no run leads to.
#[test]
fn the_figures_of_a_made_table() {
    let made = translate(&threads(1), LONGEST_TABLE).expect("an accepted model");
    let table = table::read(&made).expect("an accepted table");
    let lent = |changes: &[(usize, i32)]| {
        let mut variables = table::start_state(&table);
        for &(variable, value) in changes {
            variables[variable] = value;
        }
        variables
    };
    let (state, due, missed) = (variable::state(0), variable::due(0), variable::missed(0));
    // The last two multiples of Period 5; Deadline is 4.
    for (now, wanted) in [
        (GREATEST - 7, GREATEST - 3),
        (GREATEST - 2, GREATEST),
        (LEAST + 3, LEAST + 7),
    ] {
        let waits = lent(&[(NOW, now), (state, 1)]);
        let found = after_events(&table, waits, &[DISPATCH, 0]);
        assert_eq!(found[due], wanted, "dispatched at {now}");
    }
    for (length, wanted) in [
        (1, GREATEST - 1),
        (2, GREATEST),
        (3, GREATEST),
        (5, GREATEST),
    ] {
        let waits = lent(&[(NOW, GREATEST - 2), (state, 2), (CPU, 255)]);
        let found = after_events(&table, waits, &start(0, length));
        assert_eq!(found[variable::end(0)], wanted, "length {length}");
    }
    for code in [2, 3] {
        for (count, wanted) in [
            (GREATEST - 2, GREATEST - 1),
            (GREATEST - 1, GREATEST),
            (GREATEST, GREATEST),
            (LEAST, LEAST + 1),
        ] {
            let due_now = [(NOW, 9), (due, 9), (state, code), (missed, count)];
            let found = after_events(&table, lent(&due_now), &[MISS, 0]);
            assert_eq!(found[missed], wanted, "{count} missed, code {code}");
        }
    }
}

/// Made tables keep their bytes: the sum stands there as the model has it, for the
/// target and again for the buffer, and nobody reckons with its constants before.
#[test]
fn a_made_table_has_the_sum_as_it_is_written() {
    for (first, op, second, _) in RESULTS {
        if op == COPY {
            continue;
        }
        let operands = ((0, first), (0, second));
        let model = sender([1, 2], op, operands.0, operands.1);
        let made = translate(&model, LONGEST_TABLE).expect("an accepted model");
        let for_buffer = {
            let mut record = update(variable::port_buffer(2), op, operands.0, operands.1);
            // Where Flag 0 is 1.
            record[1..4].copy_from_slice(&[128, 0, 1]);
            record
        };
        let records = [
            update(variable::local(2), op, operands.0, operands.1),
            update(variable::output_port(0), op, operands.0, operands.1),
            for_buffer,
        ];
        let times = made
            .windows(17 * 3)
            .filter(|part| *part == records.concat());
        assert_eq!(times.count(), 1, "{first} {op} {second}");
    }
}
