//! Faults of fields: a number that names nothing gives 14, a faulty time of a
//! thread 15, any other field 4. Each field of each record takes good and faulty
//! contents, beside all those of the other fields.

mod common;

use std::collections::BTreeSet;

use common::simulation;
use plain::model;
use plain::refusal::Refusal;
use plain::table;

/// The causes against a whole record in its place, in the order of telling.
const TOLD: [u8; 6] = [14, 15, 4, 5, 6, 7];

/// What may stand in a field, or in some that are judged together, and the number
/// that it gives by itself; 0 is a good one.
type Field = Vec<(Vec<u8>, u8)>;

/// One byte, by its values.
fn bytes(values: &[(u8, u8)]) -> Field {
    let content = |&(value, number): &(u8, u8)| (vec![value], number);
    values.iter().map(content).collect()
}

/// A variable, by its values.
fn variables(values: &[(u16, u8)]) -> Field {
    let content = |&(value, number): &(u16, u8)| (value.to_le_bytes().to_vec(), number);
    values.iter().map(content).collect()
}

/// Figures of four bytes each, by their values.
fn figures<const N: usize>(values: &[([u32; N], u8)]) -> Field {
    let content = |&(value, number): &([u32; N], u8)| {
        let bytes = value.iter().flat_map(|figure| figure.to_le_bytes());
        (bytes.collect(), number)
    };
    values.iter().map(content).collect()
}

/// A tag and a number of one byte each.
fn items(values: &[([u8; 2], u8)]) -> Field {
    let content = |&(value, number): &([u8; 2], u8)| (value.to_vec(), number);
    values.iter().map(content).collect()
}

fn operands(values: &[(u8, i32, u8)]) -> Field {
    let content = |&(tag, value, number): &(u8, i32, u8)| {
        let bytes = [&[tag], &value.to_le_bytes()[..]].concat();
        (bytes, number)
    };
    values.iter().map(content).collect()
}

/// Every body that has one content of each field, and the numbers that they give.
fn every_choice(fields: &[Field]) -> Vec<(Vec<u8>, Vec<u8>)> {
    let mut choices = vec![(Vec::new(), Vec::new())];
    for field in fields {
        let longer = |(body, numbers): &(Vec<u8>, Vec<u8>)| {
            let (body, numbers) = (body.clone(), numbers.clone());
            let add = move |(content, number): &(Vec<u8>, u8)| {
                let numbers = [&numbers[..], &[*number]].concat();
                ([&body[..], content].concat(), numbers)
            };
            field.iter().map(add).collect::<Vec<_>>()
        };
        choices = choices.iter().flat_map(longer).collect();
    }
    choices
}

/// Reads the record with every choice of its contents behind the bytes before it.
/// The first cause of all must be told, and just the given numbers must be met.
fn check<T>(
    read: fn(&[u8]) -> Result<T, Refusal>,
    before: &[u8],
    kind: u8,
    fields: &[Field],
    met: &[u8],
) {
    let mut found = BTreeSet::new();
    for (body, numbers) in every_choice(fields) {
        let bytes = [before, &[kind], &body].concat();
        let number = TOLD.into_iter().find(|number| numbers.contains(number));
        found.insert(number.unwrap_or(0));
        let wanted = number.map(|number| Refusal {
            number,
            start: before.len(),
            end: bytes.len(),
        });
        assert_eq!(read(&bytes).err(), wanted, "{numbers:?} of {bytes:02x?}");
    }
    assert_eq!(found, met.iter().copied().collect());
}

fn check_model(before: &[u8], kind: u8, fields: &[Field], met: &[u8]) {
    check(model::read, before, kind, fields, met);
}

fn check_table(before: &[u8], kind: u8, fields: &[Field], met: &[u8]) {
    check(table::read, before, kind, fields, met);
}

/// A thread of a mask, critical.
fn thread(period: u32, mode_mask: u8) -> Vec<u8> {
    let figures = [period, 4, 1, 5].map(u32::to_le_bytes).concat();
    [&[0x02], &figures[..], &[mode_mask, 1, 0]].concat()
}

/// Three modes and two threads; H1 of mode 0 is too long. Each thread owns an
/// input port and an output port of its number; thread 1 owns local 1, thread 0
/// locals 0 and 2.
fn all_items() -> Vec<u8> {
    let ports = [0x03, 0, 0x0B, 1, 9, 0, 0, 0, 0x04, 0, 0x04, 1];
    let locals = [0, 1, 0].map(|owner| [0x05, owner, 0, 0, 0, 0]).concat();
    let threads = [thread(1_000_000, 1), thread(1_001, 3)].concat();
    [&[0x01, 3, 0], &threads[..], &ports, &locals].concat()
}

/// The same with a transition of thread 0 that assigns to local 0.
fn items_and_transition() -> Vec<u8> {
    let assignment = [0x0A, 2, 0, 0, 0, 0, 0, 0, 0, 0, 0, 0, 0, 0];
    [&all_items()[..], &[0x08, 0, 0, 0], &assignment].concat()
}

// Records of models

#[test]
fn heads() {
    for mode_count in 0..=255 {
        for initial_mode in 0..=255 {
            let number = match (mode_count, initial_mode) {
                (count, initial) if initial >= count => 14,
                (9.., _) => 4,
                _ => 0,
            };
            let field = vec![(vec![mode_count, initial_mode], number)];
            check_model(&[], 0x01, &[field], &[number]);
        }
    }
}

/// Heads as the documents name them.
#[test]
fn heads_one_by_one() {
    for (head, number) in [
        ([0, 0], 14),
        ([0, 255], 14),
        ([1, 1], 14),
        ([8, 7], 0),
        ([8, 8], 14),
        ([9, 0], 4),
        ([9, 8], 4),
        ([9, 9], 14),
        ([255, 254], 4),
        ([255, 255], 14),
    ] {
        check_model(&[], 0x01, &[items(&[(head, number)])], &[number]);
    }
}

#[test]
fn threads() {
    const MOST: u32 = 1_000_000;
    let times = figures(&[
        ([5, 4, 1, 5], 0),
        ([1, 1, 1, 1], 0),
        ([MOST; 4], 0),
        ([0, 4, 1, 5], 15),
        ([0, 0, 1, 5], 15),
        ([MOST + 1, 4, 1, 5], 15),
        ([5, 0, 1, 5], 15),
        ([5, 6, 1, 5], 15),
        ([5, u32::MAX, 1, 5], 15),
        ([5, 4, 0, 5], 15),
        ([5, 4, 6, 5], 15),
        ([5, 4, 1, 0], 15),
        ([5, 4, 1, MOST + 1], 15),
        ([0; 4], 15),
        ([u32::MAX; 4], 15),
    ]);
    let mask = bytes(&[(0, 0), (7, 0), (8, 4), (128, 4), (255, 4)]);
    let critical = bytes(&[(0, 0), (1, 0), (2, 4), (255, 4)]);
    let state = bytes(&[(0, 0), (7, 0), (8, 4), (255, 4)]);
    let fields = [times, mask, critical, state];
    check_model(&[0x01, 3, 0], 0x02, &fields, &[0, 15, 4]);
}

#[test]
fn ports_and_locals() {
    let two_threads = [&[0x01, 3, 0], &thread(5, 1)[..], &thread(5, 1)].concat();
    let owner = bytes(&[(0, 0), (1, 0), (2, 14), (16, 14), (255, 14)]);
    let start = figures(&[([0], 0), ([1], 0), ([u32::MAX], 0)]);
    let fields = [owner, start];
    for (kind, count) in [(0x03, 1), (0x04, 1), (0x05, 2), (0x0B, 2)] {
        check_model(&two_threads, kind, &fields[..count], &[0, 14]);
    }
}

/// Input port 1 is connected already.
#[test]
fn connections() {
    let before = [&all_items()[..], &[0x06, 1, 0, 1, 1]].concat();
    let fields = [
        bytes(&[(0, 0), (1, 0), (2, 4), (255, 4)]),
        bytes(&[(0, 0), (1, 0), (2, 14), (255, 14)]),
        bytes(&[(0, 0), (1, 6), (2, 14), (255, 14)]),
        bytes(&[(0, 0), (7, 0), (8, 4), (255, 4)]),
    ];
    check_model(&before, 0x06, &fields, &[0, 14, 4, 6]);
}

#[test]
fn mode_transitions() {
    let fields = [
        bytes(&[(0, 7), (1, 0), (2, 0), (3, 14), (8, 14), (255, 14)]),
        bytes(&[(0, 0), (1, 0), (2, 0), (3, 14), (8, 14), (255, 14)]),
    ];
    check_model(&all_items(), 0x07, &fields, &[0, 14, 7]);
}

#[test]
fn behavior_transitions() {
    let state = bytes(&[(0, 0), (7, 0), (8, 4), (255, 4)]);
    let thread = bytes(&[(0, 0), (1, 0), (2, 14), (255, 14)]);
    let fields = [thread, state.clone(), state];
    check_model(&all_items(), 0x08, &fields, &[0, 14, 4]);
}

/// The operands of models: behind a tag that may not stand any number will do.
fn model_operands() -> Field {
    operands(&[
        (0, i32::MIN, 0),
        (0, 99, 0),
        (1, 0, 0),
        (2, 2, 0),
        (1, 1, 5),
        (2, 1, 5),
        (1, 2, 14),
        (2, 3, 14),
        (1, -1, 14),
        (2, i32::MIN, 14),
        (1, 256, 14),
        (3, 0, 4),
        (3, 99, 4),
        (255, -1, 4),
    ])
}

#[test]
fn guard_atoms() {
    let left = items(&[
        ([1, 0], 0),
        ([2, 0], 0),
        ([1, 1], 5),
        ([2, 1], 5),
        ([1, 2], 14),
        ([2, 3], 14),
        ([2, 255], 14),
        ([0, 0], 4),
        ([0, 9], 4),
        ([3, 0], 4),
        ([3, 99], 4),
        ([255, 255], 4),
    ]);
    let op = bytes(&[(0, 0), (5, 0), (6, 4), (7, 4), (8, 4), (255, 4)]);
    let before = [&all_items()[..], &[0x08, 0, 0, 0]].concat();
    let fields = [op, left, model_operands()];
    check_model(&before, 0x09, &fields, &[0, 14, 4, 5]);
}

#[test]
fn assignments() {
    let target = items(&[
        ([2, 2], 0),
        ([3, 0], 0),
        ([2, 0], 6),
        ([2, 1], 5),
        ([3, 1], 5),
        ([2, 3], 14),
        ([3, 2], 14),
        ([3, 255], 14),
        ([0, 0], 4),
        ([1, 0], 4),
        ([1, 99], 4),
        ([4, 99], 4),
        ([255, 255], 4),
    ]);
    let op = bytes(&[(0, 0), (1, 0), (2, 0), (3, 4), (6, 4), (255, 4)]);
    let fields = [target, op, model_operands(), model_operands()];
    let before = items_and_transition();
    check_model(&before, 0x0A, &fields, &[0, 14, 4, 5, 6]);
}

// Records of tables

fn rule(kind: u8) -> Vec<u8> {
    vec![0x21, kind, 0, 0, 0, 0, 0, 0, 0, 0, 0]
}

#[test]
fn initial_values() {
    let started = [0x20, 7, 0, 1, 0, 0, 0];
    let variable = variables(&[
        (8, 0),
        (287, 0),
        (0, 4),
        (6, 4),
        (7, 4),
        (288, 14),
        (300, 14),
        (65_535, 14),
    ]);
    let value = figures(&[([0], 0), ([1], 0), ([u32::MAX], 0)]);
    check_table(&started, 0x20, &[variable, value], &[0, 14, 4]);
}

#[test]
fn rules() {
    let id = bytes(&[(0, 0), (16, 0), (255, 0)]);
    let mut kinds: Vec<(u8, u8)> = (1..=10).map(|kind| (kind, 0)).collect();
    kinds.remove(3);
    kinds.extend([(0, 4), (11, 4), (12, 4), (255, 4)]);
    let zero = figures(&[([0], 0), ([1], 4), ([u32::MAX], 4)]);
    let fields = [bytes(&kinds), id.clone(), zero.clone(), zero];
    check_table(&[], 0x21, &fields, &[0, 4]);
    let lengths = figures(&[
        ([0, 0], 0),
        ([3, 3], 0),
        ([0, 1_000_000], 0),
        ([4, 3], 4),
        ([0, 1_000_001], 4),
        ([u32::MAX, u32::MAX], 4),
    ]);
    check_table(&[], 0x21, &[bytes(&[(4, 0)]), id, lengths], &[0, 4]);
}

/// Behind every op but 6 and 7, those that are no op among them, a variable may
/// stand; the chosen length may not.
#[test]
fn atoms() {
    let op = bytes(&[(0, 0), (5, 0), (8, 4), (9, 4), (255, 4)]);
    let variable = variables(&[(0, 0), (287, 0), (288, 14), (65_535, 14)]);
    let operand = operands(&[
        (0, i32::MIN, 0),
        (0, 999, 0),
        (1, 0, 0),
        (1, 287, 0),
        (1, 288, 14),
        (1, -1, 14),
        (1, 65_536, 14),
        (1, i32::MIN, 14),
        (2, 0, 4),
        (2, 999, 4),
        (3, 0, 4),
        (3, 999, 4),
        (255, -1, 4),
    ]);
    for kind in [1, 4] {
        let before = [rule(kind), vec![0x22]].concat();
        let fields = [op.clone(), variable.clone(), operand.clone()];
        check_table(&before, 0x23, &fields, &[0, 14, 4]);
    }
}

/// Behind ops 6 and 7 a variable may not stand, whether it is there or not.
#[test]
fn multiples() {
    let op = bytes(&[(6, 0), (7, 0)]);
    let variable = variables(&[(0, 0), (287, 0), (288, 14), (65_535, 14)]);
    let operand = operands(&[
        (0, 1, 0),
        (0, i32::MAX, 0),
        (0, 0, 4),
        (0, -1, 4),
        (1, 1, 4),
        (1, 288, 4),
        (1, -1, 4),
        (2, 1, 4),
        (2, 999, 4),
        (3, 1, 4),
        (255, 999, 4),
    ]);
    for kind in [1, 4] {
        let before = [rule(kind), vec![0x22]].concat();
        let fields = [op.clone(), variable.clone(), operand.clone()];
        check_table(&before, 0x23, &fields, &[0, 14, 4]);
    }
}

/// Ops 6 and 7 are none of an update's, so they forbid no tag there.
#[test]
fn updates() {
    for kind in 1..=10 {
        let length = if kind == 4 { 0 } else { 4 };
        let operand = operands(&[
            (0, i32::MIN, 0),
            (1, 287, 0),
            (1, 288, 14),
            (1, -1, 14),
            (2, 0, length),
            (2, 999, length),
            (3, 999, 4),
            (255, -1, 4),
        ]);
        let fields = [
            variables(&[(0, 0), (287, 0), (288, 14), (65_534, 14), (65_535, 0)]),
            bytes(&[(0, 0), (255, 0)]),
            variables(&[(1, 0), (287, 0), (0, 4), (288, 14), (65_535, 14)]),
            bytes(&[(0, 0), (2, 0), (3, 4), (6, 4), (7, 4), (8, 4), (255, 4)]),
            operand.clone(),
            operand,
        ];
        check_table(&rule(kind), 0x24, &fields, &[0, 14, 4]);
    }
}

// What comes before, and what stays

/// Records with faulty fields that are cut, out of order or one too many; the last
/// of each list is none of these.
#[test]
fn other_causes_come_before() {
    let items = all_items();
    let threads = [&[0x01, 1, 0], &thread(5, 1).repeat(16)[..]].concat();
    let missing_owner = [0x05, 9, 0, 0, 0, 0];
    for (before, record, number) in [
        (&items[..], &missing_owner[..5], 1),
        (&items, &[0x01, 9, 9], 2),
        (&items, &[0x03, 9], 2),
        (&threads, &thread(0, 255), 3),
        (&items, &missing_owner, 14),
    ] {
        let refusal = model::read(&[before, record].concat()).err();
        assert_eq!(refusal.map(|refusal| refusal.number), Some(number));
    }
    let missing_variable = [0x20, 32, 1, 0, 0, 0, 0];
    for (before, record, number) in [
        (&[][..], &missing_variable[..6], 1),
        (&rule(1), &missing_variable, 2),
        (&rule(1), &[0x23, 9, 32, 1, 9, 0, 0, 0, 0], 2),
        (&[], &missing_variable, 14),
    ] {
        let refusal = table::read(&[before, record].concat()).err();
        assert_eq!(refusal.map(|refusal| refusal.number), Some(number));
    }
}

/// An event whose thread or mode transition is not there is not enabled.
#[test]
fn events_keep_their_number() {
    let model = [&[0x01, 1, 0], &thread(5, 1)[..]].concat();
    for id in [1, 16, 255] {
        let start = [0x04, id, 1, 0, 0, 0];
        let others = [1, 2, 3, 5, 6, 7, 8, 9, 10].map(|kind| [kind, id]);
        let script = [&start[..], &others.concat()].concat();
        let answers = simulation(&model, &script).expect("model and table agree");
        let numbers: Vec<u8> = answers.iter().map(|answer| answer.number).collect();
        assert_eq!(numbers, [10; 10]);
    }
    let answers = simulation(&model, &[0x08, 0]).expect("model and table agree");
    assert_eq!(answers[0].number, 10);
}
