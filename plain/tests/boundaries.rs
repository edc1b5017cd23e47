//! Both sides of each bound: the last figure that is accepted, the first that
//! is refused, and the orders of records that are allowed.

use plain::model;
use plain::refusal::Refusal;
use plain::table::{self, LONGEST_TABLE};
use plain::translate::translate;

/// Records before the one under test, the record, and the number expected, or
/// 0 where it is accepted.
fn check(
    read: impl Fn(&[u8]) -> Result<(), Refusal>,
    before: &[Vec<u8>],
    record: &[u8],
    number: u8,
) {
    let start = before.concat().len();
    let bytes = [&before.concat()[..], record].concat();
    let wanted = match number {
        0 => Ok(()),
        _ => Err(Refusal {
            number,
            start,
            end: bytes.len(),
        }),
    };
    assert_eq!(read(&bytes), wanted, "{record:02x?} after {before:02x?}");
}

fn check_model(before: &[Vec<u8>], record: &[u8], number: u8) {
    check(
        |bytes| model::read(bytes).map(|_| ()),
        before,
        record,
        number,
    );
}

fn check_table(before: &[Vec<u8>], record: &[u8], number: u8) {
    check(
        |bytes| table::read(bytes).map(|_| ()),
        before,
        record,
        number,
    );
}

// Records of models

fn head(mode_count: u8, initial_mode: u8) -> Vec<u8> {
    vec![0x01, mode_count, initial_mode]
}

fn thread(figures: [u32; 4], mode_mask: u8, critical: u8, state: u8) -> Vec<u8> {
    let mut record = vec![0x02];
    record.extend(figures.iter().flat_map(|figure| figure.to_le_bytes()));
    record.extend([mode_mask, critical, state]);
    record
}

fn small_thread() -> Vec<u8> {
    thread([5, 4, 1, 5], 1, 0, 0)
}

/// An input port with a written start.
fn started_port(owner: u8, start: i32) -> Vec<u8> {
    [&[0x0B, owner][..], &start.to_le_bytes()].concat()
}

fn local(owner: u8) -> Vec<u8> {
    vec![0x05, owner, 0, 0, 0, 0]
}

fn operand(tag: u8, number: i32) -> Vec<u8> {
    [&[tag][..], &number.to_le_bytes()].concat()
}

fn guard_atom(op: u8, left: [u8; 2], right: (u8, i32)) -> Vec<u8> {
    [&[0x09, op][..], &left, &operand(right.0, right.1)].concat()
}

fn assignment(target: [u8; 2], op: u8, first: (u8, i32), second: (u8, i32)) -> Vec<u8> {
    let operands = [operand(first.0, first.1), operand(second.0, second.1)].concat();
    [&[0x0A][..], &target, &[op], &operands].concat()
}

/// Three modes and two threads, each of which owns an input port, an output
/// port and a local; thread 0 owns those of number 0.
fn items() -> Vec<Vec<u8>> {
    vec![
        head(3, 0),
        small_thread(),
        small_thread(),
        vec![0x03, 0],
        vec![0x03, 1],
        vec![0x04, 0],
        vec![0x04, 1],
        local(0),
        local(1),
    ]
}

/// The same with a behaviour transition of thread 0.
fn items_and_transition() -> Vec<Vec<u8>> {
    [items(), vec![vec![0x08, 0, 0, 0]]].concat()
}

#[test]
fn heads() {
    for (mode_count, initial_mode, number) in [
        (1, 0, 0),
        (8, 7, 0),
        (0, 0, 14),
        (9, 0, 4),
        (1, 1, 14),
        (8, 8, 14),
        (255, 255, 14),
    ] {
        check_model(&[], &head(mode_count, initial_mode), number);
    }
}

#[test]
fn threads() {
    const MOST: u32 = 1_000_000;
    for (figures, number) in [
        ([1, 1, 1, 1], 0),
        ([MOST, MOST, MOST, MOST], 0),
        ([2, 1, 1, 2], 0),
        ([MOST + 1, 1, 1, 1], 15),
        ([u32::MAX, 1, 1, 1], 15),
        ([0, 0, 1, 1], 15),
        ([1, 0, 1, 1], 15),
        ([1, 2, 1, 1], 15),
        ([1, 1, 0, 1], 15),
        ([1, 1, 2, 1], 15),
        ([1, 1, 1, MOST + 1], 15),
        ([1, 1, u32::MAX, u32::MAX], 15),
    ] {
        check_model(&[head(3, 0)], &thread(figures, 1, 0, 0), number);
    }
    for (mode_mask, critical, state, number) in [
        (0, 0, 0, 0),
        (7, 1, 7, 0),
        (8, 0, 0, 4),
        (15, 0, 0, 4),
        (128, 0, 0, 4),
        (1, 2, 0, 4),
        (1, 0, 8, 4),
    ] {
        check_model(
            &[head(3, 0)],
            &thread([1, 1, 1, 1], mode_mask, critical, state),
            number,
        );
    }
    check_model(&[head(8, 0)], &thread([1, 1, 1, 1], 255, 0, 0), 0);
}

#[test]
fn ports_and_locals() {
    let before = [head(1, 0), small_thread(), small_thread()];
    for (owner, number) in [(0, 0), (1, 0), (2, 14), (255, 14)] {
        check_model(&before, &[0x03, owner], number);
        for start in [0, 1, -1, i32::MIN, i32::MAX] {
            check_model(&before, &started_port(owner, start), number);
        }
        check_model(&before, &[0x04, owner], number);
        check_model(&before, &local(owner), number);
    }
}

#[test]
fn connections() {
    for (body, number) in [
        ([0, 0, 0, 7], 0),
        ([1, 1, 1, 0], 0),
        ([1, 0, 1, 1], 0),
        ([2, 0, 0, 1], 4),
        ([0, 2, 0, 1], 14),
        ([0, 0, 2, 1], 14),
        ([0, 0, 0, 8], 4),
    ] {
        check_model(&items(), &[&[0x06][..], &body].concat(), number);
    }
    let connected = [items(), vec![vec![0x06, 0, 0, 1, 1]]].concat();
    check_model(&connected, &[0x06, 1, 0, 0, 1], 0);
    check_model(&connected, &[0x06, 1, 1, 1, 2], 6);
    check_model(&connected, &[0x06, 2, 1, 1, 2], 4);
}

#[test]
fn mode_transitions() {
    for (from, to, number) in [(0, 2, 0), (2, 2, 0), (3, 0, 14), (0, 3, 14), (255, 255, 14)] {
        check_model(&[head(3, 0)], &[0x07, from, to], number);
    }
}

/// Critical threads of mode 0 with the given periods, then a transition.
#[test]
fn hyperperiods() {
    let before = |periods: &[u32], mode_mask| {
        let mut records = vec![head(2, 0)];
        records.extend(
            periods
                .iter()
                .map(|&period| thread([period, 1, 1, 1], mode_mask, 1, 0)),
        );
        records
    };
    // 999,999 and 1,000 have no common factor; 1,000,000 and 1,001 neither.
    check_model(&before(&[999_999, 1_000], 1), &[0x07, 0, 1], 0);
    check_model(&before(&[1_000_000, 1_001], 1), &[0x07, 0, 1], 7);
    check_model(&before(&[1_000_000, 1_001], 1), &[0x07, 1, 0], 0);
    check_model(&before(&[1_000_000, 1_001], 3), &[0x07, 1, 0], 7);
    check_model(&before(&[1_000_000, 1_001], 1), &[0x07, 2, 0], 14);
    // The product of all would pass 64 bits.
    check_model(
        &before(&[999_983, 999_979, 999_961, 999_959], 1),
        &[0x07, 0, 1],
        7,
    );
    let mut threads = before(&[1_000_000], 1);
    threads.push(thread([1_001, 1, 1, 1], 1, 0, 0));
    threads.push(thread([1_001, 1, 1, 1], 2, 1, 0));
    check_model(&threads, &[0x07, 0, 1], 0);
}

#[test]
fn behavior_transitions() {
    for (body, number) in [
        ([1, 7, 7], 0),
        ([0, 0, 0], 0),
        ([2, 0, 0], 14),
        ([0, 8, 0], 4),
        ([0, 0, 8], 4),
    ] {
        check_model(&items(), &[&[0x08][..], &body].concat(), number);
    }
}

/// Operands of atoms and assignments, and the number expected of each.
const OPERANDS: [((u8, i32), u8); 12] = [
    ((0, 0), 0),
    ((0, i32::MIN), 0),
    ((0, i32::MAX), 0),
    ((1, 0), 0),
    ((2, 0), 0),
    ((1, 1), 5),
    ((2, 1), 5),
    ((1, 2), 14),
    ((2, 2), 14),
    ((1, -1), 14),
    ((2, i32::MIN), 14),
    ((3, 0), 4),
];

#[test]
fn guard_atoms() {
    let before = items_and_transition();
    for op in 0..=5 {
        check_model(&before, &guard_atom(op, [1, 0], (0, 0)), 0);
    }
    for (op, left, number) in [
        (6, [1, 0], 4),
        (0, [2, 0], 0),
        (0, [0, 0], 4),
        (0, [3, 0], 4),
        (0, [1, 2], 14),
        (0, [2, 2], 14),
        (0, [1, 1], 5),
        (0, [2, 1], 5),
        (6, [1, 1], 4),
    ] {
        check_model(&before, &guard_atom(op, left, (0, 0)), number);
    }
    for (right, number) in OPERANDS {
        check_model(&before, &guard_atom(0, [1, 0], right), number);
    }
    // A right side that is not there comes before a left side of another thread.
    check_model(&before, &guard_atom(0, [1, 1], (1, 2)), 14);
}

#[test]
fn assignments() {
    let before = items_and_transition();
    for (target, op, number) in [
        ([2, 0], 0, 0),
        ([3, 0], 2, 0),
        ([2, 0], 3, 4),
        ([1, 0], 0, 4),
        ([0, 0], 0, 4),
        ([4, 0], 0, 4),
        ([2, 2], 0, 14),
        ([3, 2], 0, 14),
        ([2, 1], 0, 5),
        ([3, 1], 0, 5),
        ([3, 1], 3, 4),
    ] {
        check_model(&before, &assignment(target, op, (0, 0), (0, 0)), number);
    }
    for (operand, number) in OPERANDS {
        for op in 0..=2 {
            check_model(&before, &assignment([2, 0], op, operand, (0, 0)), number);
            check_model(&before, &assignment([2, 0], op, (0, 0), operand), number);
        }
    }
    let assigned = [before, vec![assignment([2, 0], 0, (0, 0), (0, 0))]].concat();
    check_model(&assigned, &assignment([3, 0], 0, (0, 0), (0, 0)), 0);
    check_model(&assigned, &assignment([2, 0], 1, (2, 0), (0, 0)), 6);
    check_model(&assigned, &assignment([2, 0], 1, (2, 1), (0, 0)), 5);
    let next = [assigned, vec![vec![0x08, 0, 0, 0]]].concat();
    check_model(&next, &assignment([2, 0], 0, (0, 0), (0, 0)), 0);
}

#[test]
fn counts() {
    let start = [
        head(1, 0),
        small_thread(),
        vec![0x03, 0],
        vec![0x04, 0],
        local(0),
    ];
    let many = |before: &[Vec<u8>], record: Vec<u8>, count: usize| {
        let full = [before, &vec![record.clone(); count - 1]].concat();
        check_model(&full, &record, 0);
        check_model(&[full, vec![record.clone()]].concat(), &record, 3);
    };
    many(&start[..1], small_thread(), 16);
    many(&start[..2], vec![0x03, 0], 32);
    many(&start[..2], started_port(0, 1), 32);
    many(&start[..2], vec![0x04, 0], 32);
    many(&start[..2], local(0), 32);
    many(&start, vec![0x07, 0, 0], 16);
    many(&start, vec![0x08, 0, 0, 0], 64);
    let transition = [&start[..], &[vec![0x08, 0, 0, 0]]].concat();
    many(&transition, guard_atom(0, [2, 0], (0, 0)), 4);
}

/// Both kinds of input ports count together, and the 33rd is one too many
/// whatever else is wrong with it.
#[test]
fn counts_of_input_ports() {
    for started in [0, 1, 16, 31, 32] {
        let mut full = vec![started_port(0, 5); started];
        full.resize(32, vec![0x03, 0]);
        let before = |ports: &[Vec<u8>]| [&[head(1, 0), small_thread()], ports].concat();
        for ports in [full.clone(), full.into_iter().rev().collect()] {
            check_model(&before(&ports[..31]), &ports[31], 0);
            for owner in [0, 1] {
                check_model(&before(&ports), &[0x03, owner], 3);
                check_model(&before(&ports), &started_port(owner, 5), 3);
            }
        }
    }
}

#[test]
fn counts_of_connections_and_assignments() {
    let mut before = vec![head(1, 0), small_thread()];
    before.extend(vec![vec![0x03, 0]; 32]);
    before.push(vec![0x04, 0]);
    before.extend(vec![local(0); 5]);
    let mut connected = before.clone();
    for input_port in 0..32 {
        check_model(&connected, &[0x06, 0, 0, input_port, 1], 0);
        connected.push(vec![0x06, 0, 0, input_port, 1]);
    }
    check_model(&connected, &[0x06, 9, 9, 9, 9], 3);
    before.push(vec![0x08, 0, 0, 0]);
    for target in 0..4 {
        check_model(&before, &assignment([2, target], 0, (0, 0), (0, 0)), 0);
        before.push(assignment([2, target], 0, (0, 0), (0, 0)));
    }
    check_model(&before, &assignment([2, 4], 0, (0, 0), (0, 0)), 3);
}

/// The first kind that no model has.
const UNKNOWN: u8 = 0x0C;

/// A good record of each kind, behind all the items that it names. Both kinds of
/// input ports stand in one place, either before the other.
#[test]
fn order_of_model_records() {
    let ports = [vec![0x03, 0], started_port(0, 5)];
    for [port, other_port] in [ports.clone(), [ports[1].clone(), ports[0].clone()]] {
        let records = [
            head(1, 0),
            small_thread(),
            port,
            vec![0x04, 0],
            local(0),
            vec![0x06, 0, 0, 0, 1],
            vec![0x07, 0, 0],
            vec![0x08, 0, 0, 0],
            guard_atom(0, [2, 0], (0, 0)),
            assignment([2, 0], 0, (0, 0), (0, 0)),
        ];
        for last in 0..records.len() {
            let before = &records[..=last];
            for (place, record) in records.iter().enumerate() {
                check_order(before, place, record);
            }
            check_order(before, 2, &other_port);
            check_model(before, &[UNKNOWN, 0], 2);
        }
        for record in &records[1..] {
            check_model(&[], record, 2);
        }
    }
}

/// A record that stands in a place of that list, after its first records; then
/// the same with its end cut off.
fn check_order(before: &[Vec<u8>], place: usize, record: &[u8]) {
    let last = before.len() - 1;
    let allowed = match place {
        0 => false,
        8 => last == 7 || last == 8,
        9 => last >= 7,
        _ => place >= last.min(7),
    };
    let bytes = [&before.concat()[..], record].concat();
    let out_of_order = model::read(&bytes).is_err_and(|refusal| refusal.number == 2);
    assert_eq!(out_of_order, !allowed, "{record:02x?} after {before:02x?}");
    for length in 1..record.len() {
        check_model(before, &record[..length], 1);
    }
}

// Records of tables

fn initial_value(variable: u16) -> Vec<u8> {
    [&[0x20][..], &variable.to_le_bytes(), &[0; 4]].concat()
}

fn rule(kind: u8, low: u32, high: u32) -> Vec<u8> {
    [
        &[0x21, kind, 0][..],
        &low.to_le_bytes(),
        &high.to_le_bytes(),
    ]
    .concat()
}

fn atom(op: u8, variable: u16, right: (u8, i32)) -> Vec<u8> {
    [
        &[0x23, op][..],
        &variable.to_le_bytes(),
        &operand(right.0, right.1),
    ]
    .concat()
}

fn update(condition: u16, target: u16, op: u8, first: (u8, i32), second: (u8, i32)) -> Vec<u8> {
    let operands = [operand(first.0, first.1), operand(second.0, second.1)].concat();
    let (condition, target) = (condition.to_le_bytes(), target.to_le_bytes());
    [&[0x24][..], &condition, &[0], &target, &[op], &operands].concat()
}

#[test]
fn initial_values() {
    for (variable, number) in [
        (1, 0),
        (287, 0),
        (6, 0),
        (0, 4),
        (288, 14),
        (256 * 255, 14),
        (65_535, 14),
    ] {
        check_table(&[], &initial_value(variable), number);
    }
    for (variable, number) in [(8, 0), (287, 0), (7, 4), (6, 4)] {
        check_table(&[initial_value(7)], &initial_value(variable), number);
    }
}

#[test]
fn rules() {
    const MOST: u32 = 1_000_000;
    for kind in 1..=10 {
        check_table(&[], &rule(kind, 0, 0), 0);
        check_table(&[], &rule(kind, 0, 1), if kind == 4 { 0 } else { 4 });
    }
    for (kind, low, high, number) in [
        (0, 0, 0, 4),
        (11, 0, 0, 4),
        (255, 0, 0, 4),
        (4, MOST, MOST, 0),
        (4, 0, MOST, 0),
        (4, 1, 0, 4),
        (4, 0, MOST + 1, 4),
        (4, 0, u32::MAX, 4),
        (5, 1, 1, 4),
    ] {
        check_table(&[], &rule(kind, low, high), number);
    }
}

#[test]
fn atoms() {
    for kind in [1, 4] {
        let before = [rule(kind, 0, 0), vec![0x22]];
        for (op, variable, right, number) in [
            (0, 0, (0, 0), 0),
            (5, 287, (1, 287), 0),
            (5, 288, (0, 0), 14),
            (5, 65_535, (0, 0), 14),
            (0, 1, (1, 288), 14),
            (0, 1, (1, -1), 14),
            (0, 1, (2, 0), 4),
            (0, 1, (3, 0), 4),
            (6, 0, (0, 1), 0),
            (7, 0, (0, i32::MAX), 0),
            (6, 0, (0, 0), 4),
            (7, 0, (0, 0), 4),
            (7, 0, (0, -1), 4),
            (6, 0, (1, 1), 4),
            (7, 0, (2, 1), 4),
            (8, 0, (0, 1), 4),
        ] {
            check_table(&before, &atom(op, variable, right), number);
        }
    }
}

#[test]
fn updates() {
    const NONE: u16 = 65_535;
    for kind in 1..=10 {
        let before = [rule(kind, 0, 0)];
        let chosen_length = if kind == 4 { 0 } else { 4 };
        for (condition, target, op, first, second, number) in [
            (NONE, 1, 0, (0, 0), (0, 0), 0),
            (0, 287, 2, (1, 0), (1, 287), 0),
            (287, 1, 0, (0, 0), (0, 0), 0),
            (288, 1, 0, (0, 0), (0, 0), 14),
            (65_534, 1, 0, (0, 0), (0, 0), 14),
            (NONE, 0, 0, (0, 0), (0, 0), 4),
            (NONE, 288, 0, (0, 0), (0, 0), 14),
            (NONE, 65_535, 0, (0, 0), (0, 0), 14),
            (NONE, 1, 3, (0, 0), (0, 0), 4),
            (NONE, 1, 0, (1, 288), (0, 0), 14),
            (NONE, 1, 0, (0, 0), (1, -1), 14),
            (NONE, 1, 0, (3, 0), (0, 0), 4),
            (NONE, 1, 0, (0, 0), (3, 0), 4),
            (NONE, 1, 0, (2, 0), (0, 0), chosen_length),
            (NONE, 1, 0, (0, 0), (2, -9), chosen_length),
        ] {
            check_table(
                &before,
                &update(condition, target, op, first, second),
                number,
            );
        }
    }
}

#[test]
fn order_of_table_records() {
    let plain_atom = || atom(0, 1, (0, 0));
    let plain_update = || update(65_535, 1, 0, (0, 0), (0, 0));
    // Records before; then which of the kinds 20 to 24 may follow.
    let cases = [
        (vec![], [true, true, false, false, false]),
        (vec![initial_value(1)], [true, true, false, false, false]),
        (vec![rule(1, 0, 0)], [false, true, true, false, true]),
        (
            vec![rule(1, 0, 0), vec![0x22]],
            [false, true, true, true, true],
        ),
        (
            vec![rule(1, 0, 0), vec![0x22], plain_atom()],
            [false, true, true, true, true],
        ),
        (
            vec![rule(1, 0, 0), plain_update()],
            [false, true, false, false, true],
        ),
    ];
    let records = [
        initial_value(2),
        rule(1, 0, 0),
        vec![0x22],
        plain_atom(),
        plain_update(),
    ];
    for (before, allowed) in &cases {
        for (record, allowed) in records.iter().zip(allowed) {
            check_table(before, record, if *allowed { 0 } else { 2 });
            if record.len() > 1 {
                check_table(before, &record[..record.len() - 1], 1);
            }
        }
        check_table(before, &[0x25, 0], 2);
        check_table(before, &[0x0A, 0], 2);
    }
}

// Lengths

#[test]
fn a_table_too_long_is_refused_whole() {
    // An unknown kind would be refused as 2, were any record read.
    let bytes = vec![0xFF; LONGEST_TABLE + 1];
    let whole = Refusal {
        number: 3,
        start: 0,
        end: LONGEST_TABLE + 1,
    };
    assert_eq!(table::read(&bytes), Err(whole));
}

#[test]
fn a_table_of_the_greatest_length_is_read() {
    let mut bytes = rule(1, 0, 0);
    bytes.resize(LONGEST_TABLE, 0x22);
    let table = table::read(&bytes).expect("an accepted table");
    assert_eq!(table.rules[0].clauses.len(), LONGEST_TABLE - 11);
}

#[test]
fn room_for_the_table() {
    let model = [head(1, 0), small_thread()].concat();
    let table = translate(&model, LONGEST_TABLE).expect("room enough");
    assert_eq!(translate(&model, table.len()), Ok(table.clone()));
    let end = model.len();
    let refusal = Refusal {
        number: 8,
        start: end,
        end,
    };
    assert_eq!(translate(&model, table.len() - 1), Err(refusal));
    assert_eq!(translate(&model, 0), Err(refusal));
}

#[test]
fn a_refused_model_is_refused_before_the_room_is_looked_at() {
    let refusal = Refusal {
        number: 4,
        start: 0,
        end: 3,
    };
    assert_eq!(translate(&head(9, 0), 0), Err(refusal));
}
