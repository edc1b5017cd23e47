//! Random tables: made ones with some damage, and wild ones in which several
//! rules are enabled at once or update one variable twice.

use plain::script::START;

use crate::damage::damage_records;
use crate::random::Random;
use crate::records::{event_body, operand, split, table_body, Record};
use crate::scripts::{any_event, broken_event, start, tick};

/// A table and a script for it. `made` and `script` belong to the case's model.
pub fn table_and_script(
    random: &mut Random,
    made: Option<&[u8]>,
    script: &[u8],
) -> (Vec<u8>, Vec<u8>) {
    match (random.weighted(&[900, 400, 660, 39, 1]), made) {
        (0, _) | (2, None) => wild(random),
        (1, _) => {
            let (table, script) = wild(random);
            (damage_records(random, split(&table, table_body)), script)
        }
        (2, Some(made)) => {
            let table = damage_records(random, split(made, table_body));
            // The first events will do; the model's own run has them all.
            let events = split(script, event_body);
            (table, events[..events.len().min(16)].concat())
        }
        (3, _) => (any_bytes(random), any_script(random, &[])),
        _ => (long(random), tick(1)),
    }
}

/// The variables that a wild table writes; it reads variable 0 too.
const VARIABLES: [u16; 18] = [
    1, 2, 3, 5, 6, 15, 16, 32, 48, 64, 80, 96, 112, 128, 191, 224, 256, 287,
];

/// What a wild table is drawn from: few of everything, so that rules meet.
struct Pool {
    variables: Vec<u16>,
    kinds: Vec<u8>,
    ids: Vec<u8>,
    /// The most clauses of a rule.
    clauses: usize,
    updates: usize,
}

fn pool(random: &mut Random) -> Pool {
    let mut variables: Vec<u16> = (0..random.within(1, 4))
        .map(|_| random.one_of(&VARIABLES))
        .collect();
    variables.sort_unstable();
    variables.dedup();
    Pool {
        variables,
        kinds: (0..random.within(1, 4))
            .map(|_| random.within(0x01, 0x0A) as u8)
            .collect(),
        ids: vec![0, random.one_of(&[0, 1, 16, 255])],
        clauses: random.within(0, 3),
        updates: random.within(0, 4),
    }
}

/// A table of rules over a few variables, and a script of their events.
fn wild(random: &mut Random) -> (Vec<u8>, Vec<u8>) {
    let pool = pool(random);
    let mut records = Vec::new();
    for &variable in &pool.variables {
        if random.chance(60) {
            let value = random.value().to_le_bytes();
            records.push([&[0x20], &variable.to_le_bytes()[..], &value].concat());
        }
    }
    let mut events = Vec::new();
    for _ in 0..random.within(1, 6) {
        events.push(add_rule(random, &pool, &mut records));
    }
    let script = any_script(random, &events);
    (records.concat(), script)
}

/// A rule with its clauses and updates. The result is its kind and id.
fn add_rule(random: &mut Random, pool: &Pool, records: &mut Vec<Record>) -> (u8, u8) {
    let (kind, id) = (random.one_of(&pool.kinds), random.one_of(&pool.ids));
    let (mut low, mut high) = (0u32, 0u32);
    if kind == START {
        low = random.within(0, 3) as u32;
        high = low + random.one_of(&[0, 0, 1, 1, 3, 3, 999_997, 999_998]);
    }
    records.push(
        [
            &[0x21, kind, id],
            &low.to_le_bytes()[..],
            &high.to_le_bytes(),
        ]
        .concat(),
    );
    for _ in 0..random.within(0, pool.clauses) {
        records.push(vec![0x22]);
        for _ in 0..random.one_of(&[0, 1, 1, 1, 1, 1, 2, 2, 3]) {
            records.push(atom(random, pool));
        }
    }
    for _ in 0..random.within(0, pool.updates) {
        records.push(update(random, pool, kind == START));
    }
    (kind, id)
}

/// Some ask for multiples, mostly of the clock.
fn atom(random: &mut Random, pool: &Pool) -> Record {
    let multiple = random.chance(20);
    let variable = if random.chance(if multiple { 60 } else { 15 }) {
        0
    } else {
        random.one_of(&pool.variables)
    };
    let (op, right) = if multiple {
        let divisor = random.one_of(&[1, 2, 2, 3, 4, 7, i32::MAX]);
        (random.within(6, 7), operand(0, divisor))
    } else {
        (random.below(6), any_operand(random, pool, false))
    };
    [&[0x23, op as u8], &variable.to_le_bytes()[..], &right].concat()
}

fn update(random: &mut Random, pool: &Pool, of_start: bool) -> Record {
    let (condition, wanted) = match random.below(10) {
        0..=6 => (u16::MAX, random.one_of(&[0, 0, 7])),
        7 => (0, random.below(3) as u8),
        _ => (
            random.one_of(&pool.variables),
            random.one_of(&[0, 1, 2, 3, 255]),
        ),
    };
    let target = random.one_of(&pool.variables);
    let (op, operands) = if random.chance(if of_start { 40 } else { 15 }) {
        near_an_end(random, of_start)
    } else {
        let mut operand = || any_operand(random, pool, of_start);
        let operands = [operand(), operand()];
        (random.below(3) as u8, operands)
    };
    let mut record = vec![0x24];
    record.extend(condition.to_le_bytes());
    record.push(wanted);
    record.extend(target.to_le_bytes());
    record.push(op);
    record.extend(operands.concat());
    record
}

/// A sum or difference that comes near an end of the range, just to it or past it; of
/// START mostly by the chosen length.
fn near_an_end(random: &mut Random, of_start: bool) -> (u8, [Vec<u8>; 2]) {
    let short = random.below(4) as i32;
    let (op, near) = random.one_of(&[(1, i32::MAX - short), (2, i32::MIN + short)]);
    let little = match of_start && random.chance(70) {
        true => operand(2, random.value()),
        false => operand(0, random.within(0, 8) as i32 - 4),
    };
    let mut operands = [operand(0, near), little];
    if random.chance(30) {
        operands.reverse();
    }
    (op, operands)
}

fn any_operand(random: &mut Random, pool: &Pool, of_start: bool) -> Vec<u8> {
    match random.below(10) {
        0..=4 => operand(0, random.value()),
        5 => operand(1, 0),
        6 if of_start => operand(2, random.value()),
        _ => operand(1, random.one_of(&pool.variables).into()),
    }
}

/// Mostly events that have a rule.
fn any_script(random: &mut Random, events: &[(u8, u8)]) -> Vec<u8> {
    let mut script = Vec::new();
    for _ in 0..random.within(0, 14) {
        script.extend(match random.below(10) {
            0..=5 if !events.is_empty() => {
                let (kind, id) = random.one_of(events);
                event(random, kind, id)
            }
            9 => any_event(random),
            _ => tick(random.one_of(&[1, 1, 1, 2, 3, 5, 12, 200])),
        });
    }
    if random.chance(10) {
        script.extend(broken_event(random));
    }
    script
}

/// An event of a kind and id, START with a length that may fit a wild rule.
pub fn event(random: &mut Random, kind: u8, id: u8) -> Vec<u8> {
    if kind == START {
        start(id, random.one_of(&[0, 1, 2, 2, 3, 3, 4, 5, 1_000_000]))
    } else {
        vec![kind, id]
    }
}

/// Few bytes, most of them kinds of records.
fn any_bytes(random: &mut Random) -> Vec<u8> {
    (0..random.below(30))
        .map(|_| random.one_of(&[0x20, 0x21, 0x22, 0x22, 0x23, 0x24, 0, 1, 2, 4]))
        .collect()
}

/// One rule of empty clauses, as long as a table may be or a little longer.
fn long(random: &mut Random) -> Vec<u8> {
    let mut table = vec![0x21, 0x01, 0, 0, 0, 0, 0, 0, 0, 0, 0];
    table.resize(random.within(1_000_000, 1_000_004), 0x22);
    table
}
