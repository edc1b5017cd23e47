//! Inputs with something wrong: records moved, doubled or dropped, fields at
//! the ends of their ranges, bytes changed, added or cut off.

use std::ops::Range;

use crate::random::Random;
use crate::records::{fields, tags, Record};

/// A few records or bytes changed, the records put together.
pub fn damage_records(random: &mut Random, mut records: Vec<Record>) -> Vec<u8> {
    if !records.is_empty() {
        let at = pick(random, &records);
        match random.below(10) {
            0..=5 => change_fields(random, &mut records, at),
            6 | 7 => double(random, &mut records, at),
            _ => move_record(random, &mut records, at),
        }
    }
    let mut bytes = records.concat();
    if random.chance(15) {
        damage_bytes(random, &mut bytes);
    }
    bytes
}

/// A record of any kind that there is, rare kinds as often as frequent ones.
fn pick(random: &mut Random, records: &[Record]) -> usize {
    let mut kinds: Vec<u8> = records.iter().map(|record| record[0]).collect();
    kinds.sort_unstable();
    kinds.dedup();
    let kind = random.one_of(&kinds);
    let of_kind: Vec<usize> = (0..records.len())
        .filter(|&at| records[at][0] == kind)
        .collect();
    random.one_of(&of_kind)
}

/// The record stands twice; the second may have something else wrong too.
fn double(random: &mut Random, records: &mut Vec<Record>, at: usize) {
    records.insert(at + 1, records[at].clone());
    if random.chance(50) {
        change_fields(random, records, at + 1);
    }
}

/// The record goes elsewhere, is dropped, or is of another kind.
fn move_record(random: &mut Random, records: &mut Vec<Record>, at: usize) {
    let other = random.below(records.len());
    match random.below(4) {
        0 => records.insert(other, records[at].clone()),
        1 => records.swap(at, other),
        2 => drop(records.remove(at)),
        _ => {
            let kinds = [
                0x00, 0x01, 0x03, 0x08, 0x0A, 0x0B, 0x0B, 0x0C, 0x20, 0x22, 0x25,
            ];
            records[at][0] = random.one_of(&kinds);
        }
    }
}

/// One field or several are wrong, so that several causes can meet.
fn change_fields(random: &mut Random, records: &mut [Record], at: usize) {
    for _ in 0..random.one_of(&[1, 1, 1, 2, 3]) {
        match random.below(10) {
            0..=2 => borrow_field(random, records, at),
            3..=5 => change_pair(random, &mut records[at]),
            _ => change_field(random, &mut records[at]),
        }
    }
}

/// Fields of which one decides how another is taken: a head's modes, a tag and the
/// number behind it, and the op that may ask for a tag.
fn change_pair(random: &mut Random, record: &mut Record) {
    let kind = record[0];
    let pair = match tags(kind) {
        [] => (kind == 0x01).then_some((1, 1)),
        tags => Some(random.one_of(tags)),
    };
    let Some((at, width)) = pair.filter(|(at, width)| at + width < record.len()) else {
        return change_field(random, record);
    };
    let (first, second): (u8, i32) = if kind == 0x01 {
        random.one_of(&[(0, 0), (0, 5), (8, 8), (9, 7), (9, 8), (9, 9), (255, 254)])
    } else {
        let numbers = [0, 1, 32, 287, 288, 999, -1, i32::MIN];
        let tag = random.one_of(&[0, 1, 1, 1, 2, 2, 3, 255]);
        (tag, random.one_of(&numbers))
    };
    record[at] = first;
    record[at + 1..=at + width].copy_from_slice(&second.to_le_bytes()[..width]);
    if kind == 0x23 && random.chance(60) {
        record[1] = random.one_of(&[6, 6, 7, 7, 8, 255]);
    }
}

/// A field takes the value that another record of the kind has there, which is
/// right by itself but may not fit the rest.
fn borrow_field(random: &mut Random, records: &mut [Record], at: usize) {
    let alike: Vec<usize> = (0..records.len())
        .filter(|&other| records[other][0] == records[at][0])
        .collect();
    let other = random.one_of(&alike);
    if let Some(field) = any_field(random, &records[at]) {
        if let Some(value) = records[other].get(field.clone()) {
            let value = value.to_vec();
            records[at][field].copy_from_slice(&value);
        }
    }
}

/// A field takes a value at or near some end of its range, or one more or less.
pub fn change_field(random: &mut Random, record: &mut Record) {
    let Some(field) = any_field(random, record) else {
        return;
    };
    let mut bytes = [0; 4];
    bytes[..field.len()].copy_from_slice(&record[field.clone()]);
    let present = i32::from_le_bytes(bytes);
    let value = match (random.below(3), field.len()) {
        (0, _) => present.wrapping_add(random.one_of(&[-1, 1])),
        (_, 1) => random.one_of(&[0, 1, 2, 3, 4, 6, 7, 8, 9, 11, 16, 32, 128, 255]),
        (_, 2) => random.one_of(&[0, 1, 16, 287, 288, 512, 65_534, 65_535]),
        _ => random.one_of(&[
            0,
            1,
            -1,
            32,
            256,
            288,
            1_000_000,
            1_000_001,
            i32::MAX,
            i32::MIN,
        ]),
    };
    let width = field.len();
    record[field].copy_from_slice(&value.to_le_bytes()[..width]);
}

/// Where some field of a record lies; none where the record has none or is cut.
fn any_field(random: &mut Random, record: &Record) -> Option<Range<usize>> {
    let widths = fields(record[0]);
    if widths.is_empty() {
        return None;
    }
    let number = random.below(widths.len());
    let start = 1 + widths[..number].iter().sum::<usize>();
    let end = start + widths[number];
    (end <= record.len()).then_some(start..end)
}

/// A byte changed, added or dropped, or the end cut off.
pub fn damage_bytes(random: &mut Random, bytes: &mut Vec<u8>) {
    if bytes.is_empty() {
        return bytes.push(random.byte());
    }
    let at = random.below(bytes.len());
    match random.below(8) {
        0 => bytes.insert(at, random.byte() % 48),
        1 => drop(bytes.remove(at)),
        2 => bytes.truncate(at),
        3 => bytes[at] ^= 1 << random.below(8),
        _ => bytes[at] = random.one_of(&[0, 1, 2, 3, 4, 5, 8, 11, 12, 16, 36, 255]),
    }
}
