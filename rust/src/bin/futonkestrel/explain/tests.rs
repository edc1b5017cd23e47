//! The faults that are told, held against the library's refusals: examples with one
//! byte changed, and with several bytes of one record changed.

use std::collections::BTreeSet;

use futonkestrel::refusals::MEANINGS;
use futonkestrel::{read_model, read_table, translate_to_vec};

use super::*;
use crate::format::TABLE;
use crate::pack::pack;

const LESSON: &[u8] = include_bytes!("../../../../../examples/lesson/model.bin");
const M: &[u8] = include_bytes!("../../../../../examples/m/model.bin");

/// A table with all that tables may have.
const TEXT: &str = "\
table
start Mode := 1
start Cpu := none
rule 0 START thread 0 length 0..9
if (State(0) = waiting_execution or Due(0) != Now or Now mod 5 = 0 or Now mod 1 != 0)
and false
then End(0) := Now + length
then Input(0) := Buffer(0) if Flag(0) = 1
rule 1 DISPATCH thread 1
if (State(1) >= 1 or Now mod 7 = 0)
then Due(1) := Now - Cpu
then Local(31) := 3 if Now = 2
";

/// Bytes at the edges of the fields' ranges.
const EDGES: [u8; 17] = [0, 1, 2, 3, 4, 5, 6, 7, 8, 9, 10, 11, 16, 32, 127, 128, 255];

/// The first refusal, in the order of causes, that the fields of a record give by
/// what is said of them.
fn told(format: &Format, records: &[Record], at: usize) -> Option<u32> {
    let (before, record) = (&records[..at], &records[at]);
    let (kind, values) = record.whole()?;
    let looking = Looking {
        format,
        before,
        record,
    };
    let faults = (0..values.len()).filter_map(|at| looking.broken(kind, at, values));
    let numbers: BTreeSet<u32> = faults.map(|fault| fault.number).collect();
    let mut causes = MEANINGS.iter().map(|meaning| meaning.number);
    causes.find(|number| numbers.contains(number))
}

/// Nothing is told of accepted records from some place on, and of a refused one what
/// gives its number, which is the result.
fn agrees(format: &Format, bytes: &[u8], from: usize) -> u32 {
    let is_model = format.name == MODEL.name;
    let read = if is_model { read_model } else { read_table };
    let refusal = read(bytes).err();
    let records = records(format, bytes);
    let accepted = refusal.map_or(bytes.len(), |refusal| refusal.start);
    let up_to = |place: usize| records.partition_point(|record| record.end() <= place);
    let good = up_to(accepted);
    for at in up_to(from)..good {
        let told = told(format, &records, at);
        assert_eq!(told, None, "record {at} of {bytes:02x?}");
    }
    let Some(refusal) = refusal else {
        return 0;
    };
    let lines = explain(format, bytes, &refusal);
    let faults = lines
        .iter()
        .filter_map(|line| line.strip_prefix("at fault: "));
    let sorts: BTreeSet<u32> = faults.map(sort).collect();
    assert!(!sorts.is_empty(), "{lines:?}");
    match refusal.number {
        // They come before the fields are looked at.
        1..=3 => {}
        5..=7 => assert_eq!(told(format, &records, good), None, "{lines:?}"),
        number => {
            assert_eq!(told(format, &records, good), Some(number), "{lines:?}");
            assert_eq!(sorts, BTreeSet::from([number]), "{lines:?}");
        }
    }
    refusal.number
}

/// The refusal of a fault by its words.
fn sort(fault: &str) -> u32 {
    let begins = |words: &[&str]| words.iter().any(|word| fault.starts_with(word));
    let names_nothing = [", but there ", ", but the variables are "];
    if begins(&["period ", "deadline ", "min ", "max "]) {
        FAULTY_TIME
    } else if !begins(&["modes "]) && names_nothing.iter().any(|words| fault.contains(words)) {
        NAMES_NOTHING
    } else {
        OUTSIDE
    }
}

/// The numbers that are met where one byte is changed to one of these.
fn with_a_byte_changed(format: &Format, bytes: &[u8], edges: &[u8]) -> BTreeSet<u32> {
    let mut met = BTreeSet::from([agrees(format, bytes, 0)]);
    for at in 0..bytes.len() {
        for edge in edges {
            let mut changed = bytes.to_vec();
            changed[at] = *edge;
            met.insert(agrees(format, &changed, at));
        }
    }
    met
}

/// The same where several bytes of a record's body are, chosen at random.
fn with_a_record_changed(format: &Format, bytes: &[u8]) -> BTreeSet<u32> {
    let records = records(format, bytes);
    let mut random: u64 = 1;
    let mut below = |bound: usize| {
        random = random.wrapping_mul(6_364_136_223_846_793_005);
        random = random.wrapping_add(1);
        (random >> 33) as usize % bound
    };
    let mut met = BTreeSet::new();
    for _ in 0..5_000 {
        let record = &records[below(records.len())];
        let mut changed = bytes.to_vec();
        let body = &mut changed[record.start + 1..record.end()];
        for _ in 0..2 + below(5) {
            if !body.is_empty() {
                body[below(body.len())] = EDGES[below(EDGES.len())];
            }
        }
        met.insert(agrees(format, &changed, record.start));
    }
    met
}

fn table() -> Vec<u8> {
    let table = pack(TEXT).expect("it is understood");
    assert_eq!(read_table(&table), Ok(()));
    table
}

#[test]
fn one_byte_of_a_model() {
    let met = with_a_byte_changed(&MODEL, M, &EDGES);
    assert_eq!(met, BTreeSet::from([0, 2, 4, 14, 15]));
    let met = with_a_byte_changed(&MODEL, LESSON, &EDGES);
    assert_eq!(met, BTreeSet::from([0, 1, 2, 4, 5, 6, 14, 15]));
}

#[test]
fn one_byte_of_a_table() {
    let of_m = translate_to_vec(M).expect("M is accepted");
    let met = with_a_byte_changed(&TABLE, &of_m, &[0, 2, 7, 255]);
    assert_eq!(met, BTreeSet::from([0, 2, 4, 14]));
    let met = with_a_byte_changed(&TABLE, &table(), &EDGES);
    assert_eq!(met, BTreeSet::from([0, 2, 4, 14]));
}

#[test]
fn several_bytes_of_a_record() {
    let met = with_a_record_changed(&MODEL, LESSON);
    assert_eq!(met, BTreeSet::from([0, 4, 5, 6, 14, 15]));
    let met = with_a_record_changed(&TABLE, &table());
    assert_eq!(met, BTreeSet::from([0, 4, 14]));
}
