//! The size of a model's table, told beforehand: that of the table which is then
//! made, or nothing where the model is refused.

#[path = "models/longest.rs"]
mod longest;
mod models;

use std::fs;
use std::path::Path;

use longest::longest_model;
use models::{damage, random_model, Random};
use plain::size::{table_size, TableSize};
use plain::table::{self, Rule, LONGEST_TABLE};
use plain::translate::translate;

/// The longest table that a model can have.
const LONGEST_MADE: usize = 174_485;

/// The bytes of a table, and its records as they are read back.
fn counted(bytes: &[u8]) -> TableSize {
    let table = table::read(bytes).expect("a made table is accepted");
    let sum = |count: fn(&Rule) -> usize| table.rules.iter().map(count).sum();
    TableSize {
        bytes: bytes.len(),
        rules: table.rules.len(),
        clauses: sum(|rule| rule.clauses.len()),
        atoms: sum(|rule| rule.clauses.iter().map(Vec::len).sum()),
        updates: sum(|rule| rule.updates.len()),
    }
}

/// Asserts that what is told of a model fits its translation. The result is the
/// number of its refusal, 0 for none.
fn told_rightly(model: &[u8]) -> usize {
    let told = table_size(model);
    let wanted = match translate(model, LONGEST_TABLE) {
        Ok(table) => (None, counted(&table)),
        Err(refusal) => (Some(refusal), TableSize::default()),
    };
    assert_eq!(told, wanted, "{model:02x?}");
    told.0.map_or(0, |refusal| usize::from(refusal.number))
}

#[test]
fn examples() {
    let folder = Path::new(env!("CARGO_MANIFEST_DIR")).join("../examples");
    for name in ["lesson", "m"] {
        let model = fs::read(folder.join(name).join("model.bin")).expect("the example");
        assert_eq!(told_rightly(&model), 0, "{name}");
    }
}

#[test]
fn random_models() {
    let mut random = Random(0x9E6C_63D0_876A_3F05);
    for _ in 0..3000 {
        assert_eq!(told_rightly(&random_model(&mut random)), 0);
    }
}

#[test]
fn damaged_models() {
    let mut random = Random(0xC2B2_AE3D_27D4_EB4F);
    let mut counts = [0; 16];
    for _ in 0..4000 {
        let mut model = random_model(&mut random);
        damage(&mut random, &mut model);
        counts[told_rightly(&model)] += 1;
    }
    assert!(counts[0] > 200, "{counts:?}");
    for number in [1, 2, 4, 5, 6, 14, 15] {
        assert!(counts[number] > 10, "{counts:?}");
    }
}

fn thread(period: u32, critical: u8) -> Vec<u8> {
    let figures = [period, 4, 1, 5].map(u32::to_le_bytes).concat();
    [&[0x02], &figures[..], &[1, critical, 0]].concat()
}

#[test]
fn refusals_that_damage_seldom_makes() {
    let too_many = [vec![0x01, 1, 0], thread(5, 0).repeat(17)].concat();
    assert_eq!(told_rightly(&too_many), 3);
    let threads = [thread(999_983, 1), thread(1_000_000, 1)].concat();
    let hyperperiod = [&[0x01, 1, 0], &threads[..], &[0x07, 0, 0]].concat();
    assert_eq!(told_rightly(&hyperperiod), 7);
}

/// Bytes, rules, clauses, atoms and updates.
type Counts = [usize; 5];

fn counts(model: &[u8]) -> Counts {
    let (refusal, size) = table_size(model);
    assert_eq!(refusal, None, "{model:02x?}");
    size.told()
}

/// Records of a model, and what each adds to the table, counted by hand in the
/// documents.
const ITEMS: [(&[u8], Counts); 19] = [
    // Mode, Pending and Cpu start otherwise than at 0.
    (&[0x01, 2, 1], [21, 0, 0, 0, 0]),
    // Not in mode 1, and stopped when it leaves; then critical, with Active and a
    // behaviour state besides.
    (
        &[
            0x02, 5, 0, 0, 0, 4, 0, 0, 0, 1, 0, 0, 0, 5, 0, 0, 0, 1, 0, 0,
        ],
        [1_044, 14, 38, 38, 30],
    ),
    (
        &[
            0x02, 5, 0, 0, 0, 4, 0, 0, 0, 1, 0, 0, 0, 5, 0, 0, 0, 3, 1, 7,
        ],
        [880, 11, 32, 32, 25],
    ),
    (&[0x03, 0], [17, 0, 0, 0, 1]),
    (&[0x03, 1], [17, 0, 0, 0, 1]),
    // A written start of 0 is none; of another the port and its buffer have one.
    (&[0x0B, 0, 0, 0, 0, 0], [17, 0, 0, 0, 1]),
    (&[0x0B, 0, 0, 0, 0, 128], [31, 0, 0, 0, 1]),
    (&[0x04, 0], [0, 0, 0, 0, 0]),
    (&[0x05, 0, 0, 0, 0, 0], [0, 0, 0, 0, 0]),
    (&[0x05, 0, 0, 0, 0, 128], [7, 0, 0, 0, 0]),
    // An immediate one that is not live at the start, a delayed one that is.
    (&[0x06, 0, 0, 0, 1], [117, 0, 2, 9, 2]),
    (&[0x06, 1, 0, 1, 2], [78, 0, 1, 4, 2]),
    (&[0x07, 0, 1], [374, 4, 10, 11, 13]),
    // The source of the immediate connection has one more rule to send.
    (&[0x08, 0, 3, 4], [136, 1, 4, 4, 5]),
    (&[0x09, 0, 2, 0, 0, 1, 0, 0, 0], [19, 0, 1, 2, 0]),
    (
        &[0x0A, 2, 0, 0, 0, 1, 0, 0, 0, 0, 0, 0, 0, 0],
        [17, 0, 0, 0, 1],
    ),
    // An earlier one from its state; none from it; none of its thread.
    (&[0x08, 0, 3, 3], [146, 1, 5, 5, 5]),
    (&[0x08, 0, 4, 3], [136, 1, 4, 4, 5]),
    (&[0x08, 1, 3, 3], [119, 1, 4, 4, 4]),
];

#[test]
fn what_each_item_brings() {
    let mut model = Vec::new();
    let mut before = [0; 5];
    for (record, added) in ITEMS {
        model.extend(record);
        let after = counts(&model);
        let found: Counts = std::array::from_fn(|count| after[count] - before[count]);
        assert_eq!(found, added, "{record:02x?}");
        before = after;
    }
    assert_eq!(told_rightly(&model), 0);
}

/// Where the first atom of that model stands.
const FIRST_ATOM: usize = 983;

#[test]
fn the_longest_table() {
    let model = longest_model();
    assert_eq!(counts(&model), [LONGEST_MADE, 352, 3_360, 9_904, 4_528]);
    assert_eq!(told_rightly(&model), 0);
}

#[test]
fn no_other_is_longer() {
    let mut random = Random(0x1656_67B1_9E37_79F9);
    let (mut accepted, mut shorter) = (0, 0);
    for _ in 0..600 {
        let mut model = longest_model();
        // Most of its bytes are atoms and assignments, whose content has no say.
        let behind = model.split_off(FIRST_ATOM);
        damage(&mut random, &mut model);
        model.extend(behind);
        if told_rightly(&model) == 0 {
            let [bytes, ..] = counts(&model);
            assert!(bytes <= LONGEST_MADE, "{bytes}");
            accepted += 1;
            shorter += usize::from(bytes < LONGEST_MADE);
        }
    }
    assert!(accepted > 100 && shorter > 10, "{accepted}, {shorter}");
}
