//! Inputs of all kinds with one thing changed, every way in turn: each byte,
//! each wider field at the ends of ranges, each record dropped, doubled or
//! moved, each cut; and with any two fields of a record changed. Library and
//! plain model read all of them alike.

use harness::answers::{Listed, Said, Size, SIZE_PLACES};
use harness::compare::Check;
use harness::found::Indexes;
use harness::records::{fields, model_body, split, table_body, Record};
use harness::starts::{Question, StartTold, START_PLACES};
use harness::stepped::StateWalk;
use harness::tally::NUMBERS;
use harness::{compare, found, stepped, wanted};

/// A model with all kinds of records, small enough to change it everywhere.
fn model() -> Vec<u8> {
    let thread = |period: u32, mask: u8, critical: u8| {
        let mut record = vec![0x02];
        for figure in [period, 4, 1, 2] {
            record.extend(figure.to_le_bytes());
        }
        record.extend([mask, critical, 0]);
        record
    };
    let records: [&[u8]; 19] = [
        &[0x01, 2, 0],
        &thread(4, 3, 1),
        // With 1,000,000 the least common multiple is just too great.
        &thread(1_001, 1, 1),
        // It leaves, and is stopped.
        &thread(8, 1, 0),
        &[0x03, 1],
        &[0x0B, 0, 0xFE, 0xFF, 0xFF, 0xFF],
        &[0x03, 1],
        &[0x04, 0],
        &[0x04, 1],
        &[0x05, 0, 5, 0, 0, 0],
        &[0x05, 1, 0xFF, 0xFF, 0xFF, 0xFF],
        &[0x06, 0, 0, 0, 3],
        &[0x06, 1, 1, 1, 1],
        &[0x07, 0, 1],
        &[0x08, 0, 0, 1],
        &[0x09, 2, 1, 1, 2, 0, 0, 0, 0],
        &[0x0A, 3, 0, 1, 2, 0, 0, 0, 0, 0, 7, 0, 0, 0],
        &[0x0A, 2, 0, 0, 1, 1, 0, 0, 0, 0, 0, 0, 0, 0],
        &[0x08, 1, 7, 7],
    ];
    records.concat()
}

/// A table with all kinds of records and operands.
fn table() -> Vec<u8> {
    let records: [&[u8]; 11] = [
        &[0x20, 1, 0, 5, 0, 0, 0],
        &[0x20, 31, 1, 0, 0, 0, 128],
        &[0x21, 0x04, 0, 1, 0, 0, 0, 9, 0, 0, 0],
        &[0x22],
        &[0x23, 0, 1, 0, 0, 5, 0, 0, 0],
        &[0x23, 6, 0, 0, 0, 4, 0, 0, 0],
        &[0x22],
        &[0x24, 255, 255, 0, 2, 0, 1, 1, 0, 0, 0, 0, 2, 0, 0, 0, 0],
        &[0x24, 1, 0, 5, 31, 1, 2, 0, 1, 0, 0, 0, 1, 31, 1, 0, 0],
        &[0x21, 0x0A, 255, 0, 0, 0, 0, 0, 0, 0, 0],
        &[0x24, 1, 0, 5, 31, 1, 2, 0, 1, 0, 0, 0, 1, 31, 1, 0, 0],
    ];
    records.concat()
}

/// Events of all kinds, a stop of the third thread among them.
const SCRIPT: &[u8] = &[
    0x01, 0, 0x0B, 1, 0, 0x03, 0, 0x04, 0, 1, 0, 0, 0, 0x01, 2, 0x03, 2, 0x08, 0, 0x0B, 1, 0, 0x05,
    0, 0x02, 0, 0x09, 0, 0x02, 2, 0x0B, 3, 0, 0x06, 0, 0x07, 0, 0x0A, 0,
];

fn every_byte(bytes: &[u8]) -> impl Iterator<Item = Vec<u8>> + '_ {
    (0..bytes.len()).flat_map(move |at| {
        (0..=255).map(move |value| {
            let mut changed = bytes.to_vec();
            changed[at] = value;
            changed
        })
    })
}

fn every_cut(bytes: &[u8]) -> impl Iterator<Item = Vec<u8>> + '_ {
    (0..=bytes.len()).map(|length| bytes[..length].to_vec())
}

/// Ends of ranges of wide fields, and what lies beside them.
const ENDS: [i32; 24] = [
    0,
    1,
    2,
    3,
    4,
    5,
    6,
    7,
    -1,
    287,
    288,
    289,
    65_534,
    65_535,
    999_999,
    1_000_000,
    1_000_001,
    999_999_999,
    1_000_000_000,
    1_000_000_001,
    i32::MAX,
    i32::MIN,
    256,
    512,
];

/// Every field of more than one byte takes values at ends of ranges.
fn every_wide_field(records: Vec<Record>) -> Vec<Vec<u8>> {
    let mut changed = Vec::new();
    for at in 0..records.len() {
        let mut wide = places(records[at][0]);
        wide.retain(|(_, width)| *width > 1);
        for place in wide {
            for end in ENDS {
                let mut copy = records.clone();
                put(&mut copy[at], place, end);
                changed.push(copy.concat());
            }
        }
    }
    changed
}

/// Where a field of a record starts, and its width.
type Place = (usize, usize);

fn places(kind: u8) -> Vec<Place> {
    let mut start = 1;
    let place = |&width| {
        start += width;
        (start - width, width)
    };
    fields(kind).iter().map(place).collect()
}

/// The field takes a value.
fn put(record: &mut Record, (start, width): Place, value: i32) {
    record[start..start + width].copy_from_slice(&value.to_le_bytes()[..width]);
}

/// What a field is where another of its record is changed too: the ends of small
/// ranges, a tag and an op that there is not, and what names nothing.
fn few_ends(width: usize) -> &'static [i32] {
    match width {
        1 => &[0, 1, 2, 3, 4, 6, 7, 8, 9, 255],
        2 => &[0, 1, 287, 288, 65_534, 65_535],
        _ => &[0, 1, 2, 4, 288, 1_000_000, 1_000_001, -1],
    }
}

/// Any two fields of a record are changed, so that two causes meet.
fn every_two_fields(records: Vec<Record>) -> Vec<Vec<u8>> {
    let to_ends = |place: Place| few_ends(place.1).iter().map(move |&end| (place, end));
    let mut changed = Vec::new();
    for at in 0..records.len() {
        let changes: Vec<(Place, i32)> = places(records[at][0])
            .into_iter()
            .flat_map(to_ends)
            .collect();
        for (number, &(first, one)) in changes.iter().enumerate() {
            for &(second, other) in changes[number..].iter().filter(|change| change.0 != first) {
                let mut copy = records.clone();
                put(&mut copy[at], first, one);
                put(&mut copy[at], second, other);
                changed.push(copy.concat());
            }
        }
    }
    changed
}

/// Every record is dropped, or stands a second time at every place.
fn every_move(records: Vec<Record>) -> Vec<Vec<u8>> {
    let mut changed = Vec::new();
    for at in 0..records.len() {
        for place in 0..=records.len() {
            let mut copy = records.clone();
            copy.insert(place, records[at].clone());
            changed.push(copy.concat());
            // The first one goes.
            copy.remove(if place <= at { at + 1 } else { at });
            changed.push(copy.concat());
        }
        let mut copy = records.clone();
        copy.remove(at);
        changed.push(copy.concat());
    }
    changed
}

/// What the refusal of each input came to, by number.
type Counts = [usize; NUMBERS];

fn agree_on_model(counts: &mut Counts, bytes: &[u8]) {
    let (wanted, _) = wanted::of_model(bytes, &[], false);
    let found = found::of_model(bytes, &[], &[], &StateWalk::default());
    let on_state = stepped::on_state(bytes, &[], &wanted.asked, false);
    compare::reading(&wanted.read, &found.read)
        .and_then(|()| compare::reading(&wanted.read, &on_state.read))
        .and_then(|()| compare::shown(&wanted.shown, &on_state.shown))
        .and_then(|()| compare::enabled(&wanted.offers, &on_state.offers))
        .and_then(|()| compare::start_step(&wanted.asked, &on_state.starts))
        .and_then(|()| start_tests(bytes, SCRIPT))
        .unwrap_or_else(|how| panic!("{how}: {bytes:02x?}"));
    agree_on_size(bytes);
    counts[wanted.read.number as usize] += 1;
    if wanted.read.number == 0 {
        let room = futonkestrel::ROOM_FOR_TABLE;
        let made = plain::translate::translate(bytes, room).expect("accepted");
        assert_eq!(
            futonkestrel::translate_to_vec(bytes),
            Ok(made),
            "{bytes:02x?}"
        );
    }
}

/// START's test over bytes, told into all places and two; of the three threads and
/// of none.
fn start_tests(model: &[u8], script: &[u8]) -> Check {
    (0..4).try_for_each(|thread| {
        let question = Question { thread, length: 1 };
        let places = [START_PLACES, START_PLACES - 1];
        let found = found::start_tests(model, script, question, &places);
        let wanted = wanted::start_test(model, script, question);
        compare::start_told(&wanted, &StartTold::of(&found[0]))
            .and_then(|()| compare::start_places(&found))
    })
}

/// The size of the table, and translations into just as much room and into one
/// byte less.
fn agree_on_size(bytes: &[u8]) {
    let size = Size::of(&found::sizes(bytes, &[SIZE_PLACES])[0]);
    let made = |room| found::translation(bytes, room);
    compare::size_told(&wanted::size(bytes), &size)
        .and_then(|()| {
            let rooms = [size.bytes, size.bytes.saturating_sub(1)];
            compare::size_made(&size, &rooms.map(made))
        })
        .unwrap_or_else(|how| panic!("{how}: {bytes:02x?}"));
}

fn agree_on_table(counts: &mut Counts, bytes: &[u8]) {
    let wanted = wanted::of_table(bytes, SCRIPT, false);
    let found = found::of_table(bytes, SCRIPT, &[]);
    compare::reading(&wanted.read, &found.read)
        .and_then(|()| compare::start(&wanted.start, &found.start))
        .and_then(|()| compare::answers(&wanted.steps, &found.steps))
        .and_then(|()| compare::variables(&wanted.steps, &found.steps))
        .unwrap_or_else(|how| panic!("{how}: {bytes:02x?}"));
    counts[wanted.read.number as usize] += 1;
    if wanted.read.number == 0 {
        agree_by_index(bytes, &wanted, &found);
    }
}

/// An accepted table by its index, and what it offers.
fn agree_by_index(bytes: &[u8], wanted: &Said, found: &Said) {
    let start = &found.start.variables;
    let after = found.steps.iter().map(|step| &step.after.variables);
    for room in [stepped::index_size(bytes), 4] {
        let index = stepped::index_into(bytes, room);
        let steps = found::table_steps(&Indexes::new(bytes, &index), start, SCRIPT);
        let offers = |variables| stepped::table_offers(bytes, &index, variables, false);
        let stages = std::iter::once(start).chain(after.clone());
        let offers: Vec<Listed> = stages.map(offers).collect();
        compare::answers(&wanted.steps, &steps)
            .and_then(|()| compare::variables(&wanted.steps, &steps))
            .and_then(|()| compare::enabled(&wanted.offers, &offers))
            .unwrap_or_else(|how| panic!("{how}, room {room}: {bytes:02x?}"));
    }
}

fn agree_on_script(script: &[u8]) {
    let model = model();
    let (wanted, _) = wanted::of_model(&model, script, false);
    let found = found::of_model(&model, script, &[], &StateWalk::default());
    let on_state = stepped::on_state(&model, script, &wanted.asked, false);
    compare::answers(&wanted.steps, &on_state.steps)
        .and_then(|()| compare::shown(&wanted.shown, &on_state.shown))
        .and_then(|()| compare::enabled(&wanted.offers, &on_state.offers))
        .and_then(|()| compare::start_step(&wanted.asked, &on_state.starts))
        .unwrap_or_else(|how| panic!("{how} on a lent state: {script:02x?}"));
    let parts = found::part_lengths(script);
    compare::event_parts(&wanted.steps, &parts)
        .and_then(|()| compare::answers(&wanted.steps, &found.steps))
        .and_then(|()| compare::variables(&wanted.steps, &found.steps))
        .and_then(|()| compare::run(&wanted.run, &found.run))
        .and_then(|()| start_tests(&model, script))
        .unwrap_or_else(|how| panic!("{how}: {script:02x?}"));
}

#[test]
fn models_with_one_thing_changed() {
    let bytes = model();
    let records = split(&bytes, model_body);
    let mut counts = Counts::default();
    every_byte(&bytes)
        .chain(every_cut(&bytes))
        .chain(every_wide_field(records.clone()))
        .chain(every_move(records))
        .for_each(|changed| agree_on_model(&mut counts, &changed));
    // Nothing of this makes an item too many.
    for number in [0, 1, 2, 4, 5, 6, 7, 14, 15] {
        assert!(counts[number] >= 1, "{counts:?}");
    }
}

#[test]
fn models_with_two_fields_changed() {
    let mut counts = Counts::default();
    for changed in every_two_fields(split(&model(), model_body)) {
        agree_on_model(&mut counts, &changed);
    }
    for number in [0, 4, 5, 6, 7, 14, 15] {
        assert!(counts[number] >= 1, "{counts:?}");
    }
}

#[test]
fn tables_with_one_thing_changed() {
    let bytes = table();
    let records = split(&bytes, table_body);
    let mut counts = Counts::default();
    every_byte(&bytes)
        .chain(every_cut(&bytes))
        .chain(every_wide_field(records.clone()))
        .chain(every_move(records))
        .for_each(|changed| agree_on_table(&mut counts, &changed));
    for number in [0, 1, 2, 4, 14] {
        assert!(counts[number] >= 1, "{counts:?}");
    }
}

#[test]
fn tables_with_two_fields_changed() {
    let mut counts = Counts::default();
    for changed in every_two_fields(split(&table(), table_body)) {
        agree_on_table(&mut counts, &changed);
    }
    for number in [0, 4, 14] {
        assert!(counts[number] >= 1, "{counts:?}");
    }
}

#[test]
fn scripts_with_one_thing_changed() {
    let (_, reach) = wanted::of_model(&model(), SCRIPT, false);
    assert_eq!(reach.stops.by_thread[2], 1, "the script has a stop");
    every_byte(SCRIPT)
        .chain(every_cut(SCRIPT))
        .for_each(|changed| agree_on_script(&changed));
}
