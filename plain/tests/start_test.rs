//! The test for START and the first step of it that fails: 1 state, 2 processor,
//! 3 connections, 4 length; 0 where the START is taken.

mod common;
mod models;

use common::{model_and_table, simulation};
use models::{damage, random_model, Random};
use plain::model::{self, Model, State};
use plain::offers;
use plain::refusal::Refusal;
use plain::script::{answer_one, run_on, Event, START, TICK};
use plain::start_test::start_test;
use plain::table::{self, Table, Variables};

/// Connection types.
const IMMEDIATE: u8 = 0;
const DELAYED: u8 = 1;

/// Period, Deadline, Min, Max, mask.
fn thread(figures: [u32; 4], mask: u8) -> Vec<u8> {
    let figures = figures.map(u32::to_le_bytes).concat();
    [&[0x02], &figures[..], &[mask, 0, 0]].concat()
}

/// Two modes; a source of Period 4, a reader of Period 2 and a thread of Period 4
/// that is due after one tick. A connection leads from the source to the reader.
fn source_and_reader(timing: u8, connection_mask: u8) -> Vec<u8> {
    [
        &[0x01, 2, 0],
        &thread([4, 4, 2, 3], 1)[..],
        &thread([2, 2, 1, 2], 3),
        &thread([4, 1, 1, 1], 1),
        &[0x03, 1, 0x04, 0],
        &[0x06, timing, 0, 0, connection_mask],
        &[0x07, 0, 1],
    ]
    .concat()
}

fn joined() -> Vec<u8> {
    source_and_reader(IMMEDIATE, 0b11)
}

const SOURCE: u32 = 0;
const READER: u32 = 1;
const HASTY: u32 = 2;

/// All three are activated.
const ACTIVATED: [u8; 6] = [1, 0, 1, 1, 1, 2];
const DISPATCH_SOURCE: [u8; 2] = [3, 0];
const DISPATCH_READER: [u8; 2] = [3, 1];
const DISPATCH_HASTY: [u8; 2] = [3, 2];
const ONE_TICK: [u8; 3] = [TICK, 1, 0];

fn start(thread: u8, length: u8) -> [u8; 6] {
    [START, thread, length, 0, 0, 0]
}

/// The steps told after some events. All of them are taken, by the model's table
/// too.
fn steps(model_bytes: &[u8], events: &[&[u8]], asked: &[(u32, u32)]) -> Vec<u8> {
    let script = events.concat();
    let answers = simulation(model_bytes, &script).expect("model and table agree");
    let refused = answers.iter().find(|answer| answer.number != 0);
    assert_eq!(refused, None);
    let told = |&(thread, length): &(u32, u32)| {
        start_test(model_bytes, &script, thread, length).expect("an accepted model")
    };
    asked.iter().map(told).collect()
}

fn stepper(model: &Model) -> impl Fn(&State, &Event) -> Result<State, u8> + '_ {
    |state, event| model::step(model, state, event)
}

/// All three are dispatched.
fn dispatched() -> Vec<u8> {
    let dispatches = [DISPATCH_SOURCE, DISPATCH_READER, DISPATCH_HASTY].concat();
    [&ACTIVATED[..], &dispatches].concat()
}

/// Before its dispatch, while it runs, and once it has completed.
#[test]
fn another_code_fails_at_1() {
    let model = joined();
    let all = [(SOURCE, 2), (READER, 1), (HASTY, 1)];
    assert_eq!(steps(&model, &[], &all), [1, 1, 1]);
    assert_eq!(steps(&model, &[&ACTIVATED], &all), [1, 1, 1]);
    let runs = [&dispatched()[..], &start(0, 2)];
    assert_eq!(steps(&model, &runs, &all), [1, 2, 2]);
    let completed = [&runs.concat()[..], &ONE_TICK, &[7, 2], &ONE_TICK, &[5, 0]];
    assert_eq!(steps(&model, &completed, &[(SOURCE, 2)]), [1]);
}

#[test]
fn a_number_without_thread_fails_at_1() {
    let model = joined();
    let ready = [&ACTIVATED[..], &DISPATCH_SOURCE];
    assert_eq!(steps(&model, &ready, &[(SOURCE, 2)]), [0]);
    for number in [3, 15, 16, 255, 256, 256 + SOURCE, 65_536, 1 << 31, u32::MAX] {
        assert_eq!(steps(&model, &ready, &[(number, 2)]), [1], "{number}");
    }
    // Of a model with no thread at all too.
    for number in [0, 16, 255, 256, u32::MAX] {
        assert_eq!(start_test(&[0x01, 1, 0], &[], number, 1), Ok(1));
    }
}

/// Sixteen threads, the most that there can be, all dispatched.
#[test]
fn the_last_thread_and_the_one_behind() {
    let threads = thread([5, 4, 1, 5], 1).repeat(16);
    let model = [&[0x01, 1, 0][..], &threads].concat();
    let events: Vec<u8> = (0..16).flat_map(|id| [1, id, 3, id]).collect();
    let asked = [(15, 5), (15, 6), (16, 5), (255, 5), (256, 5), (271, 5)];
    assert_eq!(steps(&model, &[&events], &asked), [0, 4, 1, 1, 1, 1]);
}

/// With any length, beside a held processor and beside a free one.
#[test]
fn due_now_fails_at_1() {
    let model = joined();
    let asked = [(HASTY, 1), (HASTY, 0), (HASTY, 2)];
    assert_eq!(steps(&model, &[&dispatched()], &asked), [0, 4, 4]);
    let held = [&dispatched()[..], &start(0, 2)];
    assert_eq!(steps(&model, &held, &asked), [2, 2, 2]);
    let due = [&held.concat()[..], &ONE_TICK];
    assert_eq!(steps(&model, &due, &asked), [1, 1, 1]);
    // The reader, dispatched with it, is not due yet.
    assert_eq!(steps(&model, &due, &[(READER, 1)]), [2]);
    // Another job ends at the same clock.
    let threads = [thread([4, 1, 1, 9], 1), thread([4, 4, 1, 1], 1)].concat();
    let model = [&[0x01, 1, 0], &threads[..]].concat();
    let begun = [&[1, 0, 1, 1, 3, 0, 3, 1][..], &start(1, 1), &ONE_TICK];
    let free = [&begun.concat()[..], &[5, 1]];
    assert_eq!(steps(&model, &free, &[(0, 1), (0, 10)]), [1, 1]);
}

/// Due is now, and a source that runs holds the thread back as well: the state
/// comes first all the same.
#[test]
fn due_now_beside_a_source_fails_at_1() {
    let model = [
        &[0x01, 1, 0],
        &thread([4, 4, 1, 4], 1)[..],
        &thread([4, 2, 1, 2], 1),
        &[0x03, 1, 0x04, 0, 0x06, IMMEDIATE, 0, 0, 1],
    ]
    .concat();
    let begun = [1, 0, 1, 1, 3, 0, 3, 1];
    let asked = [(1, 1), (1, 9)];
    assert_eq!(steps(&model, &[&begun], &asked), [3, 3]);
    let begun = [&begun[..], &start(0, 3)];
    assert_eq!(steps(&model, &begun, &asked), [2, 2]);
    let due = [&begun.concat()[..], &[TICK, 2, 0]];
    assert_eq!(steps(&model, &due, &asked), [1, 1]);
}

/// A held processor comes before a wrong length and before a source that waits.
#[test]
fn a_held_processor_fails_at_2() {
    let model = joined();
    let held = [&dispatched()[..], &start(2, 1)];
    for length in [0, 1, 2, 3, 4, u32::MAX] {
        let asked = [(SOURCE, length), (READER, length), (HASTY, length)];
        assert_eq!(steps(&model, &held, &asked), [2, 2, 1], "{length}");
    }
}

/// The source has a job that was dispatched in the same instant, until that has
/// completed.
#[test]
fn a_source_with_a_job_fails_at_3() {
    let model = joined();
    let waits = [&ACTIVATED[..], &DISPATCH_SOURCE, &DISPATCH_READER];
    let lengths = [0, 1, 2, 3, u32::MAX].map(|length| (READER, length));
    assert_eq!(steps(&model, &waits, &lengths), [3; 5]);
    let longer = [
        &[0x01, 1, 0],
        &thread([4, 4, 1, 1], 1)[..],
        &thread([4, 4, 1, 2], 1),
        &[0x03, 1, 0x04, 0, 0x06, IMMEDIATE, 0, 0, 1],
    ]
    .concat();
    let waits = [1, 0, 1, 1, 3, 0, 3, 1];
    assert_eq!(steps(&longer, &[&waits], &lengths), [3; 5]);
    let completed = [&waits[..], &start(0, 1), &ONE_TICK, &[5, 0]];
    assert_eq!(steps(&longer, &completed, &lengths), [4, 0, 0, 4, 4]);
}

/// The source is active, not dispatched, and a period of it begins now: with code
/// 0 and with code 1.
#[test]
fn a_source_to_be_dispatched_fails_at_3() {
    let model = joined();
    let lengths = [(READER, 1), (READER, 9)];
    let inactive = [&[1, 1][..], &DISPATCH_READER];
    assert_eq!(steps(&model, &inactive, &lengths), [3, 3]);
    let active = [&[1, 0, 1, 1][..], &DISPATCH_READER];
    assert_eq!(steps(&model, &active, &lengths), [3, 3]);
    let dispatched = [&active.concat()[..], &DISPATCH_SOURCE];
    assert_eq!(steps(&model, &dispatched, &lengths), [3, 3]);
}

/// The source, dispatched at clock 0, still waits when the reader is dispatched
/// again at clock 2, where no period of the source begins.
#[test]
fn a_job_of_another_instant_does_not_count() {
    let model = [
        &[0x01, 1, 0],
        &thread([4, 4, 1, 4], 1)[..],
        &thread([2, 2, 1, 2], 1),
        &thread([4, 4, 2, 2], 1),
        &[0x03, 1, 0x04, 0, 0x06, IMMEDIATE, 0, 0, 1],
    ]
    .concat();
    let others_job = [&dispatched()[..], &start(2, 2), &[TICK, 2, 0, 5, 2]];
    let reader_again = [&others_job.concat()[..], &[7, 1], &DISPATCH_READER];
    let asked = [(READER, 1), (READER, 3), (SOURCE, 1)];
    assert_eq!(steps(&model, &reader_again, &asked), [0, 4, 0]);
}

/// One tick after its dispatch a thread does not wait for a source that is idle,
/// though a period of the source begins.
#[test]
fn a_source_of_a_later_instant_does_not_count() {
    let model = [
        &[0x01, 1, 0],
        &thread([1, 1, 1, 1], 1)[..],
        &thread([4, 4, 1, 2], 1),
        &[0x03, 1, 0x04, 0, 0x06, IMMEDIATE, 0, 0, 1],
    ]
    .concat();
    let first = [&[1, 0, 1, 1, 3, 0, 3, 1][..], &start(0, 1), &ONE_TICK];
    // The source has code 4, then 1 at a clock that its Period divides.
    let completed = [&first.concat()[..], &[5, 0]];
    assert_eq!(steps(&model, &completed, &[(1, 1)]), [0]);
    let idle = [&completed.concat()[..], &[6, 0]];
    assert_eq!(steps(&model, &idle, &[(1, 1), (1, 0)]), [0, 4]);
    // Dispatched again, its job is of another instant than the reader's.
    let again = [&idle.concat()[..], &DISPATCH_SOURCE];
    assert_eq!(steps(&model, &again, &[(1, 2), (1, 3)]), [0, 4]);
}

/// Delayed, of another mode alone, of no mode.
#[test]
fn a_delayed_or_dead_connection_does_not_count() {
    for (timing, mask) in [(DELAYED, 0b11), (IMMEDIATE, 0b10), (IMMEDIATE, 0)] {
        let model = source_and_reader(timing, mask);
        let asked = [(READER, 1), (READER, 3)];
        let dispatched = [&ACTIVATED[..], &DISPATCH_READER, &DISPATCH_SOURCE];
        assert_eq!(steps(&model, &dispatched[..2], &asked), [0, 4]);
        assert_eq!(steps(&model, &dispatched, &asked), [0, 4]);
    }
}

/// ENTER takes the life of a connection that the old mode has alone, and makes a
/// source that the new mode has not inactive.
#[test]
fn a_mode_change_releases_the_reader() {
    let requested = [&[1, 1, 3, 1, 8, 0][..]];
    let entered = [&requested.concat()[..], &[9, 0]];
    let asked = [(READER, 2), (READER, 3)];
    for mask in [0b01, 0b11] {
        let model = source_and_reader(IMMEDIATE, mask);
        assert_eq!(steps(&model, &requested, &asked), [3, 3]);
        assert_eq!(steps(&model, &entered, &asked), [0, 4]);
    }
    // A job in hand holds back as long as the connection is live.
    let requested = [&[1, 0, 1, 1, 3, 0, 3, 1, 8, 0][..]];
    let entered = [&requested.concat()[..], &[9, 0]];
    for (mask, wanted) in [(0b01, [0, 4]), (0b11, [3, 3])] {
        let model = source_and_reader(IMMEDIATE, mask);
        assert_eq!(steps(&model, &requested, &asked), [3, 3]);
        assert_eq!(steps(&model, &entered, &asked), wanted);
    }
}

/// A thread joined to itself always holds itself back.
#[test]
fn a_thread_joined_to_itself() {
    let model = [
        &[0x01, 1, 0],
        &thread([5, 4, 1, 5], 1)[..],
        &[0x03, 0, 0x04, 0, 0x06, IMMEDIATE, 0, 0, 1],
    ]
    .concat();
    assert_eq!(steps(&model, &[&[1, 0]], &[(0, 1)]), [1]);
    assert_eq!(steps(&model, &[&[1, 0, 3, 0]], &[(0, 1), (0, 9)]), [3, 3]);
}

#[test]
fn lengths_at_their_ends() {
    let dispatched = [&ACTIVATED[..], &DISPATCH_SOURCE];
    let told = |lengths: &[u32]| {
        let asked: Vec<(u32, u32)> = lengths.iter().map(|&length| (SOURCE, length)).collect();
        steps(&joined(), &dispatched, &asked)
    };
    assert_eq!(told(&[2, 3]), [0, 0]);
    assert_eq!(told(&[0, 1, 4, 258, 1 << 31, u32::MAX]), [4; 6]);
}

#[test]
fn a_refused_model() {
    let refused = |model: &[u8]| {
        let told = start_test(model, &DISPATCH_SOURCE, SOURCE, 2);
        let Refusal { number, start, end } = told.expect_err("a refused model");
        (number, start, end)
    };
    let model = joined();
    assert_eq!(refused(&[]), (2, 0, 0));
    assert_eq!(refused(&model[..12]), (1, 3, 12));
    assert_eq!(refused(&[&model[..], &[0x04, 0]].concat()), (2, 75, 77));
    assert_eq!(
        refused(&[&model[..], &[0x08, 3, 0, 0]].concat()),
        (14, 75, 79)
    );
}

/// Refused events are passed over; a cut or unknown one ends the list, a TICK of
/// none does not.
#[test]
fn scripts_with_refused_events() {
    let model = joined();
    let told = |parts: &[&[u8]]| start_test(&model, &parts.concat(), SOURCE, 3);
    let activated = &ACTIVATED[..];
    assert_eq!(told(&[activated, &DISPATCH_SOURCE]), Ok(0));
    let refused: [&[u8]; 5] = [&[2, 0], &[3, 9], &start(0, 9), &[TICK, 0, 0], &ONE_TICK];
    for event in refused {
        assert_eq!(told(&[event, activated, &DISPATCH_SOURCE]), Ok(0));
        assert_eq!(told(&[activated, event, &DISPATCH_SOURCE, event]), Ok(0));
    }
    // The processor is held from a START on that stands behind refused events.
    let held = [activated, &[5, 0], &DISPATCH_SOURCE, &DISPATCH_HASTY];
    assert_eq!(told(&[&held.concat(), &[6, 0], &start(2, 1)]), Ok(2));
    let ends: [&[u8]; 5] = [&[0x63], &[0], &[0x0C, 0], &[TICK, 1], &[START, 0, 2, 0, 0]];
    for end in ends {
        assert_eq!(told(&[activated, &DISPATCH_SOURCE, end]), Ok(0));
    }
    let unknown = &[0x63][..];
    assert_eq!(told(&[activated, unknown, &DISPATCH_SOURCE]), Ok(1));
}

/// What is told of a damaged model is what is told when it is read.
#[test]
fn damaged_models() {
    let mut random = Random(0xA24B_AED4_963E_E407);
    let mut refused = 0;
    for _ in 0..1_000 {
        let mut bytes = random_model(&mut random);
        damage(&mut random, &mut bytes);
        let told = start_test(&bytes, &ACTIVATED, 16, 1);
        assert_eq!(told, model::read(&bytes).map(|_| 1));
        refused += u64::from(told.is_err());
    }
    assert!(refused > 300, "{refused}");
}

/// The step that the thread's rule in a table fails at. Its clauses are State,
/// Cpu, Due, then two for each immediate connection.
fn step_by_rule(table: &Table, variables: &Variables, number: u32, length: u32) -> u8 {
    let of_thread = |rule: &&table::Rule| rule.kind == START && u32::from(rule.id) == number;
    let Some(rule) = table.rules.iter().find(of_thread) else {
        return 1;
    };
    let holds: Vec<bool> = (0..rule.clauses.len())
        .map(|clause| {
            let alone = table::Rule {
                clauses: vec![rule.clauses[clause].clone()],
                ..rule.clone()
            };
            table::enabled(&alone, variables)
        })
        .collect();
    if !holds[0] || !holds[2] {
        1
    } else if !holds[1] {
        2
    } else if !holds[3..].iter().all(|holds| *holds) {
        3
    } else if length < rule.low || rule.high < length {
        4
    } else {
        0
    }
}

/// A model and its table in one state: every step is the one that the rule tells,
/// and both take START exactly at 0. Counts the steps.
fn check_state(
    (model, state): (&Model, &State),
    (table, variables): (&Table, &Variables),
    counts: &mut [u64; 5],
) {
    for number in [0, 1, 2, 3, 4, 16, 255, 256, u32::MAX] {
        for length in [0, 1, 2, 3, 4, 5, u32::MAX] {
            let told = model::start_test(model, state, number, length);
            let by_rule = step_by_rule(table, variables, number, length);
            assert_eq!(told, by_rule, "thread {number}, length {length}");
            counts[usize::from(told)] += 1;
            let Ok(id) = u8::try_from(number) else {
                assert_eq!(told, 1, "thread {number}");
                continue;
            };
            let event = Event {
                kind: START,
                id,
                length,
                ticks: 0,
            };
            let answer = if told == 0 { Ok(()) } else { Err(10) };
            let of_model = model::step(model, state, &event).map(|_| ());
            let of_table = table::step(table, variables, &event).map(|_| ());
            assert_eq!((of_model, of_table), (answer, answer));
        }
    }
}

/// Every state on the way.
fn check_run(model: &Model, table: &Table, script: &[u8], counts: &mut [u64; 5]) {
    let (mut state, mut variables) = (model::start_state(model), table::start_state(table));
    let mut position = 0;
    while position < script.len() {
        check_state((model, &state), (table, &variables), counts);
        answer_one(script, position, &mut variables, |variables, event| {
            table::step(table, variables, event)
        });
        position = answer_one(script, position, &mut state, stepper(model)).end;
    }
}

/// Mostly what is enabled, START with its longest length or one more.
fn random_script(random: &mut Random, model: &Model) -> Vec<u8> {
    let mut state = model::start_state(model);
    let mut script = Vec::new();
    for _ in 0..40 {
        let enabled = offers::of_model(model, &state).events;
        let mut event = vec![TICK, 1, 0];
        if !enabled.is_empty() && random.chance(90) {
            let offer = random.one_of(&enabled);
            event = vec![offer.kind, offer.id];
            if offer.kind == START {
                let length = offer.high + u32::from(random.chance(10));
                event.extend(length.to_le_bytes());
            }
        }
        run_on(&event, &mut state, stepper(model), |_, _| {});
        script.extend(event);
    }
    script
}

#[test]
fn random_runs() {
    let mut random = Random(0x2545_F491_4F6C_DD1D);
    let mut counts = [0; 5];
    for _ in 0..300 {
        let bytes = random_model(&mut random);
        let (model, table) = model_and_table(&bytes).expect("an accepted model");
        let script = random_script(&mut random, &model);
        check_run(&model, &table, &script, &mut counts);
    }
    let floors = [2_000, 350_000, 11_000, 3_000, 4_500];
    let met = counts
        .iter()
        .zip(floors)
        .all(|(&count, floor)| count >= floor);
    assert!(met, "{counts:?} below {floors:?}");
}
