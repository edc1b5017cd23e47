//! The safe functions, on document 01's model M and on bytes that are refused.

mod common;
#[path = "../../plain/tests/models/longest.rs"]
mod longest;

use std::collections::BTreeSet;

use common::{
    counted, table_of_m, BUFFER, BYTE, CPU, DUE, END, INPUT, LEAVING, LEFT_WITH_JOBS, LESSON,
    LISTING, LOCAL, M, NOW, OUTPUT, PAST_THE_ENDS, SCRIPT, SIZE_OF_M, STATE,
};
use futonkestrel::refusals::{meaning_of, Holder, Meaning, MEANINGS};
use futonkestrel::{
    event_length, events, model_after, model_listing, model_listing_into, read_model, read_table,
    run_model, run_table, start_test, table_listing, table_listing_into, table_size, translate,
    translate_to_vec, Enabled, Model, Offer, Refusal, Run, StartStep, Table, ROOM_FOR_TABLE,
    VARIABLES,
};
use longest::longest_model;

fn refused<T>(number: u32, start: usize, end: usize) -> Result<T, Refusal> {
    Err(Refusal { number, start, end })
}

#[test]
fn reading() {
    assert_eq!(read_model(M), Ok(()));
    assert_eq!(read_model(&[]), refused(2, 0, 0));
    assert_eq!(read_model(&M[..20]), refused(1, 3, 20));
    let table = table_of_m();
    assert_eq!(read_table(&table), Ok(()));
    assert_eq!(read_table(&[]), Ok(()));
    assert_eq!(read_table(M), refused(2, 0, M.len()));
}

/// A port of a thread that is not there, a Min of 0, a state above 7; and in a table a
/// variable that is not there, and the clock started.
#[test]
fn faults_of_fields() {
    let nobodys = [M, &[0x03, 1]].concat();
    assert_eq!(read_model(&nobodys), refused(14, 23, 25));
    let mut no_time = M.to_vec();
    no_time[12] = 0;
    assert_eq!(read_model(&no_time), refused(15, 3, 23));
    let no_state = [M, &[0x08, 0, 0, 8]].concat();
    assert_eq!(read_model(&no_state), refused(4, 23, 27));
    let start = |low: u8, high: u8| [0x20, low, high, 1, 0, 0, 0];
    assert_eq!(read_table(&start(32, 1)), refused(14, 0, 7));
    assert_eq!(read_table(&start(0, 0)), refused(4, 0, 7));
}

#[test]
fn translation() {
    let table = translate_to_vec(M).expect("M is accepted");
    let mut output = vec![BYTE; table.len()];
    assert_eq!(translate(M, &mut output), Ok(table.len()));
    assert_eq!(output, table);
    let short = &mut output[1..];
    assert_eq!(translate(M, short), refused(8, M.len(), M.len()));
    assert_eq!(translate_to_vec(&M[3..]), refused(2, 0, 20));
}

/// The lesson cut at every place, and with every byte changed.
fn changed_lessons() -> impl Iterator<Item = Vec<u8>> {
    let cut = (0..=LESSON.len()).map(|end| LESSON[..end].to_vec());
    let places = (0..LESSON.len()).flat_map(|place| [0, 1, 2, 9, 255].map(|byte| (place, byte)));
    let changed = places.map(|(place, byte)| {
        let mut model = LESSON.to_vec();
        model[place] = byte;
        model
    });
    cut.chain(changed)
}

/// A size is that of the table which is then made, or the same refusal.
#[test]
fn size_before_translation() {
    assert_eq!(table_size(M), Ok(SIZE_OF_M));
    let mut output = vec![BYTE; ROOM_FOR_TABLE];
    let mut met = BTreeSet::new();
    for model in changed_lessons() {
        let made = translate(&model, &mut output).map(|length| counted(&output[..length]));
        assert_eq!(table_size(&model), made, "{model:02x?}");
        met.insert(made.map_or_else(|refusal| refusal.number, |_| 0));
    }
    assert_eq!(met, BTreeSet::from([0, 1, 2, 4, 5, 6, 14, 15]));
}

/// Just as many bytes are room for the table, and one less is too short.
#[test]
fn room_of_the_size_told() {
    for model in [M, LESSON, &longest_model()] {
        let size = table_size(model).expect("it is accepted");
        let mut output = vec![BYTE; size.bytes];
        let end = model.len();
        assert_eq!(translate(model, &mut output[1..]), refused(8, end, end));
        assert!(output.iter().all(|&byte| byte == BYTE));
        assert_eq!(translate(model, &mut output), Ok(size.bytes));
        assert_eq!(counted(&output), size);
        assert_eq!(translate_to_vec(model), Ok(output));
    }
}

#[test]
fn the_longest_table_takes_all_room() {
    let size = table_size(&longest_model()).expect("it is accepted");
    assert_eq!(size.bytes, ROOM_FOR_TABLE);
}

#[test]
fn the_part_of_a_refusal_is_where_it_says() {
    let twice = [M, &M[..3]].concat();
    assert_eq!(translate_to_vec(&twice), refused(2, M.len(), M.len() + 3));
}

#[test]
fn listings() {
    let table = table_of_m();
    assert_eq!(model_listing(M, SCRIPT), LISTING.as_bytes());
    assert_eq!(table_listing(&table, SCRIPT), LISTING.as_bytes());
    assert_eq!(model_listing(&[], SCRIPT), b"end 0 2 0\n");
    assert_eq!(table_listing(&table[..3], SCRIPT), b"end 0 1 0\n");
    let mut output = [BYTE; 5];
    assert_eq!(model_listing_into(M, SCRIPT, &mut output), LISTING.len());
    assert_eq!(&output, b"1 0 1");
    let mut output = [BYTE; 3];
    assert_eq!(
        table_listing_into(&table, SCRIPT, &mut output),
        LISTING.len()
    );
    assert_eq!(&output, b"1 0");
}

#[test]
fn runs() {
    let table = table_of_m();
    let whole = Run {
        refusal: None,
        taken: 7,
        clock: 4,
    };
    assert_eq!(run_model(M, SCRIPT), whole);
    assert_eq!(run_table(&table, SCRIPT), whole);
    let stopped = Run {
        refusal: refused::<()>(10, 20, 22).err(),
        ..whole
    };
    let more = [SCRIPT, &[0x02, 0], SCRIPT].concat();
    assert_eq!(run_model(M, &more), stopped);
    assert_eq!(run_table(&table, &more), stopped);
    let nothing = Run {
        refusal: refused::<()>(2, 0, 0).err(),
        taken: 0,
        clock: 0,
    };
    assert_eq!(run_model(&[], SCRIPT), nothing);
}

#[test]
fn the_parts_of_a_script() {
    let parts: Vec<&[u8]> = events(SCRIPT).collect();
    assert_eq!(parts.len(), 7);
    assert_eq!(parts[2], [0x04, 0, 2, 0, 0, 0]);
    assert_eq!(parts.concat(), SCRIPT);
    assert_eq!(event_length(SCRIPT), 2);
    assert_eq!(events(&[]).count(), 0);
    let parts: Vec<&[u8]> = events(&[0x01, 0, 0x55, 0x01, 0]).collect();
    assert_eq!(parts, [&[0x01, 0][..], &[0x55, 0x01, 0]]);
}

#[test]
fn a_table_goes_event_by_event() {
    let bytes = table_of_m();
    let table = Table::read(&bytes).expect("a made table is accepted");
    let mut variables = table.start();
    for event in events(SCRIPT) {
        assert_eq!(table.step(&mut variables, event), Ok(()));
    }
    assert_eq!(
        (variables[NOW], variables[STATE], variables[DUE]),
        (4, 1, 4)
    );
    let before = variables;
    assert_eq!(table.step(&mut variables, &[0x06, 0]), Err(10));
    assert_eq!(table.step(&mut variables, &[]), Err(9));
    assert_eq!(variables, before);
    assert_eq!(table.run(SCRIPT), run_table(&bytes, SCRIPT));
    assert_eq!(table.listing(SCRIPT), LISTING.as_bytes());
    assert_eq!(table.bytes(), bytes);
    assert_eq!(Table::read(&bytes[..4]).err(), refused::<()>(1, 0, 4).err());
}

#[test]
fn the_model_shows_what_the_table_has() {
    let bytes = table_of_m();
    let table = Table::read(&bytes).expect("a made table is accepted");
    let mut variables = table.start();
    let mut taken = 0;
    for event in events(SCRIPT) {
        let mut shown = [0; VARIABLES];
        assert_eq!(model_after(M, &SCRIPT[..taken], event, &mut shown), 0);
        assert_eq!(table.step(&mut variables, event), Ok(()));
        taken += event.len();
        // Due and End of the one thread are not shown.
        for variable in (0..VARIABLES).filter(|variable| ![64, 80].contains(variable)) {
            assert_eq!(
                shown[variable], variables[variable],
                "{variable} after {taken}"
            );
        }
    }
    assert_eq!(model_after(&M[..4], &[], &[], &mut variables), 1);
}

#[test]
fn a_model_goes_event_by_event() {
    let model = Model::read(M).expect("M is accepted");
    let start = model.start();
    let mut state = start.clone();
    for event in events(SCRIPT) {
        assert_eq!(model.step(&mut state, event), Ok(()));
    }
    let variables = model.variables(&state);
    // No job is in hand, so that Due stands for nothing.
    assert_eq!(
        (variables[NOW], variables[STATE], variables[DUE]),
        (4, 1, 0)
    );
    let before = state.clone();
    assert_eq!(model.step(&mut state, &[0x06, 0]), Err(10));
    assert_eq!(model.step(&mut state, &[]), Err(9));
    assert_eq!(state, before);
    assert_ne!(state, start);
    assert_eq!(model.start(), start);
    assert_eq!(Model::read(&M[..20]).err(), refused::<()>(1, 3, 20).err());
    assert_eq!(Model::read(&[]).err(), refused::<()>(2, 0, 0).err());
}

/// Model and table side by side: the same is enabled, and the same shown.
#[test]
fn a_model_and_its_table_agree() {
    let bytes = table_of_m();
    let (model, table) = (Model::read(M), Table::read(&bytes));
    let (model, table) = (model.expect("accepted"), table.expect("accepted"));
    let (mut state, mut variables) = (model.start(), table.start());
    let mut offered = Vec::new();
    for event in events(SCRIPT) {
        let enabled = model.enabled(&state);
        assert_eq!(enabled, table.enabled(&variables));
        // TICK is not listed.
        assert_eq!(enabled.events.is_empty(), event[0] == 0x0B);
        assert_eq!(enabled.tick, event[0] == 0x0B);
        offered.extend(enabled.events);
        assert_eq!(model.step(&mut state, event), Ok(()));
        assert_eq!(table.step(&mut variables, event), Ok(()));
        // Due is shown while a job is in hand.
        let mut wanted = variables;
        wanted[DUE] *= i32::from(variables[STATE] >= 2);
        assert_eq!(model.variables(&state), wanted);
    }
    let kinds: Vec<u8> = offered.iter().map(|offer| offer.kind).collect();
    assert_eq!(kinds, [1, 3, 4, 5, 6]);
    assert_eq!(offered[2].shortest(), [0x04, 0, 1, 0, 0, 0]);
    assert_eq!(offered[2].longest(), [0x04, 0, 5, 0, 0, 0]);
    assert_eq!(offered[3].shortest(), [0x05, 0]);
}

/// When the mode is left, a critical thread goes on with its job, and no tick passes before
/// the other is stopped. It gives the processor back at once.
#[test]
fn threads_that_leave() {
    let bytes = translate_to_vec(LEAVING).expect("accepted");
    let (model, table) = (Model::read(LEAVING), Table::read(&bytes));
    let (model, table) = (model.expect("accepted"), table.expect("accepted"));
    let (mut state, mut variables) = (model.start(), table.start());
    let mut step = |event: &[u8]| {
        let answer = model.step(&mut state, event);
        assert_eq!(answer, table.step(&mut variables, event), "{event:?}");
        let codes = [variables[STATE], variables[STATE + 1]];
        assert_eq!(model.variables(&state)[CPU], variables[CPU]);
        (answer, codes, variables[CPU], variables[END + 1])
    };
    for event in events(LEFT_WITH_JOBS) {
        assert_eq!(step(event).0, Ok(()));
    }
    let left = (Err(10), [2, 3], 1, 4);
    assert_eq!(step(&[0x0B, 1, 0]), left);
    assert_eq!(step(&[0x02, 0]), left);
    assert_eq!(step(&[0x02, 1]), (Ok(()), [2, 0], 255, 0));
    assert_eq!(step(&[0x02, 1]), (Err(10), [2, 0], 255, 0));
    assert_eq!(step(&start(0, 1)), (Ok(()), [3, 0], 0, 0));
    for event in [&[0x0B, 1, 0][..], &[0x05, 0], &[0x0A, 0], &[0x0B, 1, 0]] {
        assert_eq!(step(event).0, Ok(()));
    }
    assert_eq!(step(&[0x06, 0]), (Ok(()), [0, 0], 255, 0));
}

/// ACTIVATE and DISPATCH of all four threads of the lesson.
const DISPATCHED: &[u8] = &[1, 0, 1, 1, 1, 2, 1, 3, 3, 0, 3, 1, 3, 2, 3, 3];

/// Sums and differences outside of 32 bits are the nearest end, in model and table.
#[test]
fn sums_stop_at_the_ends() {
    let bytes = [M, PAST_THE_ENDS].concat();
    let made = translate_to_vec(&bytes).expect("accepted");
    let model = Model::read(&bytes).expect("accepted");
    let table = Table::read(&made).expect("accepted");
    let (mut state, mut variables) = (model.start(), table.start());
    // Up to COMPLETE.
    for event in events(SCRIPT).take(5) {
        assert_eq!(model.step(&mut state, event), Ok(()));
        assert_eq!(table.step(&mut variables, event), Ok(()));
    }
    for shown in [model.variables(&state), variables] {
        assert_eq!(shown[OUTPUT..][..2], [i32::MAX, i32::MIN]);
        assert_eq!(shown[LOCAL..][..2], [i32::MAX, i32::MIN]);
    }
}

fn start(thread: u8, length: u32) -> Vec<u8> {
    [&[0x04, thread], &length.to_le_bytes()[..]].concat()
}

/// Each step before those behind it: thread 1 has an input from thread 0.
#[test]
fn the_first_step_that_fails() {
    let running = [DISPATCHED, &start(0, 2)].concat();
    let done = [&running[..], &[0x0B, 2, 0, 0x05, 0]].concat();
    for (script, thread, length, step) in [
        (&[][..], 0, 2, StartStep::State),
        (DISPATCHED, 4, 2, StartStep::State),
        (DISPATCHED, 256, 2, StartStep::State),
        (DISPATCHED, 0, 2, StartStep::None),
        (DISPATCHED, 0, 4, StartStep::Length),
        (DISPATCHED, 1, 9, StartStep::Connections),
        (&running, 1, 9, StartStep::Processor),
        (&running, 0, 9, StartStep::State),
        (&done, 1, 4, StartStep::None),
        (&done, 1, 5, StartStep::Length),
        (&done, 0, 2, StartStep::State),
    ] {
        let told = start_test(LESSON, script, thread, length);
        assert_eq!(told, Ok(step), "{script:?} {thread} {length}");
    }
    assert_eq!(start_test(&LESSON[..9], &[], 0, 2), refused(1, 3, 9));
    assert_eq!(start_test(&[], &[], 0, 2), refused(2, 0, 0));
}

/// On a state as on the bytes; START is taken exactly where no step fails, and
/// offered with the lengths that pass.
#[test]
fn start_tests_along_a_run() {
    let script = include_bytes!("../../examples/lesson/script.bin");
    let model = Model::read(LESSON).expect("accepted");
    let (mut state, mut taken, mut met) = (model.start(), 0, BTreeSet::new());
    for event in events(script) {
        let offers = model.enabled(&state).events;
        for (thread, length) in (0..5).flat_map(|thread| (0..8).map(move |n| (thread, n))) {
            let step = model.start_test(&state, thread.into(), length);
            let whole = start_test(LESSON, &script[..taken], thread.into(), length);
            assert_eq!(whole, Ok(step));
            let answer = model.step(&mut state.clone(), &start(thread, length));
            assert_eq!(answer, if step.is_taken() { Ok(()) } else { Err(10) });
            let is_offer = |offer: &&Offer| (offer.kind, offer.id) == (0x04, thread);
            let offer = offers.iter().find(is_offer);
            assert_eq!(
                offer.map(|offer| (offer.low..=offer.high).contains(&length)),
                matches!(step, StartStep::None | StartStep::Length).then_some(step.is_taken())
            );
            met.insert(step);
        }
        assert_eq!(model.step(&mut state, event), Ok(()));
        taken += event.len();
    }
    assert_eq!(met, BTreeSet::from(StartStep::ALL));
}

#[test]
fn steps_have_numbers_and_words() {
    for (number, step) in (0..).zip(StartStep::ALL) {
        assert_eq!(step.number(), number);
        assert_eq!(step.is_taken(), number == 0);
    }
    let words = StartStep::ALL.map(StartStep::word);
    assert_eq!(
        words,
        ["none", "state", "processor", "connections", "length"]
    );
}

/// Port and buffer begin at the value that the port's record gives, in model and
/// table; without one, and where it is 0, at 0.
#[test]
fn start_values_of_input_ports() {
    let model = |ports: &[u8]| [M, ports].concat();
    let pen = model(&[0x03, 0, 0x0B, 0, 0xFE, 0xFF, 0xFF, 0xFF]);
    let bytes = translate_to_vec(&pen).expect("accepted");
    let variables = Table::read(&bytes).expect("accepted").start();
    for first in [INPUT, BUFFER] {
        assert_eq!(variables[first..first + 3], [0, -2, 0]);
    }
    let read = Model::read(&pen).expect("accepted");
    assert_eq!(read.variables(&read.start()), variables);
    let zero = model(&[0x0B, 0, 0, 0, 0, 0]);
    assert_eq!(
        translate_to_vec(&zero),
        translate_to_vec(&model(&[0x03, 0]))
    );
}

/// More than the room that is tried first.
#[test]
fn many_rules_are_enabled() {
    let rule = |id: u8| [0x21, 0x08, id, 0, 0, 0, 0, 0, 0, 0, 0];
    let bytes: Vec<u8> = (0..=255).rev().flat_map(rule).collect();
    let table = Table::read(&bytes).expect("accepted");
    let offer = |id: u8| Offer {
        kind: 0x08,
        id,
        low: 0,
        high: 0,
    };
    let wanted = Enabled {
        events: (0..=255).map(offer).collect(),
        tick: true,
    };
    assert_eq!(table.clone().enabled(&table.start()), wanted);
}

/// A refusal is an error that tells its cause and what to do.
#[test]
fn a_refusal_in_words() {
    let refusal = read_model(&M[..20]).expect_err("it is cut");
    let error: Box<dyn std::error::Error> = Box::new(refusal);
    let wanted = "refused 1 at bytes 3 to 20: a record's body runs past the end \
                  (the file is cut, or a byte is missing before this record)";
    assert_eq!(error.to_string(), wanted);
    assert_eq!(refusal.holder(), Holder::Model);
}

/// Every number has a meaning of its own, in the order of causes.
#[test]
fn meanings() {
    let in_model = [1, 2, 3, 14, 15, 4, 5, 6, 7, 8];
    let in_script = [9, 10, 11, 12, 13];
    let numbers: Vec<u32> = MEANINGS.iter().map(|meaning| meaning.number).collect();
    assert_eq!(numbers, [&in_model[..], &in_script].concat());
    for meaning in MEANINGS {
        assert!(!meaning.cause.is_empty() && !meaning.remedy.is_empty());
        let of_script = meaning.holder == Holder::Script;
        assert_eq!(of_script, in_script.contains(&meaning.number));
        assert_eq!(meaning_of(meaning.number), Some(meaning));
    }
    assert_eq!(meaning_of(0), None);
}

/// The table of refusals in README has the same causes in the same order.
#[test]
fn causes_in_readme() {
    let mut readme = include_str!("../../README.md");
    for meaning in MEANINGS {
        let Meaning { number, cause, .. } = meaning;
        let row = match meaning.holder {
            Holder::Model => format!("\n| {number} | model"),
            Holder::Script => format!("\n| {number} | script"),
        };
        let at = readme.find(&row).unwrap_or_else(|| panic!("no {row}"));
        readme = &readme[at + 1..];
        let line = readme.lines().next().unwrap_or("");
        assert!(line.contains(&format!(" | {cause} | ")), "{line}");
    }
}
