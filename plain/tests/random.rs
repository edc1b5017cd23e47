//! Random models and event lists with a fixed seed: a model and its table give
//! the same answers, parts and variables all along, and reading never fails
//! otherwise than by a refusal.

mod common;
mod models;

use common::simulation;
use models::{damage, random_model, Random};
use plain::model::{self, Model, State, ThreadState};
use plain::refusal::Refusal;
use plain::script::{
    answer_one, read_event, run_on, Event, ACTIVATE, COMPLETE, DEACTIVATE, DEADLINE, DISPATCH,
    ENTER, LEAVE, MISS, REQUEST, START, TICK,
};
use plain::table::{self, LONGEST_TABLE};
use plain::translate::translate;

// Random event lists

/// Mostly events that the model takes, others among them; the state is that of
/// a run that goes on after refusals.
fn random_script(random: &mut Random, model: &Model) -> Vec<u8> {
    let mut script = Vec::new();
    let mut state = model::start_state(model);
    for _ in 0..random.within(20, 80) {
        let event = random_event(random, model, &state);
        if let Ok((event, _)) = read_event(&event, 0) {
            if let Ok(next) = model::step(model, &state, &event) {
                state = next;
            }
        }
        script.extend(event);
    }
    if random.chance(10) {
        // Cut, or of unknown kind.
        script.extend(random.one_of(&[&[0x04, 0, 1, 0][..], &[0x0B, 1], &[0x0C, 1, 0], &[0x00]]));
    }
    script
}

fn random_event(random: &mut Random, model: &Model, state: &State) -> Vec<u8> {
    let choice = random.below(100);
    let urgent = enabled_events(model, state);
    if choice < 5 {
        any_event(random)
    } else if choice < 15 {
        vec![REQUEST, random_request(random, model, state)]
    } else if choice < 16 {
        vec![TICK, 0, 0]
    } else if choice < 24 {
        tempting_event(random, model, state)
    } else if choice < 28 || urgent.is_empty() {
        vec![TICK, random.one_of(&[1, 1, 1, 1, 2, 3, 9]), 0]
    } else {
        let (kind, id) = random.one_of(&urgent);
        event_bytes(random, model, kind, id)
    }
}

/// Mostly a mode transition that leaves the present mode; else any number, and
/// now and then one too great.
fn random_request(random: &mut Random, model: &Model, state: &State) -> u8 {
    let transitions = &model.mode_transitions;
    let leaving: Vec<usize> = (0..transitions.len())
        .filter(|&number| transitions[number].from == state.mode)
        .collect();
    if leaving.is_empty() || random.chance(30) {
        random.below(transitions.len() + 1) as u8
    } else {
        random.one_of(&leaving) as u8
    }
}

/// Any kind, with an id that may name nothing and a length that may not be
/// allowed.
fn any_event(random: &mut Random) -> Vec<u8> {
    let (kind, id) = (random.within(1, 10) as u8, random.below(5) as u8);
    let mut bytes = vec![kind, id];
    if kind == START {
        let length: u32 = random.one_of(&[0, 1, 2, 3, 4, 5, u32::MAX]);
        bytes.extend(length.to_le_bytes());
    }
    bytes
}

/// An event that fits a thread's code, whatever else may hold it back; often the
/// stop of a thread that leaves with a job, critical or not.
fn tempting_event(random: &mut Random, model: &Model, state: &State) -> Vec<u8> {
    let leaves = |own: &ThreadState| !own.active && own.code > 1;
    let leaving = state.threads.iter().position(leaves);
    if let Some(thread) = leaving.filter(|_| random.chance(60)) {
        return vec![DEACTIVATE, thread as u8];
    }
    let thread = random.below(model.threads.len().max(1));
    let code = state.threads.get(thread).map_or(0, |own| own.code);
    let kind = match code {
        0 => ACTIVATE,
        1 => random.one_of(&[DEACTIVATE, DISPATCH, DISPATCH]),
        2 => random.one_of(&[START, START, MISS, DEACTIVATE]),
        3 => random.one_of(&[COMPLETE, MISS, DEACTIVATE]),
        _ => random.one_of(&[DEADLINE, DEACTIVATE]),
    };
    event_bytes(random, model, kind, thread as u8)
}

fn event_bytes(random: &mut Random, model: &Model, kind: u8, id: u8) -> Vec<u8> {
    let mut bytes = vec![kind, id];
    if kind == START {
        let thread = &model.threads[usize::from(id)];
        // Now and then one below Min or above Max.
        let low = thread.bcet.0 as usize - usize::from(random.chance(10));
        let high = thread.wcet.0 as usize + usize::from(random.chance(10));
        bytes.extend((random.within(low, high) as u32).to_le_bytes());
    }
    bytes
}

fn enabled_events(model: &Model, state: &State) -> Vec<(u8, u8)> {
    let kinds = (ACTIVATE..=MISS).chain(ENTER..=LEAVE);
    kinds
        .flat_map(|kind| (0..16).map(move |id| (kind, id)))
        .filter(|&(kind, id)| model::enabled(model, state, kind, id))
        .collect()
}

// The tests

#[test]
fn model_and_table_agree() {
    let mut random = Random(0x9E37_79B9_7F4A_7C15);
    let mut taken_of_kind = [0; 12];
    let mut refused_of_kind = [0; 12];
    for case in 0..3000 {
        let model_bytes = random_model(&mut random);
        let model = model::read(&model_bytes)
            .unwrap_or_else(|refusal| panic!("case {case}: {refusal:?} of {model_bytes:02x?}"));
        let script = random_script(&mut random, &model);
        let answers = simulation(&model_bytes, &script).unwrap_or_else(|difference| {
            panic!("case {case}: {difference}\n{model_bytes:02x?}\n{script:02x?}")
        });
        for answer in answers {
            if let Some(Event { kind, .. }) = answer.event {
                let counts = if answer.number == 0 {
                    &mut taken_of_kind
                } else {
                    &mut refused_of_kind
                };
                counts[usize::from(kind)] += 1;
            }
        }
    }
    // Each kind of event was taken often, and refused too.
    for kind in 1..=11 {
        assert!(
            taken_of_kind[kind] > 100,
            "kind {kind} taken: {taken_of_kind:?}"
        );
        assert!(
            refused_of_kind[kind] > 50,
            "kind {kind} refused: {refused_of_kind:?}"
        );
    }
}

/// What came of DEACTIVATE along some scripts, by the code of its thread.
#[derive(Default)]
struct Stops {
    taken: [usize; 5],
    /// Of threads that are not active, but critical.
    refused: [usize; 5],
}

impl Stops {
    /// Runs a script. DEACTIVATE is answered by activity, code and mark alone, and no
    /// thread that could be stopped is there once the instant of ENTER is over.
    fn note(&mut self, model: &Model, script: &[u8]) {
        let mut state = model::start_state(model);
        let mut position = 0;
        while position < script.len() {
            let before = state.clone();
            let step = |state: &_, event: &_| model::step(model, state, event);
            let answer = answer_one(script, position, &mut state, step);
            match answer.event {
                Some(Event {
                    kind: DEACTIVATE,
                    id,
                    ..
                }) if usize::from(id) < model.threads.len() => {
                    self.note_answer(model, &before, id, answer.number)
                }
                _ => {}
            }
            let entering = state.phase == 2 && state.now == state.entered_at;
            assert!(entering || !someone_lingers(model, &state), "{state:?}");
            position = answer.end;
        }
    }

    fn note_answer(&mut self, model: &Model, before: &State, id: u8, number: u8) {
        let own = &before.threads[usize::from(id)];
        let critical = model.threads[usize::from(id)].critical;
        let code = usize::from(own.code);
        let wanted = !own.active && (code == 1 || (code > 1 && !critical));
        assert_eq!(number == 0, wanted, "{own:?}");
        self.taken[code] += usize::from(wanted);
        self.refused[code] += usize::from(!own.active && critical && !wanted);
    }
}

/// Whether a thread that is neither active nor critical has a job.
fn someone_lingers(model: &Model, state: &State) -> bool {
    let mut threads = state.threads.iter().zip(&model.threads);
    threads.any(|(own, thread)| !own.active && !thread.critical && own.code > 1)
}

#[test]
fn who_leaves_is_stopped_at_once() {
    let mut random = Random(0x5851_F42D_4C95_7F2D);
    let mut stops = Stops::default();
    for _ in 0..3000 {
        let model_bytes = random_model(&mut random);
        let model = model::read(&model_bytes).expect("an accepted model");
        let script = random_script(&mut random, &model);
        stops.note(&model, &script);
    }
    for code in 2..=4 {
        assert!(stops.taken[code] > 15, "taken: {:?}", stops.taken);
        assert!(stops.refused[code] > 15, "refused: {:?}", stops.refused);
    }
}

#[test]
fn damaged_models_are_refused_or_agree() {
    let mut random = Random(0xD1B5_4A32_D192_ED03);
    let (mut accepted, mut refused) = (0, [0; 16]);
    for case in 0..6000 {
        let mut model_bytes = random_model(&mut random);
        damage(&mut random, &mut model_bytes);
        match model::read(&model_bytes) {
            Err(refusal) => {
                assert!(refusal.start <= refusal.end && refusal.end <= model_bytes.len());
                refused[usize::from(refusal.number)] += 1;
            }
            Ok(model) => {
                let script = random_script(&mut random, &model);
                accepted += 1;
                if let Err(difference) = simulation(&model_bytes, &script) {
                    panic!("case {case}: {difference}\n{model_bytes:02x?}\n{script:02x?}");
                }
            }
        }
    }
    assert!(accepted > 200, "accepted: {accepted}");
    for number in [1, 2, 4, 5, 6, 14, 15] {
        assert!(refused[number] > 10, "refused: {refused:?}");
    }
}

#[test]
fn damaged_tables_are_refused_or_run() {
    let mut random = Random(0x2545_F491_4F6C_DD1D);
    let (mut accepted, mut refused) = (0, [0; 16]);
    for _ in 0..3000 {
        let model_bytes = random_model(&mut random);
        let model = model::read(&model_bytes).expect("an accepted model");
        let mut bytes = translate(&model_bytes, LONGEST_TABLE).expect("a table");
        damage(&mut random, &mut bytes);
        match table::read(&bytes) {
            Err(refusal) => {
                assert!(refusal.start <= refusal.end && refusal.end <= bytes.len());
                refused[usize::from(refusal.number)] += 1;
            }
            Ok(table) => {
                let script = random_script(&mut random, &model);
                let mut variables = table::start_state(&table);
                run_on(
                    &script,
                    &mut variables,
                    |variables, event| table::step(&table, variables, event),
                    |answer, _| assert!(matches!(answer.number, 0 | 9..=13)),
                );
                accepted += 1;
            }
        }
    }
    assert!(accepted > 200, "accepted: {accepted}");
    for (number, count) in refused.into_iter().enumerate() {
        let met = matches!(number, 1 | 2 | 4 | 14);
        assert!(met == (count > 0), "{number}, refused: {refused:?}");
    }
    assert!(refused.iter().sum::<usize>() > 200, "refused: {refused:?}");
}

/// Some whole records of any content, mostly in the order of their places, and
/// now and then cut.
fn random_records(random: &mut Random, kinds: &[u8], body_length: fn(u8) -> usize) -> Vec<u8> {
    let mut kinds: Vec<u8> = (0..random.below(8)).map(|_| random.one_of(kinds)).collect();
    if random.chance(70) {
        // Input ports with a written start stand among the others.
        kinds.sort_by_key(|&kind| if kind == 0x0B { 0x03 } else { kind });
    }
    let mut bytes = Vec::new();
    for kind in kinds {
        bytes.push(kind);
        let body = (0..body_length(kind)).map(|_| random.one_of(&[0, 0, 0, 0, 0, 1, 1, 2, 255]));
        bytes.extend(body);
    }
    if random.chance(20) {
        bytes.truncate(random.below(bytes.len() + 1));
    }
    bytes
}

/// A head and two threads.
const TWO_THREADS: &[u8] = &[
    1, 1, 0, // one mode
    2, 2, 0, 0, 0, 2, 0, 0, 0, 1, 0, 0, 0, 1, 0, 0, 0, 1, 0, 0, // Period 2
    2, 3, 0, 0, 0, 2, 0, 0, 0, 1, 0, 0, 0, 2, 0, 0, 0, 0, 1, 0, // Period 3
];

/// The body lengths of the documents, written here apart from the readers.
fn model_body(kind: u8) -> usize {
    match kind {
        0x01..=0x0B => [2, 19, 1, 1, 5, 4, 2, 3, 8, 13, 5][usize::from(kind) - 1],
        _ => 0,
    }
}

fn table_body(kind: u8) -> usize {
    match kind {
        0x20..=0x24 => [6, 10, 0, 8, 16][usize::from(kind) - 0x20],
        _ => 0,
    }
}

/// What a refusal of bytes promises: the records before the part are accepted by
/// themselves, the part is one whole record or goes up to the end, and what
/// follows it has no say.
fn refusal_fits<T>(
    bytes: &[u8],
    refusal: Refusal,
    read: fn(&[u8]) -> Result<T, Refusal>,
    known: std::ops::RangeInclusive<u8>,
    body_length: fn(u8) -> usize,
) {
    let Refusal { number, start, end } = refusal;
    assert!(start <= end && end <= bytes.len(), "{refusal:?}");
    assert!(
        start == 0 || read(&bytes[..start]).is_ok(),
        "{refusal:?} of {bytes:02x?}"
    );
    assert_eq!(read(&bytes[..end]).err(), Some(refusal), "{bytes:02x?}");
    let Some(&kind) = bytes.get(start) else {
        // No record at all, and so no head.
        assert_eq!((number, start, bytes.len()), (2, 0, 0));
        return;
    };
    let whole = start + 1 + body_length(kind);
    match number {
        1 => assert!(known.contains(&kind) && whole > bytes.len() && end == bytes.len()),
        2 if !known.contains(&kind) => assert_eq!(end, bytes.len(), "{bytes:02x?}"),
        2..=7 | 14 | 15 => assert_eq!(end, whole, "{refusal:?} of {bytes:02x?}"),
        _ => panic!("{refusal:?} of {bytes:02x?}"),
    }
}

#[test]
fn any_bytes_are_read() {
    let mut random = Random(0x0123_4567_89AB_CDEF);
    let (mut models, mut tables, mut events) = ([0; 16], [0; 16], [0; 2]);
    for case in 0..60_000 {
        let bytes: Vec<u8> = match case % 3 {
            0 => (0..random.below(60))
                .map(|_| (random.next() >> 40) as u8 % 48)
                .collect(),
            1 => {
                let kinds = [3, 11, 3, 11, 4, 4, 5, 5, 6, 6, 7, 8, 9, 10];
                let records = random_records(&mut random, &kinds, model_body);
                [TWO_THREADS, &records].concat()
            }
            _ => random_records(&mut random, &[0x20, 0x21, 0x22, 0x23, 0x24], table_body),
        };
        let refusal = model::read(&bytes).err();
        models[refusal.map_or(0, |refusal| usize::from(refusal.number))] += 1;
        match refusal {
            Some(refusal) => refusal_fits(&bytes, refusal, model::read, 1..=11, model_body),
            None => drop(simulation(&bytes, &[]).expect("model and table agree at the start")),
        }
        let refusal = table::read(&bytes).err();
        tables[refusal.map_or(0, |refusal| usize::from(refusal.number))] += 1;
        if let Some(refusal) = refusal {
            refusal_fits(&bytes, refusal, table::read, 0x20..=0x24, table_body);
        }
        if !bytes.is_empty() {
            let taken = any_event_is_read(&bytes);
            events[usize::from(taken)] += 1;
        }
    }
    for (what, counts) in [("models", models), ("tables", tables)] {
        for number in [0, 1, 2, 4, 14] {
            assert!(counts[number] > 500, "{what}, {number}: {counts:?}");
        }
    }
    assert!(events.iter().all(|&count| count > 1_000), "{events:?}");
}

/// The event at the start of some bytes, and whether there is one: it is what its
/// bytes say, or the part that is refused is.
fn any_event_is_read(bytes: &[u8]) -> bool {
    let kind = bytes[0];
    let length = match kind {
        START => 6,
        TICK => 3,
        ACTIVATE..=LEAVE => 2,
        _ => bytes.len(),
    };
    match read_event(bytes, 0) {
        Ok((event, end)) => {
            assert_eq!((event.kind, end), (kind, length), "{bytes:02x?}");
            let figure = |bytes: &[u8]| {
                bytes
                    .iter()
                    .rev()
                    .fold(0, |sum, &byte| sum * 256 + u64::from(byte))
            };
            let wanted = match kind {
                TICK => (0, 0, figure(&bytes[1..3])),
                START => (bytes[1], figure(&bytes[2..6]), 0),
                _ => (bytes[1], 0, 0),
            };
            let found = (event.id, u64::from(event.length), u64::from(event.ticks));
            assert_eq!(found, wanted, "{bytes:02x?}");
            true
        }
        Err(refusal) => {
            let wanted = Refusal {
                number: 9,
                start: 0,
                end: length.min(bytes.len()),
            };
            assert_eq!(refusal, wanted, "{bytes:02x?}");
            let known = (ACTIVATE..=TICK).contains(&kind);
            let none = kind == TICK && bytes.len() >= 3 && bytes[1..3] == [0, 0];
            assert!(!known || bytes.len() < length || none, "{bytes:02x?}");
            false
        }
    }
}
