//! Threads that leave are stopped: DEACTIVATE of a thread that is not critical, not
//! active and has a job in hand, at each code of such a job.

mod common;
mod taken;

use common::{model_and_table, simulation};
use plain::model::{self, Duration, State, COMPLETED, EXECUTION, NONE, WAITING_EXECUTION};
use plain::offers::{self, Offer};
use plain::script::{
    run_on, ACTIVATE, COMPLETE, DEACTIVATE, DEADLINE, DISPATCH, ENTER, LEAVE, MISS, REQUEST, START,
    TICK,
};
use plain::size::table_size;
use plain::table::{self, variable, Variables};
use plain::translate::translate;
use taken::variables_after;

/// The thread that leaves with mode 0, the one that comes with mode 1, and one that
/// is in both.
const DRAWING: u8 = 0;
const EXAM: u8 = 1;
const STAYING: u8 = 2;

/// Period, Deadline, Min, Max, mask and critical mark.
fn thread(figures: [u32; 4], mask: u8, critical: u8) -> Vec<u8> {
    let figures = figures.map(u32::to_le_bytes).concat();
    [&[0x02], &figures[..], &[mask, critical, 0]].concat()
}

/// The first thread sends 9 to the second over an immediate and a delayed
/// connection, both of both modes; with its first job its behaviour state becomes 1.
fn pad(critical: u8) -> Vec<u8> {
    [
        &[0x01, 2, 0],
        &thread([6, 6, 1, 9], 0b01, critical)[..],
        &thread([4, 4, 1, 2], 0b10, 0),
        &thread([12, 12, 1, 12], 0b11, 0),
        &[0x03, EXAM, 0x03, EXAM, 0x04, DRAWING],
        &[0x06, 0, 0, 0, 0b11, 0x06, 1, 0, 1, 0b11],
        &[0x07, 0, 1, 0x07, 1, 0],
        &[0x08, DRAWING, 0, 1],
        &[0x0A, 3, 0, 0, 0, 9, 0, 0, 0, 0, 0, 0, 0, 0],
    ]
    .concat()
}

const STOP: [u8; 2] = [DEACTIVATE, DRAWING];
/// Both threads of mode 0 are dispatched.
const DISPATCHED: [u8; 8] = [
    ACTIVATE, DRAWING, ACTIVATE, STAYING, DISPATCH, DRAWING, DISPATCH, STAYING,
];
/// Mode 1 is asked for and entered, and its thread activated.
const EXAM_BEGINS: [u8; 6] = [REQUEST, 0, ENTER, 0, ACTIVATE, EXAM];

fn start(thread: u8, length: u8) -> [u8; 6] {
    [START, thread, length, 0, 0, 0]
}

fn tick(count: u8) -> [u8; 3] {
    [TICK, count, 0]
}

/// The thread that leaves waits for execution while the other runs; the clock is 1.
fn left_waiting() -> Vec<u8> {
    [&DISPATCHED[..], &start(STAYING, 12), &tick(1), &EXAM_BEGINS].concat()
}

/// It runs, and has work left.
fn left_running() -> Vec<u8> {
    [&DISPATCHED[..], &start(DRAWING, 3), &tick(1), &EXAM_BEGINS].concat()
}

/// It has completed, and the other runs.
fn left_completed() -> Vec<u8> {
    [
        &DISPATCHED[..],
        &start(DRAWING, 1),
        &tick(1),
        &[COMPLETE, DRAWING],
        &start(STAYING, 12),
        &EXAM_BEGINS,
    ]
    .concat()
}

/// Each with the code in which the thread leaves.
fn left() -> [(u8, Vec<u8>); 3] {
    [
        (WAITING_EXECUTION, left_waiting()),
        (EXECUTION, left_running()),
        (COMPLETED, left_completed()),
    ]
}

/// The state after events that are all taken, by the model's table too.
fn state_after(model_bytes: &[u8], script: &[u8]) -> State {
    variables_after(model_bytes, script);
    let model = model::read(model_bytes).expect("an accepted model");
    let mut state = model::start_state(&model);
    let step = |state: &_, event: &_| model::step(&model, state, event);
    run_on(script, &mut state, step, |_, _| {});
    state
}

/// All of the table's variables, those among them that stand for nothing.
fn of_table_after(model_bytes: &[u8], script: &[u8]) -> Variables {
    let (_, table) = model_and_table(model_bytes).expect("an accepted model");
    let mut variables = table::start_state(&table);
    let step = |variables: &_, event: &_| table::step(&table, variables, event);
    run_on(script, &mut variables, step, |_, _| {});
    variables
}

/// The answers to some events after others, which are all taken.
fn answers(model_bytes: &[u8], before: &[u8], events: &[u8]) -> Vec<u8> {
    state_after(model_bytes, before);
    let whole = [before, events].concat();
    let answers = simulation(model_bytes, &whole).expect("model and table agree");
    let later = answers.iter().filter(|answer| answer.start >= before.len());
    later.map(|answer| answer.number).collect()
}

/// What is enabled but REQUEST, and whether time may pass.
fn enabled(model_bytes: &[u8], script: &[u8]) -> (Vec<[u8; 2]>, bool) {
    let model = model::read(model_bytes).expect("an accepted model");
    let enabled = offers::of_model(&model, &state_after(model_bytes, script));
    let event = |offer: &Offer| [offer.kind, offer.id];
    let mut events: Vec<[u8; 2]> = enabled.events.iter().map(event).collect();
    events.retain(|event| event[0] != REQUEST);
    (events, enabled.tick)
}

// What a stop does

/// The code becomes 0, and of the rest only what a running job had is another.
#[test]
fn a_stop_at_each_code() {
    for (code, before) in left() {
        let mut wanted = state_after(&pad(0), &before);
        assert_eq!(wanted.threads[0].code, code);
        assert_eq!(
            wanted.cpu,
            if code == EXECUTION { DRAWING } else { STAYING }
        );
        let found = state_after(&pad(0), &[&before[..], &STOP].concat());
        wanted.threads[0].code = 0;
        if code == EXECUTION {
            wanted.cpu = NONE;
            wanted.threads[0].length = Duration(0);
            wanted.threads[0].spent = Duration(0);
        }
        assert_eq!(found, wanted, "stopped at {code}");
        assert_eq!(found.threads[0].missed, 0);
    }
}

#[test]
fn what_a_job_came_to_stays() {
    let found = state_after(&pad(0), &[&left_completed()[..], &STOP].concat());
    let own = &found.threads[0];
    assert_eq!((own.behavior_state, found.output_ports[0].0), (1, 9));
    // COMPLETE had sent; what DEADLINE would send is not copied.
    let buffers = found.port_buffers.iter().map(|value| value.0);
    assert_eq!(buffers.collect::<Vec<i32>>(), [9, 0]);
    let variables = variables_after(&pad(0), &[&left_waiting()[..], &STOP].concat());
    assert_eq!(variables[variable::due(0)], 6);
}

/// In the table End is 0 after a stop at 3; before it was not.
#[test]
fn the_end_of_a_stopped_job() {
    let before = of_table_after(&pad(0), &left_running());
    assert_eq!(before[variable::end(0)], 3);
    let after = of_table_after(&pad(0), &[&left_running()[..], &STOP].concat());
    let mut wanted = before;
    for (variable, value) in [
        (variable::state(0), 0),
        (variable::CPU, i32::from(NONE)),
        (variable::end(0), 0),
    ] {
        wanted[variable] = value;
    }
    assert_eq!(after, wanted);
}

#[test]
fn a_stopped_thread_is_not_stopped_again() {
    for (code, before) in left() {
        let twice = [STOP, STOP].concat();
        assert_eq!(answers(&pad(0), &before, &twice), [0, 10], "{code}");
    }
}

/// Back in its mode, the thread is activated and dispatched as at first, its Missed
/// and behaviour state being those of before.
#[test]
fn a_stopped_thread_comes_back() {
    let missed = [&DISPATCHED[..], &start(STAYING, 12), &tick(6)].concat();
    let again = [MISS, DRAWING, DISPATCH, DRAWING, REQUEST, 0, ENTER, 0];
    let stopped = [&missed[..], &again, &STOP, &[ACTIVATE, EXAM], &tick(1)].concat();
    let own = &state_after(&pad(0), &stopped).threads[0];
    assert_eq!((own.missed, own.dispatch_time), (1, Duration(6)));
    let back = [&stopped[..], &[LEAVE, 0, REQUEST, 1, ENTER, 1]].concat();
    let back = [&back[..], &[DEACTIVATE, EXAM, ACTIVATE, DRAWING], &tick(1)].concat();
    let back = [&back[..], &[LEAVE, 1], &tick(4)].concat();
    let dispatched = [&back[..], &[DISPATCH, DRAWING]].concat();
    let own = &state_after(&pad(0), &dispatched).threads[0];
    assert_eq!((own.code, own.dispatch_time), (2, Duration(12)));
    assert_eq!((own.missed, own.behavior_state), (1, 0));
}

// Who is stopped

/// With code 1 every thread is deactivated, with 0 none.
#[test]
fn without_a_job_as_before() {
    for critical in [0, 1] {
        let before = [ACTIVATE, DRAWING, REQUEST, 0, ENTER, 0];
        let twice = [STOP, STOP].concat();
        assert_eq!(answers(&pad(critical), &before, &twice), [0, 10]);
    }
}

/// At each code, as long as the mode is not left.
#[test]
fn an_active_thread_is_not_stopped() {
    let no_exam = |events: Vec<u8>| events[..events.len() - EXAM_BEGINS.len()].to_vec();
    let jobs = left().map(|(_, events)| no_exam(events));
    let asked = jobs
        .clone()
        .map(|events| [&events[..], &[REQUEST, 0]].concat());
    let idle = [Vec::new(), vec![ACTIVATE, DRAWING]];
    for events in idle.into_iter().chain(jobs).chain(asked) {
        assert_eq!(answers(&pad(0), &events, &STOP), [10], "{events:?}");
    }
}

/// Sixteen threads, the most that there can be; the last one runs.
#[test]
fn every_thread_is_stopped() {
    let threads = thread([5, 4, 1, 5], 0b01, 0).repeat(16);
    let model = [&[0x01, 2, 0], &threads[..], &[0x07, 0, 1]].concat();
    let dispatched = (0..16).flat_map(|id| [ACTIVATE, id, DISPATCH, id]);
    let dispatched: Vec<u8> = dispatched.collect();
    let left = [&dispatched[..], &start(15, 1), &[REQUEST, 0, ENTER, 0]].concat();
    let stops: Vec<u8> = (0..16).flat_map(|id| [DEACTIVATE, id]).collect();
    assert_eq!(answers(&model, &left, &stops), [0; 16]);
    let state = state_after(&model, &[left, stops].concat());
    assert_eq!(state.cpu, NONE);
    assert!(state.threads.iter().all(|own| own.code == 0));
}

/// Entered at 0 or 6, since its Period is the hyperperiod.
fn critical_left() -> [(u8, Vec<u8>); 3] {
    let runs = [&DISPATCHED[..], &start(DRAWING, 1)].concat();
    let completed = [&runs[..], &tick(1), &[COMPLETE, DRAWING]].concat();
    let waits = [&completed[..], &start(STAYING, 12), &tick(5)].concat();
    [
        (WAITING_EXECUTION, DISPATCHED.to_vec()),
        (EXECUTION, runs),
        (COMPLETED, waits),
    ]
    .map(|(code, events)| (code, [&events[..], &EXAM_BEGINS].concat()))
}

#[test]
fn a_critical_thread_is_not_stopped() {
    for (code, before) in critical_left() {
        let state = state_after(&pad(1), &before);
        let own = &state.threads[0];
        assert_eq!((own.active, own.code), (false, code));
        assert_eq!(answers(&pad(1), &before, &STOP), [10], "at {code}");
        // The mark alone makes the difference.
        assert_eq!(answers(&pad(0), &before, &STOP), [0], "at {code}");
    }
}

/// It goes on to its deadline, time passes meanwhile, and then it has code 0.
#[test]
fn a_critical_thread_goes_on() {
    let [_, (_, runs), (_, completed)] = critical_left();
    let exam = [&runs[..], &[DISPATCH, EXAM], &tick(1)].concat();
    let rest = [
        &[COMPLETE, DRAWING, LEAVE, 0][..],
        &start(EXAM, 2),
        &tick(2),
    ]
    .concat();
    let rest = [&rest[..], &[COMPLETE, EXAM], &start(STAYING, 9), &tick(1)].concat();
    let rest = [&rest[..], &[DEADLINE, EXAM, DISPATCH, EXAM], &tick(2)].concat();
    let whole = [&exam[..], &rest, &[DEADLINE, DRAWING]].concat();
    let state = state_after(&pad(1), &whole);
    assert_eq!((state.threads[0].code, state.now), (0, Duration(6)));
    let buffers = state.port_buffers.iter().map(|value| value.0);
    assert_eq!(buffers.collect::<Vec<i32>>(), [9, 9]);
    // Entered at its deadline, it is due at once.
    let both = [DEADLINE, DRAWING, DEACTIVATE, DRAWING];
    assert_eq!(answers(&pad(1), &completed, &both), [0, 10]);
}

// What waits for a stop

/// Nothing else is enabled, and no tick passes before the stop.
#[test]
fn time_waits_for_a_stop() {
    for (code, before) in left() {
        let (events, may_pass) = enabled(&pad(0), &before);
        assert_eq!((events, may_pass), (vec![STOP], false), "at {code}");
        assert_eq!(answers(&pad(0), &before, &tick(1)), [10], "at {code}");
        let stopped = [&before[..], &STOP].concat();
        let expected = match code {
            // The processor is free for the thread that waits for it.
            EXECUTION => vec![[START, STAYING]],
            _ => Vec::new(),
        };
        let may_pass = expected.is_empty();
        assert_eq!(
            enabled(&pad(0), &stopped),
            (expected, may_pass),
            "at {code}"
        );
    }
}

/// With a critical thread in the same place it passes.
#[test]
fn time_does_not_wait_for_a_critical_thread() {
    let [_, (_, runs), _] = critical_left();
    let before = [&runs[..], &[DISPATCH, EXAM]].concat();
    assert_eq!(enabled(&pad(1), &before), (Vec::new(), true));
    assert_eq!(answers(&pad(1), &before, &tick(1)), [0]);
    assert_eq!(enabled(&pad(0), &before), (vec![STOP], false));
    assert_eq!(answers(&pad(0), &before, &tick(1)), [10]);
}

/// A job that waits may still be started before it is stopped.
#[test]
fn a_leaving_thread_may_start() {
    let before = [&DISPATCHED[..], &EXAM_BEGINS].concat();
    let rest = [&start(DRAWING, 1)[..], &STOP, &start(STAYING, 1)].concat();
    assert_eq!(answers(&pad(0), &before, &rest), [0, 0, 0]);
}

/// The thread that it feeds at once waits for its job, until that is stopped.
#[test]
fn a_reader_goes_on_after_a_stop() {
    let before = [&DISPATCHED[..], &EXAM_BEGINS, &[DISPATCH, EXAM]].concat();
    let begin = start(EXAM, 1);
    let rest = [&begin[..], &STOP, &begin].concat();
    assert_eq!(answers(&pad(0), &before, &rest), [10, 0, 0]);
}

/// A job that is due holds back the dispatch of a thread that it feeds later; one
/// that is stopped does not.
#[test]
fn a_dispatch_goes_on_after_a_stop() {
    let mut model = pad(0);
    // The reader's Period is 6 too.
    model[24] = 6;
    let completed = [
        &DISPATCHED[..],
        &start(DRAWING, 1),
        &tick(1),
        &[COMPLETE, DRAWING],
    ];
    let due = [
        &completed.concat()[..],
        &start(STAYING, 12),
        &tick(5),
        &EXAM_BEGINS,
    ]
    .concat();
    let reader = [DISPATCH, EXAM];
    let rest = [reader, STOP, reader].concat();
    assert_eq!(answers(&model, &due, &rest), [10, 0, 0]);
    let variables = variables_after(&model, &[&due[..], &STOP, &reader].concat());
    assert_eq!(variables[variable::input_port(1)], 0);
    // The deadline in its place sends first.
    let sent = variables_after(&model, &[&due[..], &[DEADLINE, DRAWING], &reader].concat());
    assert_eq!(sent[variable::input_port(1)], 9);
}

// At Due the list chooses

/// The clock is 6, at which the job of the thread that leaves is due. Each with its
/// code and what else may happen to it.
fn left_at_due() -> [(u8, u8, Vec<u8>); 4] {
    let begun = |events: &[u8]| [&DISPATCHED[..], events].concat();
    let completed = [&start(DRAWING, 1)[..], &tick(1), &[COMPLETE, DRAWING]].concat();
    [
        (WAITING_EXECUTION, MISS, begun(&start(STAYING, 12))),
        (EXECUTION, MISS, begun(&start(DRAWING, 7))),
        (EXECUTION, COMPLETE, begun(&start(DRAWING, 6))),
        (
            COMPLETED,
            DEADLINE,
            begun(&[&completed[..], &start(STAYING, 12)].concat()),
        ),
    ]
    .map(|(code, rival, events)| {
        let passed = if code == COMPLETED { 1 } else { 0 };
        let due = [&events[..], &tick(6 - passed), &EXAM_BEGINS].concat();
        (code, rival, due)
    })
}

#[test]
fn a_stop_has_rivals_at_due() {
    for (code, rival, due) in left_at_due() {
        let rival = [rival, DRAWING];
        let state = state_after(&pad(0), &due);
        assert_eq!((state.threads[0].code, state.now), (code, Duration(6)));
        let (events, may_pass) = enabled(&pad(0), &due);
        assert_eq!((events, may_pass), (vec![STOP, rival], false));
        // The one that is taken leaves nothing to the other, but that a job which
        // completes is still there.
        let stop_first = [STOP, rival].concat();
        assert_eq!(answers(&pad(0), &due, &stop_first), [0, 10], "{rival:?}");
        let rival_first = [rival, STOP].concat();
        let stop = if rival[0] == COMPLETE { 0 } else { 10 };
        assert_eq!(answers(&pad(0), &due, &rival_first), [0, stop], "{rival:?}");
    }
}

/// A stop is no miss and no deadline.
#[test]
fn a_stop_at_due_counts_and_sends_nothing() {
    for (code, rival, due) in left_at_due() {
        let stopped = state_after(&pad(0), &[&due[..], &STOP].concat());
        let other = state_after(&pad(0), &[&due[..], &[rival, DRAWING]].concat());
        let missed = [stopped.threads[0].missed, other.threads[0].missed];
        assert_eq!(missed, [0, u64::from(rival == MISS)], "at {code}");
        let delayed = [stopped.port_buffers[1].0, other.port_buffers[1].0];
        let sent = if rival == DEADLINE { 9 } else { 0 };
        assert_eq!(delayed, [0, sent], "at {code}");
    }
}

// The table

fn rule(id: u8) -> Vec<u8> {
    vec![0x21, DEACTIVATE, id, 0, 0, 0, 0, 0, 0, 0, 0]
}

/// A clause of one atom: the variable has this value.
fn clause(variable: u8, value: u8) -> Vec<u8> {
    vec![0x22, 0x23, 0, variable, 0, 0, value, 0, 0, 0]
}

/// The variable becomes this value.
fn update(variable: u8, value: u8) -> Vec<u8> {
    vec![
        0x24, 255, 255, 0, variable, 0, 0, 0, value, 0, 0, 0, 0, 0, 0, 0, 0,
    ]
}

/// A rule of DEACTIVATE at some code, with updates of those variables.
fn rule_at(id: u8, code: u8, updates: &[(u8, u8)]) -> Vec<u8> {
    let mut bytes = [rule(id), clause(16 + id, 0), clause(32 + id, code)].concat();
    bytes.extend(updates.iter().flat_map(|&(to, value)| update(to, value)));
    bytes
}

fn rules_of(id: u8, critical: bool) -> Vec<u8> {
    let old = rule_at(id, 1, &[(32 + id, 0)]);
    if critical {
        return old;
    }
    [
        old,
        rule_at(id, 2, &[(32 + id, 0)]),
        rule_at(id, 3, &[(32 + id, 0), (5, 255), (80 + id, 0)]),
        rule_at(id, 4, &[(32 + id, 0)]),
    ]
    .concat()
}

fn head_and_threads(critical: &[bool]) -> Vec<u8> {
    let threads = critical
        .iter()
        .map(|&mark| thread([5, 4, 1, 5], 1, mark.into()));
    [vec![0x01, 1, 0], threads.collect::<Vec<_>>().concat()].concat()
}

/// Behind all of kind 1 and before all of kind 3, thread by thread.
#[test]
fn the_rules_of_kind_2() {
    let marks: [&[bool]; 6] = [
        &[false],
        &[true],
        &[false, true],
        &[true, false],
        &[false, false, true, false],
        &[false; 16],
    ];
    for critical in marks {
        let made = translate(&head_and_threads(critical), 100_000).expect("accepted");
        let own = (0..).zip(critical).map(|(id, &mark)| rules_of(id, mark));
        let own = own.collect::<Vec<_>>().concat();
        // Starts of Pending, Cpu and all Active, then a rule of kind 1 each.
        let before = (2 + critical.len()) * 7 + critical.len() * (11 + 2 * 10 + 17);
        let behind = before + own.len();
        assert_eq!(made[before..behind], own, "{critical:?}");
        assert_eq!(made[behind..behind + 3], [0x21, DISPATCH, 0]);
    }
}

/// What a thread that is not critical adds to the table: bytes, rules, clauses,
/// atoms and updates.
const STOP_ADDS: [usize; 5] = [178, 3, 6, 6, 5];

#[test]
fn the_size_of_the_rules() {
    let size = |critical: &[bool]| table_size(&head_and_threads(critical)).1.told();
    for threads in 1..=16 {
        let all_critical = size(&vec![true; threads]);
        for plain_threads in 0..=threads {
            let mut critical = vec![true; threads];
            critical[threads - plain_threads..].fill(false);
            let found = size(&critical);
            let wanted: [usize; 5] =
                std::array::from_fn(|at| all_critical[at] + plain_threads * STOP_ADDS[at]);
            assert_eq!(found, wanted, "{plain_threads} of {threads}");
        }
    }
}
