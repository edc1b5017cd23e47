//! What is said of stops, held against what the library tells in every state that a
//! small model reaches.

use std::collections::HashSet;

use futonkestrel::{events, translate_to_vec, Enabled, Model, State, Table};

use super::*;
use crate::format::{NONE, TICK};
use crate::names::Names;

/// Two modes with both transitions; thread 0 is critical, thread 1 is not, and both
/// are in the first mode alone.
const MODEL: &[u8] = &[
    0x01, 2, 0, //
    0x02, 2, 0, 0, 0, 2, 0, 0, 0, 1, 0, 0, 0, 1, 0, 0, 0, 1, 1, 0, //
    0x02, 4, 0, 0, 0, 4, 0, 0, 0, 1, 0, 0, 0, 3, 0, 0, 0, 1, 0, 0, //
    0x07, 0, 1, 0x07, 1, 0,
];
/// No tick passes it.
const LAST: i32 = 9;

/// A state, and events that lead there.
struct Reached {
    look: Look,
    enabled: Enabled,
    script: Vec<u8>,
}

/// Every state up to the last clock.
fn reached() -> Vec<Reached> {
    let model = Model::read(MODEL).expect("accepted");
    let mut met: HashSet<State> = HashSet::new();
    let mut left = vec![(model.start(), Vec::new())];
    let mut all = Vec::new();
    while let Some((state, script)) = left.pop() {
        if !met.insert(state.clone()) {
            continue;
        }
        let (variables, enabled) = (model.variables(&state), model.enabled(&state));
        let mut tried: Vec<Vec<u8>> = Vec::new();
        for offer in &enabled.events {
            tried.extend((offer.low..=offer.high).map(|length| offer.event(length)));
        }
        tried.extend((variables[NOW] < LAST).then(|| vec![TICK, 1, 0]));
        for event in tried {
            let mut next = state.clone();
            if model.step(&mut next, &event).is_ok() {
                left.push((next, [&script[..], &event].concat()));
            }
        }
        all.push(Reached {
            look: Look::new(variables),
            enabled,
            script,
        });
    }
    all
}

impl Reached {
    /// Whether DEACTIVATE of a thread is enabled.
    fn may_leave(&self, thread: usize) -> bool {
        let mut offers = self.enabled.events.iter();
        offers.any(|offer| (offer.kind, usize::from(offer.id)) == (DEACTIVATE, thread))
    }

    fn has_job(&self, thread: usize) -> bool {
        IN_HAND.contains(&self.look.code(thread))
    }
}

/// Critical threads with a job are said to go on exactly where DEACTIVATE is refused
/// to them for that, and a tick to wait exactly where it would stop a job.
#[test]
fn in_every_state() {
    let items = Items::of(MODEL, &Names::default());
    let [mut going_on, mut waiting] = [0, 0];
    for state in reached() {
        let look = &state.look;
        for thread in 0..2 {
            let may_leave = !look.is_active(thread) && look.code(thread) != WAITING_MODE;
            let goes_on = finishes(&items, look, thread).is_some();
            assert_eq!(state.may_leave(thread), may_leave && !goes_on);
            assert!(!goes_on || (may_leave && state.has_job(thread)));
            going_on += usize::from(goes_on);
        }
        let stopped = (0..2).filter(|thread| state.may_leave(*thread) && state.has_job(*thread));
        let waits = awaited(&items, look);
        assert_eq!(waits.is_some(), stopped.count() > 0);
        waiting += usize::from(waits.is_some());
    }
    assert!(going_on > 10 && waiting > 10, "{going_on} {waiting}");
}

/// What the last event of a script stops, and the variables before it.
fn last_stop(table: &Table, script: &[u8]) -> (Option<Stop>, Variables) {
    let (mut stops, mut variables) = (Stops::default(), table.start());
    let mut last = (None, variables);
    for event in events(script) {
        let before = variables;
        table.step(&mut variables, event).expect("it is taken");
        last = (stops.see(event, &before, &variables), before);
    }
    last
}

/// A job is said to be stopped exactly where its thread had one, after so long as the
/// table's End leaves it to run.
#[test]
fn how_far_it_had_come() {
    let bytes = translate_to_vec(MODEL).expect("accepted");
    let table = Table::read(&bytes).expect("accepted");
    let mut seen: Vec<Stop> = Vec::new();
    for state in reached().iter().filter(|state| state.may_leave(1)) {
        let script = [&state.script[..], &[DEACTIVATE, 1]].concat();
        let (stop, before) = last_stop(&table, &script);
        let end = variables::number("End", Some(1)).expect("there");
        let to_run = i64::from(before[end as usize] - before[NOW]);
        match (state.look.code(1), stop) {
            (1, None) => {}
            (WAITING_EXECUTION, Some(Stop::Waiting)) | (COMPLETED, Some(Stop::Done)) => {}
            (EXECUTION, Some(Stop::Running { ran, length })) => {
                assert_eq!(length - ran, to_run);
            }
            other => panic!("{other:?}"),
        }
        let stop = stop.filter(|stop| !seen.contains(stop));
        seen.extend(stop);
    }
    assert!(seen.contains(&Stop::Waiting) && seen.contains(&Stop::Done));
    let running = |ran: i64, length: i64| seen.contains(&Stop::Running { ran, length });
    assert!(running(0, 1) && running(1, 2) && running(2, 3), "{seen:?}");
}

/// A table from elsewhere: threads without variables, other codes, and a run that no
/// START began.
#[test]
fn of_other_tables() {
    let mut stops = Stops::default();
    let mut of = |code: i32, after: i32, thread: u8| {
        let mut variables = [0; futonkestrel::VARIABLES];
        let state = variables::number("State", Some(2)).expect("there") as usize;
        variables[state] = code;
        let mut left = variables;
        left[state] = after;
        stops.see(&[DEACTIVATE, thread], &variables, &left)
    };
    assert_eq!(of(2, 0, 2), Some(Stop::Waiting));
    assert_eq!(of(4, 0, 2), Some(Stop::Done));
    for (code, after, thread) in [
        (2, 1, 2),
        (5, 0, 2),
        (-1, 0, 2),
        (2, -1, 2),
        (3, 0, 2),
        (2, 0, 16),
        (2, 0, NONE as u8),
    ] {
        assert_eq!(of(code, after, thread), None, "{code} {after} {thread}");
    }
}
