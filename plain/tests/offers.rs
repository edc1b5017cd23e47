//! What is enabled along the run of document 01's model M, by hand, and of
//! tables that no model makes.

use plain::model::{self, Model, State};
use plain::offers::{of_model, of_table, Enabled, Offer};
use plain::script::{run_on, ACTIVATE, COMPLETE, DEADLINE, DISPATCH, MISS, REQUEST, START};
use plain::show;
use plain::table::variable::{self, NOW};
use plain::table::{self, Variables};

const M: &[u8] = &[
    0x01, 1, 0, //
    0x02, 5, 0, 0, 0, 4, 0, 0, 0, 1, 0, 0, 0, 5, 0, 0, 0, 1, 0, 0,
];

fn after(model: &Model, script: &[u8]) -> State {
    let mut state = model::start_state(model);
    run_on(
        script,
        &mut state,
        |state, event| model::step(model, state, event),
        |_, _| {},
    );
    state
}

fn offer(kind: u8, id: u8) -> Offer {
    Offer {
        kind,
        id,
        low: 0,
        high: 0,
    }
}

fn only(offer: Offer) -> Enabled {
    Enabled {
        events: vec![offer],
        tick: false,
    }
}

const NOTHING: Enabled = Enabled {
    events: Vec::new(),
    tick: true,
};

#[test]
fn along_the_run_of_m() {
    let model = model::read(M).expect("M is accepted");
    let start = Offer {
        low: 1,
        high: 5,
        ..offer(START, 0)
    };
    let enabled = |script: &[u8]| of_model(&model, &after(&model, script));
    let mut script = Vec::new();
    for (event, wanted) in [
        (&[][..], only(offer(ACTIVATE, 0))),
        (&[0x01, 0], only(offer(DISPATCH, 0))),
        (&[0x03, 0], only(start)),
        (&[0x04, 0, 2, 0, 0, 0], NOTHING),
        (&[0x0B, 2, 0], only(offer(COMPLETE, 0))),
        (&[0x05, 0], NOTHING),
        (&[0x0B, 2, 0], only(offer(DEADLINE, 0))),
        (&[0x06, 0], NOTHING),
        (&[0x0B, 1, 0], only(offer(DISPATCH, 0))),
    ] {
        script.extend(event);
        assert_eq!(enabled(&script), wanted, "after {event:?}");
    }
    // A job that is too long.
    let script = [&script[..4], &[0x04, 0, 5, 0, 0, 0, 0x0B, 4, 0]].concat();
    assert_eq!(enabled(&script), only(offer(MISS, 0)));
}

/// Due is shown while a job is in hand, End while it runs.
#[test]
fn figures_of_a_job() {
    let model = model::read(M).expect("M is accepted");
    let shown = |script: &[u8]| {
        let variables = show::show_jobs(&model, &after(&model, script));
        (variables[variable::due(0)], variables[variable::end(0)])
    };
    let script: &[u8] = &[
        0x01, 0, 0x03, 0, 0x04, 0, 2, 0, 0, 0, 0x0B, 2, 0, 0x05, 0, 0x0B, 2, 0, 0x06, 0,
    ];
    for (taken, figures) in [
        (2, (0, 0)),
        (4, (4, 0)),
        (10, (4, 2)),
        (13, (4, 2)),
        (15, (4, 0)),
        (18, (4, 0)),
        (20, (0, 0)),
    ] {
        assert_eq!(shown(&script[..taken]), figures, "after {taken} bytes");
    }
}

/// A rule without clauses, which is always enabled.
fn rule(kind: u8, id: u8) -> [u8; 11] {
    [0x21, kind, id, 0, 0, 0, 0, 0, 0, 0, 0]
}

fn of_bytes(bytes: &[u8], clock: i32) -> Enabled {
    let mut variables: Variables = [0; variable::COUNT];
    variables[NOW] = clock;
    of_table(&table::read(bytes).expect("accepted"), &variables)
}

#[test]
fn rules_by_kind_and_id() {
    let mut start = rule(START, 7);
    start[3] = 2;
    start[7] = 9;
    // The second START has other ends, and the empty clause never holds.
    let bytes = [
        &rule(REQUEST, 1)[..],
        &start,
        &rule(START, 7),
        &rule(ACTIVATE, 255),
        &rule(ACTIVATE, 3),
        &rule(DISPATCH, 0),
        &[0x22],
    ]
    .concat();
    let first = Offer {
        low: 2,
        high: 9,
        ..offer(START, 7)
    };
    let wanted = [
        offer(ACTIVATE, 3),
        offer(ACTIVATE, 255),
        first,
        offer(START, 7),
        offer(REQUEST, 1),
    ];
    assert_eq!(of_bytes(&bytes, 0).events, wanted);
}

#[test]
fn when_time_may_pass() {
    assert_eq!(of_bytes(&[], 999_999_999), NOTHING);
    assert!(!of_bytes(&[], 1_000_000_000).tick);
    assert!(of_bytes(&[], i32::MIN).tick);
    assert!(!of_bytes(&[], i32::MAX).tick);
    let requests = of_bytes(&[rule(REQUEST, 0), rule(REQUEST, 0)].concat(), 5);
    assert_eq!((requests.events.len(), requests.tick), (2, true));
    assert!(!of_bytes(&[rule(REQUEST, 0), rule(MISS, 0)].concat(), 5).tick);
}
