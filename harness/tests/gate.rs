//! The gate: many cases of a fixed seed, no difference, and enough of
//! everything that can happen.

use harness::reach::Reach;
use harness::refused::Refused;
use harness::runner::{self, Plan};
use harness::stops::Stops;
use harness::tally::Tally;
use plain::script::{
    ACTIVATE, COMPLETE, DEACTIVATE, DEADLINE, DISPATCH, ENTER, LEAVE, MISS, REQUEST, START,
};

#[test]
fn library_and_plain_model_agree() {
    let plan = Plan::gate();
    let outcome = runner::run(&plan);
    print!("{}", outcome.tally);
    if let Some(failure) = outcome.failure {
        panic!("{}", failure.report());
    }
    assert_eq!(outcome.tally.cases, plan.cases.end);
    inputs_are_of_all_sorts(&outcome.tally);
    every_kind_of_record_is_refused(&outcome.tally);
    answers_are_met(&outcome.tally);
    kinds_are_met(&outcome.tally);
    runs_go_far(&outcome.tally);
    every_number_has_its_part(&outcome.tally.reach);
    thin_places_are_met(&outcome.tally);
    every_step_is_told(&outcome.tally);
    threads_leave_in_every_way(&outcome.tally.reach.stops);
    sums_stop_at_both_ends(&outcome.tally);
    every_comparison_is_made(&outcome.tally);
}

/// Each count of these numbers or kinds is at least the floor beside it.
fn at_least(what: &str, counts: &[u64], floors: &[(usize, u64)]) {
    for &(number, floor) in floors {
        let count = counts[number];
        assert!(count >= floor, "{what}, {number}: {count} below {floor}");
    }
}

fn inputs_are_of_all_sorts(tally: &Tally) {
    at_least(
        "models",
        &tally.models,
        &[
            (0, 14_000),
            (1, 50),
            (2, 500),
            (3, 100),
            (4, 250),
            (5, 100),
            (6, 50),
            (7, 150),
            (14, 700),
            (15, 80),
        ],
    );
    at_least(
        "translations",
        &tally.translations,
        &[(0, 15_000), (8, 15_000)],
    );
    all_at_least("sizes by places lent", &tally.sizes, 6_000);
    at_least(
        "tables",
        &tally.tables,
        &[
            (0, 10_000),
            (1, 100),
            (2, 1_000),
            (3, 4),
            (4, 1_500),
            (14, 400),
        ],
    );
    assert_eq!(tally.most_threads, 16);
    assert_eq!(tally.longest_model, 7_123);
    assert_eq!(tally.longest_made_table, 174_485);
}

/// Each number in the kinds of records that have such a field.
fn every_kind_of_record_is_refused(tally: &Tally) {
    let models = &tally.model_records;
    let naming = [1, 3, 4, 5, 6, 7, 8, 9, 0x0A, 0x0B];
    refused_in_kinds(models, 14, &naming, 25);
    refused_in_kinds(models, 15, &[2], 80);
    refused_in_kinds(models, 4, &[1, 2, 6, 8, 9, 0x0A], 25);
    refused_in_kinds(models, 5, &[9, 0x0A], 40);
    refused_in_kinds(models, 6, &[6, 0x0A], 20);
    refused_in_kinds(models, 7, &[7], 150);
    let tables = &tally.table_records;
    refused_in_kinds(tables, 14, &[0x20, 0x23, 0x24], 100);
    refused_in_kinds(tables, 4, &[0x20, 0x21, 0x23, 0x24], 200);
}

/// The number is met so often in each of these kinds, and in no other.
fn refused_in_kinds(records: &Refused, number: u32, kinds: &[u8], floor: u64) {
    let (found, counts): (Vec<u8>, Vec<u64>) = records.with(number).into_iter().unzip();
    assert_eq!(found, kinds, "kinds refused with {number}");
    let what = format!("refused with {number}, of kinds {kinds:02x?}");
    all_at_least(&what, &counts, floor);
}

/// Events are answered in every way that there is.
fn answers_are_met(tally: &Tally) {
    at_least(
        "events on models",
        &tally.model_events,
        &[(0, 250_000), (9, 5_000), (10, 30_000)],
    );
    at_least(
        "events on tables",
        &tally.table_events,
        &[
            (0, 40_000),
            (9, 1_000),
            (10, 30_000),
            (12, 10_000),
            (13, 2_000),
        ],
    );
    at_least(
        "single steps",
        &tally.lent_steps,
        &[
            (0, 10_000),
            (9, 500),
            (10, 20_000),
            (11, 5_000),
            (12, 2_000),
            (13, 500),
        ],
    );
    at_least(
        "single steps of any content",
        &tally.any_steps,
        &[(0, 2_000), (9, 500), (10, 10_000), (11, 1_000), (12, 100)],
    );
}

/// Events of every kind are taken and offered.
fn kinds_are_met(tally: &Tally) {
    for kind in 1..=11 {
        at_least("taken by models", &tally.taken_by_models, &[(kind, 200)]);
        at_least("taken by tables", &tally.taken_by_tables, &[(kind, 1_000)]);
    }
    for kind in 1..=11 {
        at_least(
            "offered by models",
            &tally.offered_by_models,
            &[(kind, 600)],
        );
        at_least(
            "offered by tables",
            &tally.offered_by_tables,
            &[(kind, 10_000)],
        );
    }
    assert!(tally.offered_twice > 20_000, "{}", tally.offered_twice);
}

fn runs_go_far(tally: &Tally) {
    at_least(
        "moved a value",
        &tally.moved,
        &[(3, 1_000), (4, 400), (5, 5_000), (6, 1_500)],
    );
    assert!(tally.shown > 100_000, "{}", tally.shown);
    assert!(tally.whole_runs > 4_000, "{}", tally.whole_runs);
    assert!(tally.behavior_changes > 1_500, "{}", tally.behavior_changes);
    assert!(tally.most_taken >= 120, "{}", tally.most_taken);
    assert!(tally.latest_clock >= 70_000, "{}", tally.latest_clock);
    assert!(tally.most_missed >= 20, "{}", tally.most_missed);
}

/// Each of the counts is at least the floor.
fn all_at_least(what: &str, counts: &[u64], floor: u64) {
    let floors: Vec<(usize, u64)> = (0..counts.len()).map(|number| (number, floor)).collect();
    at_least(what, counts, &floors);
}

/// By thread, mode transition, mode, input port, connection and behaviour
/// transition.
fn every_number_has_its_part(reach: &Reach) {
    for (kind, floor) in [
        (ACTIVATE, 150),
        (DEACTIVATE, 20),
        (DISPATCH, 300),
        (START, 200),
        (COMPLETE, 200),
        (DEADLINE, 150),
        (MISS, 80),
        (REQUEST, 30),
        (ENTER, 30),
        (LEAVE, 20),
    ] {
        let what = format!("kind {kind} by number");
        all_at_least(&what, &reach.taken[usize::from(kind)], floor);
    }
    all_at_least("ENTER by new mode", &reach.entered, 50);
    all_at_least("LEAVE by new mode", &reach.left, 50);
    all_at_least("written starts by input port", &reach.started, 60);
    all_at_least("kept in the buffer by input port", &reach.kept, 60);
    all_at_least("sends by connection", &reach.sent, 30);
    all_at_least("guards by transition", &reach.guarded, 15);
    all_at_least("assignments by transition", &reach.assigned, 20);
}

fn thin_places_are_met(tally: &Tally) {
    let places = &tally.reach.places;
    for (what, count, floor) in [
        ("default sends", places.default_sends, 20),
        ("guards of four atoms", places.four_atoms, 500),
        ("past the last clock", places.past_the_last_clock, 500),
        ("held at the last clock", places.held_at_the_last_clock, 200),
    ] {
        assert!(count >= floor, "{what}: {count} below {floor}");
    }
    all_at_least("late, by kind", &tally.reach.late[1..], 50);
    for kind in [DISPATCH, START, COMPLETE, DEADLINE, ENTER, LEAVE] {
        let floor = (usize::from(kind), 10);
        at_least("late after all ticks, by kind", &tally.far, &[floor]);
    }
}

/// START's test: each step in lent states, over bytes and on any numbers; and what
/// else would have failed there.
fn every_step_is_told(tally: &Tally) {
    let starts = &tally.reach.starts;
    for (what, counts, floors) in [
        (
            "START's test by step",
            &starts.steps,
            [73_000, 1_290_000, 360_000, 62_000, 72_000],
        ),
        (
            "START's test over bytes",
            &tally.start_steps,
            [1_600, 8_600, 1_300, 450, 1_600],
        ),
        (
            "START's test on any numbers",
            &tally.any_starts,
            [5_100, 130_000, 2_700, 1_100, 4_800],
        ),
    ] {
        let floors: Vec<(usize, u64)> = floors.into_iter().enumerate().collect();
        at_least(what, counts, &floors);
    }
    all_at_least("START's test by places lent", &tally.start_places, 6_600);
    let refused = tally.start_refused;
    assert!(
        refused >= 1_700,
        "START's test of refused models: {refused}"
    );
    let floors = [
        380_000, 870_000, 28_000, 580_000, 17_000, 97_000, 179_000, 31_000, 48_000, 14_000,
    ];
    for ((what, count), floor) in starts.met().into_iter().zip(floors) {
        assert!(
            count >= floor,
            "START's test, {what}: {count} below {floor}"
        );
    }
}

/// Threads with a job, by its code: stopped, not stopped because they are critical
/// or active, waited for by time and not; and what else could have happened.
fn threads_leave_in_every_way(stops: &Stops) {
    let floors = [
        [500, 400, 400],
        [35, 35, 50],
        [800, 700, 600],
        [45, 80, 45],
        [110, 180, 350],
    ];
    for ((what, counts), floors) in stops.by_code().into_iter().zip(floors) {
        let floors: Vec<(usize, u64)> = (2..).zip(floors).collect();
        at_least(what, counts, &floors);
        assert_eq!(counts[..2], [0, 0], "{what}");
    }
    all_at_least("stops by thread", &stops.by_thread, 22);
    let floors = [30, 60, 15, 600, 85, 290];
    for ((what, count), floor) in stops.places.met().into_iter().zip(floors) {
        assert!(count >= floor, "stops {what}: {count} below {floor}");
    }
}

/// Sums and differences past the lower and the upper end, and just there, in models
/// and in updates of tables.
fn sums_stop_at_both_ends(tally: &Tally) {
    let of_models = [[50, 250], [150, 85], [15, 70], [20, 40], [30, 45]];
    let of_tables = [[30, 220], [150, 95], [39, 85], [35, 50], [18, 32], [23, 50]];
    for (whose, met, floors) in [
        ("models", tally.reach.ends.met(), &of_models[..]),
        ("tables", tally.table_ends.met(), &of_tables),
    ] {
        assert_eq!(met.len(), floors.len());
        for ((what, counts), floors) in met.into_iter().zip(floors) {
            let floors: Vec<(usize, u64)> = floors.iter().copied().enumerate().collect();
            at_least(&format!("ends met by {whose}, {what}"), &counts, &floors);
        }
    }
}

fn every_comparison_is_made(tally: &Tally) {
    assert_eq!(tally.comparisons.len(), 40, "{:?}", tally.comparisons);
    for (comparison, &count) in &tally.comparisons {
        assert!(count >= tally.cases / 5, "{comparison} made {count} times");
    }
    // Of every model, accepted or not.
    let of_every_model = [
        "size_told",
        "size_places",
        "size_made",
        "start_told",
        "start_places",
    ];
    for comparison in of_every_model {
        assert_eq!(tally.comparisons[comparison], tally.cases, "{comparison}");
    }
}
