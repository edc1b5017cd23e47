//! What is said of sums, held against those of Rust.

use futonkestrel::VARIABLES;

use super::*;
use crate::format::{COMPLETE, START};

/// Where an update's sum goes, and the variables of its operands.
const TARGET: i64 = 256;
const OPERANDS: [i64; 2] = [257, 258];

const EDGES: [i32; 9] = [
    i32::MIN,
    i32::MIN + 1,
    -2,
    -1,
    0,
    1,
    2,
    i32::MAX - 1,
    i32::MAX,
];

fn update(op: i64, first: Operand, second: Operand) -> Update {
    Update {
        condition: None,
        target: TARGET,
        op,
        first,
        second,
    }
}

/// A rule of an event of thread 0; each clause is one atom.
fn rule(event: u8, clauses: Vec<[i64; 4]>, updates: Vec<Update>) -> Rule {
    Rule {
        event,
        id: 0,
        low: 0,
        high: 0,
        clauses: clauses.into_iter().map(|atom| vec![atom]).collect(),
        updates,
    }
}

/// Variables that are 0 but for these.
fn variables(values: &[(i64, i32)]) -> Variables {
    let mut variables = [0; VARIABLES];
    for (variable, value) in values {
        variables[*variable as usize] = *value;
    }
    variables
}

/// The end at which the one update of a COMPLETE stops, if it left this value.
fn told(update: Update, before: &Variables, left: i32) -> Option<i64> {
    let rules = [rule(COMPLETE, Vec::new(), vec![update])];
    let after = variables(&[(TARGET, left)]);
    let told = stopped(&rules, &[COMPLETE, 0], before, &after);
    told.first().map(|(variable, end)| {
        assert_eq!((*variable, told.len()), (TARGET, 1));
        *end
    })
}

/// The sum or difference of an op: the value if it fits, the nearest end, and what is left
/// where it goes round.
fn sums(op: i64, first: i32, second: i32) -> (Option<i32>, i32, i32) {
    match op {
        1 => (
            first.checked_add(second),
            first.saturating_add(second),
            first.wrapping_add(second),
        ),
        2 => (
            first.checked_sub(second),
            first.saturating_sub(second),
            first.wrapping_sub(second),
        ),
        _ => (Some(first), first, first),
    }
}

/// Of all edges, as constants and as variables: an end is told exactly where the sum does
/// not fit and the end is what is left.
#[test]
fn sums_that_do_not_fit() {
    let mut met = 0;
    for (first, second) in EDGES
        .iter()
        .flat_map(|one| EDGES.map(|other| (*one, other)))
    {
        let before = variables(&[(OPERANDS[0], first), (OPERANDS[1], second)]);
        let constants = [first, second].map(|number| (0, i64::from(number)));
        let of_variables = OPERANDS.map(|variable| (1, variable));
        for op in 0..3 {
            let (exact, end, round) = sums(op, first, second);
            let wanted = exact.is_none().then_some(i64::from(end));
            met += usize::from(exact.is_none());
            for [one, other] in [constants, of_variables] {
                assert_eq!(told(update(op, one, other), &before, end), wanted);
                if round != end {
                    assert_eq!(told(update(op, one, other), &before, round), None);
                }
            }
        }
    }
    assert!(met > 30, "{met}");
}

/// The length that a START chooses is an operand like others.
#[test]
fn of_lengths() {
    let update = || update(1, (0, MOST - 3), (2, 0));
    let rules = [rule(START, Vec::new(), vec![update()])];
    let [before, after] = [0, i32::MAX].map(|value| variables(&[(TARGET, value)]));
    let of = |length: u8| stopped(&rules, &[START, 0, length, 0, 0, 0], &before, &after);
    assert_eq!(of(3), []);
    assert_eq!(of(4), [(TARGET, MOST)]);
}

/// Those of the enabled rule alone, and of its updates those that apply.
#[test]
fn of_the_rule_that_ran() {
    let chosen = OPERANDS[0];
    let past = |condition, target| Update {
        condition,
        target,
        ..update(2, (0, -2), (0, MOST))
    };
    let on = |value: i64| vec![[0, chosen, 0, value]];
    let rules = [
        rule(START, Vec::new(), vec![past(None, 1)]),
        rule(COMPLETE, on(1), vec![past(None, 2), past(None, 3)]),
        rule(
            COMPLETE,
            on(2),
            vec![past(Some((chosen, 2)), 4), past(Some((chosen, 3)), 5)],
        ),
    ];
    let after = [i32::MIN; VARIABLES];
    let of = |value: i32, event: &[u8]| {
        let told = stopped(&rules, event, &variables(&[(chosen, value)]), &after);
        let variables = told.iter().map(|(variable, end)| {
            assert_eq!(*end, LEAST);
            *variable
        });
        variables.collect::<Vec<i64>>()
    };
    assert_eq!(of(1, &[COMPLETE, 0]), [2, 3]);
    assert_eq!(of(2, &[COMPLETE, 0]), [4]);
    assert!(of(0, &[COMPLETE, 0]).is_empty() && of(1, &[COMPLETE, 1]).is_empty());
}

#[test]
fn in_words() {
    let said = |stopped: &[Stopped]| with_ends("COMPLETE 0", stopped, &Names::default());
    assert_eq!(said(&[]), "COMPLETE 0");
    let one = "COMPLETE 0, Local(0) stops at 2147483647";
    assert_eq!(said(&[(256, MOST)]), one);
    let both = [(224, LEAST), (256, MOST), (192, LEAST), (5, LEAST)];
    let least = "Output(0), Buffer(0) and Cpu stop at -2147483648";
    assert_eq!(said(&both), format!("{one}, {least}"));
}
