//! What tables and indexes of any content stand for, on records put together by
//! hand; and that a step that comes to something else is found, answered 0 or not.

use harness::answers::{After, Variables, BEHIND, FIGURE, VARIABLES};
use harness::compare;
use harness::loose::Rules;
use harness::records::operand;

/// The rule of ACTIVATE 0.
const HEAD: &[u8] = &[0x21, 1, 0, 0, 0, 0, 0, 0, 0, 0, 0];
const ACTIVATE: &[u8] = &[0x01, 0];

fn atom(op: u8, variable: u16, number: i32) -> Vec<u8> {
    let left = variable.to_le_bytes();
    [&[0x23, op], &left[..], &operand(0, number)].concat()
}

/// Writes a number to a variable.
fn update(target: u16, number: i32) -> Vec<u8> {
    let target = target.to_le_bytes();
    let operands = [operand(0, number), operand(0, 0)].concat();
    [&[0x24, 255, 255, 0], &target[..], &[0], &operands].concat()
}

fn stepped(table: &[u8], index: &[usize]) -> After {
    Rules::new(table, index).step(&[0; VARIABLES], ACTIVATE)
}

/// Taken, with one variable written.
fn written(variable: usize, value: i32) -> After {
    let mut variables: Variables = [0; VARIABLES];
    variables[variable] = value;
    After {
        answer: 0,
        variables,
        behind: [FIGURE; BEHIND],
    }
}

fn refused(answer: u32) -> After {
    After {
        answer,
        ..written(0, 0)
    }
}

#[test]
fn rules_as_far_as_they_can_be_read() {
    let seven = update(7, 5);
    assert_eq!(stepped(&[HEAD, &seven].concat(), &[]), written(7, 5));
    // The rest is cut, or of a kind that nobody knows.
    assert_eq!(
        stepped(&[HEAD, &seven, &seven[..9]].concat(), &[]),
        written(7, 5)
    );
    assert_eq!(
        stepped(&[HEAD, &seven, &[9], &seven].concat(), &[]),
        written(7, 5)
    );
    // A variable that is not there reads 0 and is not written.
    let beyond = [HEAD, &[0x22], &atom(0, 400, 0), &update(288, 1), &seven].concat();
    assert_eq!(stepped(&beyond, &[]), written(7, 5));
    // An atom that stands behind an update is one of the clause before; one
    // without a clause is none.
    let late = [HEAD, &[0x22], &seven, &atom(0, 3, 1)].concat();
    assert_eq!(stepped(&late, &[]), refused(10));
    let early = [HEAD, &atom(0, 3, 1), &seven].concat();
    assert_eq!(stepped(&early, &[]), written(7, 5));
    assert_eq!(stepped(&[HEAD, &seven, &seven].concat(), &[]), refused(13));
    assert_eq!(stepped(&[HEAD, HEAD].concat(), &[]), refused(12));
}

/// Here too, and with what no reader lets stand: a further op is a difference, a
/// further tag the chosen length, and a variable that is not there reads 0.
#[test]
fn sums_stop_at_the_ends() {
    let (greatest, least) = (operand(0, i32::MAX), operand(0, i32::MIN));
    let (one, none, length) = (operand(0, 1), operand(1, 288), operand(9, 5));
    for (op, first, second, wanted) in [
        (1, &greatest, &one, i32::MAX),
        (1, &least, &operand(0, -1), i32::MIN),
        (2, &least, &one, i32::MIN),
        (2, &none, &least, i32::MAX),
        (2, &operand(0, -1), &least, i32::MAX),
        (2, &operand(0, -2), &least, i32::MAX - 1),
        (7, &none, &least, i32::MAX),
        (1, &length, &greatest, i32::MAX),
    ] {
        let mut update = update(7, 0);
        update.splice(6.., [&[op], &first[..], second].concat());
        let rule = [&[0x21, 4, 0, 0, 0, 0, 0, 9, 0, 0, 0], &update[..]].concat();
        let start = [4, 0, 6, 0, 0, 0];
        let found = Rules::new(&rule, &[]).step(&[0; VARIABLES], &start);
        assert_eq!(found, written(7, wanted), "{first:?} {op} {second:?}");
    }
}

#[test]
fn rules_that_an_index_lists() {
    let table = [
        HEAD,
        &[0x22],
        &atom(0, 3, 0),
        &[0x22],
        &atom(0, 4, 0),
        &update(7, 5),
    ]
    .concat();
    let (word, guard, end) = (1 << 8, 3 << 32, table.len());
    assert_eq!(stepped(&table, &[1, end, word, guard]), written(7, 5));
    // None is listed, the words are not those of the head, it is listed twice, or
    // listed and walked.
    assert_eq!(stepped(&table, &[0, end, word, guard]), refused(10));
    assert_eq!(stepped(&table, &[1, end, word + 1, guard]), refused(10));
    assert_eq!(stepped(&table, &[1, end, word, guard + 1]), refused(10));
    assert_eq!(
        stepped(&table, &[1, end, word + (1 << 16), guard]),
        refused(10)
    );
    assert_eq!(
        stepped(&table, &[2, end, word, guard, word, guard]),
        refused(12)
    );
    assert_eq!(stepped(&table, &[1, 0, word, guard]), refused(12));
    assert_eq!(stepped(&table, &[0, end + 9]), refused(10));
    let offers = Rules::new(&table, &[1, 0, word, guard]).offers(&[0; VARIABLES]);
    assert_eq!((offers.events, offers.tick), (vec![[1, 0, 0, 0]; 2], false));
}

#[test]
fn a_step_to_something_else_is_found() {
    let wanted = [written(7, 5)];
    let differs = |found: After| compare::lent_steps(&wanted, &[found]).is_err();
    assert!(!differs(written(7, 5)));
    assert!(differs(written(7, 6)));
    assert!(differs(written(8, 5)));
    assert!(differs(refused(10)));
    assert!(differs(After {
        answer: 8,
        ..written(7, 5)
    }));
}
