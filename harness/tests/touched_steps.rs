//! As touched.rs, for calls that are lent states and indexes, and for what is
//! enabled: each comparison is handed something that a wrong library would have
//! left.

use harness::answers::{After, Listed, BEHIND, FIGURE, VARIABLES};
use harness::compare;
use harness::lending::{lend, lend_marks, Lending, Number};
use harness::starts::Answered;
use harness::stepped::{listed, AnyState};

const WORD: u32 = u32::MARK;

/// A call that is lent a state and answers so, having written to some places.
fn call(answer: u32, places: &[usize]) -> Lending<u32> {
    lend(&[1, 2, 3], |lent| {
        for &place in places {
            lent[place] = 9;
        }
        answer
    })
}

#[test]
fn state_room() {
    let check = |lending: Lending<u32>| compare::lendings(&[call(0, &[0]), lending]);
    assert!(check(call(0, &[1, 2])).is_ok());
    assert!(check(call(10, &[])).is_ok());
    // A refused event that changes the state; numbers behind it.
    assert!(check(call(10, &[2])).is_err());
    assert!(check(call(0, &[3])).is_err());
    assert!(check(call(10, &[2 + BEHIND])).is_err());
    let few = |answer, place: Option<usize>| {
        let lending = lend_marks(2, |lent: &mut [u32]| {
            if let Some(place) = place {
                lent[place] = 0;
            }
            answer
        });
        compare::short(&[lending])
    };
    assert!(few(8, None).is_ok());
    assert!(few(0, None).is_err());
    assert!(few(9, None).is_err());
    assert!(few(8, Some(1)).is_err());
}

/// A library that has these numbers to list, and some habit.
fn list(numbers: &'static [u32], habit: fn(&mut [u32], &mut [usize])) -> Listed {
    listed(true, move |output, told| {
        told[0] = numbers.len() / 4;
        told[1] = 1;
        let fits = output.len() >= numbers.len();
        if fits {
            output[..numbers.len()].copy_from_slice(numbers);
        }
        habit(output, told);
        if fits {
            0
        } else {
            8
        }
    })
}

const TWO: &[u32] = &[1, 0, 0, 0, 4, 3, 2, 9];

#[test]
fn enabled_room() {
    let check = |numbers, habit| compare::enabled_room(&[list(numbers, habit)]);
    assert!(check(TWO, |_, _| ()).is_ok());
    assert!(check(&[], |_, _| ()).is_ok());
    // It writes where there is too little room, or behind the list; what it tells
    // depends on the room; a third place is told.
    assert!(check(TWO, |output, _| output
        .iter_mut()
        .take(1)
        .for_each(|word| *word = 1))
    .is_err());
    assert!(check(TWO, |output, _| output
        .iter_mut()
        .skip(9)
        .for_each(|word| *word = 1))
    .is_err());
    assert!(check(TWO, |output, told| told[1] = output.len()).is_err());
    assert!(check(TWO, |_, told| told[2] = 0).is_err());
    // It answers 0 without room, and 8 with it.
    let answers = |answer: u32| {
        let list = listed(true, |_, told| {
            told[..2].copy_from_slice(&[1, 0]);
            answer
        });
        compare::enabled_room(&[list])
    };
    assert!(answers(0).is_err());
    assert!(answers(8).is_err());
}

#[test]
fn enabled_alike() {
    let model = [list(TWO, |_, _| ())];
    let check = |of_table: Listed| compare::enabled_alike(&model, &[of_table]);
    assert!(check(list(TWO, |_, _| ())).is_ok());
    assert!(check(list(&TWO[..4], |_, _| ())).is_err());
    assert!(check(list(&[1, 0, 0, 0, 4, 3, 2, 8], |_, _| ())).is_err());
    assert!(check(list(&[4, 3, 2, 9, 1, 0, 0, 0], |_, _| ())).is_err());
    assert!(check(list(TWO, |_, told| told[1] = 0)).is_err());
    assert!(compare::enabled_alike(&model, &[]).is_err());
}

#[test]
fn index_room() {
    const PLACE: usize = usize::MARK;
    let check = |count: usize, index: &[usize]| {
        compare::index_room(&[(3, vec![7, 8, 9, PLACE]), (count, index.to_vec())])
    };
    assert!(check(3, &[7, 8, 9, PLACE, PLACE]).is_ok());
    assert!(check(3, &[7]).is_ok());
    assert!(check(3, &[]).is_ok());
    assert!(check(2, &[7, 8]).is_err());
    assert!(check(3, &[7, 8, 9, 1]).is_err());
}

/// The step is told into several places on enough numbers, and on too few.
fn told_step(habit: fn(&mut [usize]), short: fn(&mut [usize]) -> u32) -> compare::Check {
    let told = |count| {
        lend_marks(count, |told: &mut [usize]| {
            told.iter_mut().take(1).for_each(|step| *step = 3);
            habit(told);
            0
        })
    };
    let too_few = [lend_marks(2, short)];
    compare::state_start_places(&[1 + BEHIND, 0, 1].map(told), &too_few)
}

#[test]
fn start_places_on_a_state() {
    assert!(told_step(|_| (), |_| 8).is_ok());
    assert!(compare::state_start_places(&[], &[]).is_err());
    // A place behind is written; the step goes by the places; too few numbers are
    // taken, or a step is told of them.
    let behind: fn(&mut [usize]) = |told| told.iter_mut().skip(1).for_each(|place| *place = 0);
    assert!(told_step(behind, |_| 8).is_err());
    let alone: fn(&mut [usize]) = |told| {
        if told.len() == 1 {
            told[0] = 2;
        }
    };
    assert!(told_step(alone, |_| 8).is_err());
    assert!(told_step(|_| (), |_| 0).is_err());
    let told: fn(&mut [usize]) -> u32 = |told| {
        told[0] = 1;
        8
    };
    assert!(told_step(|_| (), told).is_err());
}

/// A step told, and the answer to that START.
fn answered(step: usize, start: Option<u32>) -> Answered {
    Answered {
        answer: 0,
        told: [step, usize::MARK],
        start,
    }
}

#[test]
fn start_taken() {
    let check = |step, start| {
        let first = answered(0, Some(0));
        compare::start_taken(&[vec![first], vec![first, answered(step, start)]])
    };
    assert!(check(0, Some(0)).is_ok());
    assert!(check(1, None).is_ok());
    for step in 1..=4 {
        assert!(check(step, Some(10)).is_ok());
        assert!(check(step, Some(0)).is_err());
        assert!(check(step, Some(11)).is_err());
    }
    assert!(check(0, Some(10)).is_err());
    assert!(check(0, Some(8)).is_err());
}

/// Two events are offered and taken, and time may pass.
fn any_state() -> AnyState {
    AnyState {
        lendings: vec![call(10, &[]), call(0, &[0])],
        shown: After {
            answer: 0,
            variables: [5; VARIABLES],
            behind: [FIGURE; BEHIND],
        },
        offers: list(TWO, |_, _| ()),
        taken: vec![0, 0],
        tick: 0,
        starts: vec![
            answered(0, Some(0)),
            answered(1, None),
            answered(4, Some(10)),
        ],
    }
}

#[test]
fn numbers_of_any_content() {
    assert!(compare::any_state(&any_state()).is_ok());
    let spoiled = |spoil: fn(&mut AnyState)| {
        let mut found = any_state();
        spoil(&mut found);
        compare::any_state(&found).expect_err("spoiled")
    };
    spoiled(|found| found.lendings[0].after[0] = 7);
    spoiled(|found| found.lendings[1].behind[0] = 7);
    spoiled(|found| found.lendings[0] = call(12, &[]));
    spoiled(|found| found.lendings[0] = call(8, &[]));
    spoiled(|found| found.shown.answer = 8);
    spoiled(|found| found.shown.behind[1] = 0);
    spoiled(|found| found.taken[1] = 10);
    spoiled(|found| found.tick = 10);
    spoiled(|found| found.offers.rooms[0].1[0] += 1);
    spoiled(|found| found.offers.rooms[1].0.after[0] = WORD - 1);
    spoiled(|found| found.starts[0].answer = 8);
    spoiled(|found| found.starts[1].told[0] = 5);
    spoiled(|found| found.starts[1].told[0] = usize::MARK);
    spoiled(|found| found.starts[2].told[1] = 0);
    spoiled(|found| found.starts[0].start = Some(10));
    spoiled(|found| found.starts[2].start = Some(0));
}
