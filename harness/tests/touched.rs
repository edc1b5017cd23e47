//! Comparisons that no fault of the plain model can fail: each is handed
//! something that a wrong library would have left.

use harness::answers::{After, Listing, Said, Size, Step, Told, Translation};
use harness::answers::{BEHIND, BYTE, FIGURE, SIZE_PLACES, VARIABLES};
use harness::lending::{lend_marks, Lending, Number};
use harness::starts::START_PLACES;
use harness::stepped::StateWalk;
use harness::{compare, found};

fn listing(length: usize, output: &[u8]) -> Vec<Listing> {
    vec![Listing {
        length,
        output: output.to_vec(),
    }]
}

#[test]
fn listing_room() {
    assert!(compare::listing_room(&listing(2, &[1, 2, BYTE, BYTE])).is_ok());
    assert!(compare::listing_room(&listing(9, &[1, 2])).is_ok());
    assert!(compare::listing_room(&listing(2, &[1, 2, BYTE, 0])).is_err());
}

fn translation(number: u32, length: usize, output: &[u8]) -> Vec<Translation> {
    vec![Translation {
        told: Told {
            number,
            ..Told::default()
        },
        length,
        output: output.to_vec(),
    }]
}

#[test]
fn translation_room() {
    assert!(compare::translation_room(&translation(0, 1, &[1, BYTE])).is_ok());
    assert!(compare::translation_room(&translation(0, 1, &[1, 0])).is_err());
    assert!(compare::translation_room(&translation(8, 0, &[BYTE, BYTE])).is_ok());
    assert!(compare::translation_room(&translation(8, 0, &[1, BYTE])).is_err());
}

/// A library that tells a size into more places than it needs, into fewer and into
/// all, and then has some habit.
fn told_sizes(habit: fn(&mut [usize]) -> u32) -> Vec<Lending<usize>> {
    let told = |count| {
        lend_marks(count, |told: &mut [usize]| {
            let numbers = [0, 0, 14, 1, 2, 3, 4];
            told.iter_mut()
                .zip(numbers)
                .for_each(|(told, number)| *told = number);
            habit(told)
        })
    };
    [SIZE_PLACES + BEHIND, 3, SIZE_PLACES, 0].map(told).to_vec()
}

#[test]
fn size_places() {
    assert!(compare::size_places(&told_sizes(|_| 0)).is_ok());
    assert!(compare::size_places(&told_sizes(|_| 4)).is_ok());
    // A place behind is written; a place is told otherwise, or not at all, where
    // there are few; the number goes by the places.
    let bad: [fn(&mut [usize]) -> u32; 4] = [
        |told| {
            if told.len() > SIZE_PLACES {
                told[SIZE_PLACES] = 0;
            }
            0
        },
        |told| {
            if told.len() == 3 {
                told[2] = 0;
            }
            0
        },
        |told| {
            if told.len() == SIZE_PLACES {
                told[6] = usize::MARK;
            }
            0
        },
        |told| told.len() as u32,
    ];
    for (number, habit) in bad.into_iter().enumerate() {
        let check = compare::size_places(&told_sizes(habit));
        assert!(check.is_err(), "habit {number}");
    }
}

/// A library that tells of START's test into more places than it needs, into two
/// and into none, and then has some habit.
fn told_starts(numbers: &'static [usize], habit: fn(&mut [usize]) -> u32) -> compare::Check {
    let told = |count| {
        lend_marks(count, |told: &mut [usize]| {
            let places = told.iter_mut().zip(numbers);
            places.for_each(|(told, number)| *told = *number);
            habit(told)
        })
    };
    compare::start_places(&[START_PLACES + BEHIND, 2, 0].map(told))
}

#[test]
fn start_places() {
    let taken: &[usize] = &[0, 0, 3];
    assert!(told_starts(taken, |_| 0).is_ok());
    let refused = &taken[..2];
    assert!(told_starts(refused, |_| 14).is_ok());
    // Of a refused model a step is told; a place behind is written; the number goes
    // by the places; a place is told otherwise where there are few.
    assert!(told_starts(taken, |_| 14).is_err());
    assert!(told_starts(&[0, 0, 3, 0], |_| 0).is_err());
    assert!(told_starts(taken, |told| told.len() as u32).is_err());
    let few: fn(&mut [usize]) -> u32 = |told| {
        if told.len() == 2 {
            told[1] = 3;
        }
        0
    };
    assert!(told_starts(taken, few).is_err());
    assert!(told_starts(refused, few).is_err());
}

#[test]
fn size_made() {
    let model = model(5, 4);
    let size = Size::of(&found::sizes(&model, &[SIZE_PLACES])[0]);
    let made = [size.bytes, size.bytes - 1].map(|room| found::translation(&model, room));
    compare::size_made(&size, &made).expect("the size fits");
    let told = |spoil: fn(&mut Size)| {
        let mut size = size;
        spoil(&mut size);
        compare::size_made(&size, &made).expect_err("another size")
    };
    told(|size| size.bytes += 1);
    told(|size| size.bytes -= 1);
    told(|size| size.told.number = 4);
    told(|size| size.records[0] += 1);
    told(|size| size.records[3] -= 1);
    let wrote = |spoil: fn(&mut [Translation; 2])| {
        let mut made = made.clone();
        spoil(&mut made);
        compare::size_made(&size, &made).expect_err("another translation")
    };
    // Refused though it fits; taken though it does not; refused, yet written.
    wrote(|made| made[0].told.number = 8);
    wrote(|made| made[0].length -= 1);
    wrote(|made| made[1].told.number = 0);
    wrote(|made| made[1].output[0] = 0x20);
}

/// Refused, with nothing touched.
fn untouched() -> After {
    After {
        answer: 10,
        variables: [7; VARIABLES],
        behind: [FIGURE; BEHIND],
    }
}

/// The same with the last figure behind the variables written.
fn written_behind() -> After {
    let mut after = untouched();
    after.behind[BEHIND - 1] = 0;
    after
}

#[test]
fn figures_behind_the_variables() {
    let step = |after: After| {
        [Step {
            number: 0,
            start: 0,
            end: 2,
            after,
        }]
    };
    let (good, bad) = (untouched(), written_behind());
    assert!(compare::start(&good, &good).is_ok());
    assert!(compare::start(&good, &bad).is_err());
    assert!(compare::variables(&step(good.clone()), &step(good.clone())).is_ok());
    assert!(compare::variables(&step(good.clone()), &step(bad.clone())).is_err());
    let (good, bad) = ([good], [bad]);
    assert!(compare::lent_steps(&good, &good).is_ok());
    assert!(compare::lent_steps(&good, &bad).is_err());
}

/// One thread of a Period, a Deadline, Min 1, Max 5; and an input port.
fn model(period: u8, deadline: u8) -> Vec<u8> {
    let mut model = vec![0x01, 1, 0, 0x02];
    for figure in [period, deadline, 1, 5] {
        model.extend([figure, 0, 0, 0]);
    }
    model.extend([1, 0, 0, 0x03, 0]);
    model
}

/// ACTIVATE, DISPATCH, START 2, TICK 2, COMPLETE, TICK 2, DEADLINE.
const SCRIPT: &[u8] = &[
    0x01, 0, 0x03, 0, 0x04, 0, 2, 0, 0, 0, 0x0B, 2, 0, 0x05, 0, 0x0B, 2, 0, 0x06, 0,
];

fn of_model() -> Said {
    found::of_model(&model(5, 4), SCRIPT, &[200], &StateWalk::default())
}

fn of_table(table: &[u8]) -> Said {
    found::of_table(table, SCRIPT, &[200])
}

fn made(model: &[u8]) -> Vec<u8> {
    futonkestrel::translate_to_vec(model).expect("the model is accepted")
}

/// Demand 3 between the model and what a table would have said.
fn agree(of_table: &Said) -> compare::Check {
    compare::demand_three(&model(5, 4), SCRIPT, &of_model(), of_table)
}

#[test]
fn demand_three_holds() {
    let of_table = of_table(&made(&model(5, 4)));
    assert_eq!(of_table.run.taken, 7);
    agree(&of_table).expect("model and table agree");
}

#[test]
fn demand_three_fails_for_the_table_of_another_model() {
    // Another Due; another answer; another state at the start.
    let due = agree(&of_table(&made(&model(5, 3)))).expect_err("another Due");
    assert!(due.contains("variable 64"), "{due}");
    let answer = agree(&of_table(&[])).expect_err("no rule");
    assert!(answer.contains("variable 3 at the start"), "{answer}");
    let mut events = made(&model(5, 4));
    events.truncate(28);
    agree(&of_table(&events)).expect_err("starts without rules");
}

#[test]
fn demand_three_fails_for_any_other_figure() {
    let spoil = |spoil: fn(&mut Said)| {
        let mut of_table = of_table(&made(&model(5, 4)));
        spoil(&mut of_table);
        agree(&of_table).expect_err("spoiled")
    };
    // End while the thread runs, Due from the dispatch on, a port, a part.
    spoil(|said| said.steps[2].after.variables[80] += 1);
    spoil(|said| said.steps[1].after.variables[64] += 1);
    spoil(|said| said.steps[6].after.variables[160] = 1);
    spoil(|said| said.steps[4].end += 1);
    spoil(|said| said.steps[5].after.answer = 10);
    spoil(|said| said.steps.truncate(6));
    spoil(|said| said.run.clock += 1);
    spoil(|said| said.run.taken -= 1);
    spoil(|said| said.listings[0].output[0] = b'2');
}
