//! One case: a model with a script, a table with a script, and single steps on
//! variables of all sorts. A case is wholly determined by a seed and its number.

use plain::model::{self, Duration, Model};
use plain::script::LAST_NOW;
use plain::translate;

use crate::answers::{Variables, NOW, VARIABLES};
use crate::models;
use crate::random::Random;
use crate::records::table_body;
use crate::scripts::{self, any_event, tick, Budget};
use crate::tables;

pub struct Case {
    pub seed: u64,
    pub number: u64,
    pub model: Vec<u8>,
    /// The table made from the model by the plain model, where it is accepted.
    pub made: Option<Vec<u8>>,
    /// For the model and the made table.
    pub script: Vec<u8>,
    /// For both again, from the start but for a late clock.
    pub late: Option<Late>,
    /// Any table, with a script of its own.
    pub table: Vec<u8>,
    pub table_script: Vec<u8>,
    /// Single steps on the made table, and on the other.
    pub lent_to_made: Vec<Lent>,
    pub lent_to_table: Vec<Lent>,
    /// Whether calls are tried with outputs of further lengths.
    pub more_rooms: bool,
    /// Numbers of the model as read, and of its state at the end, that are others.
    pub spoils: Vec<Spoil>,
    /// Room for an index that lists few rules.
    pub short_index: usize,
    /// An index that no table has.
    pub any_index: Vec<usize>,
}

/// A script for a start whose clock is set: nobody waits for all the ticks up to
/// there.
pub struct Late {
    pub clock: u32,
    pub script: Vec<u8>,
}

/// A number of a model or of a state that is another; the place is cut to those
/// that there are.
pub struct Spoil {
    pub of_model: bool,
    pub place: usize,
    pub number: u32,
}

/// Variables to be lent, and an event for them.
pub struct Lent {
    pub variables: Variables,
    pub event: Vec<u8>,
}

impl Case {
    pub fn new(seed: u64, number: u64) -> Case {
        let random = &mut Random::new(seed, number);
        let model = models::model(random);
        let (made, script) = made_and_script(random, &model);
        let late = late(random, &model);
        let (table, table_script) = tables::table_and_script(random, made.as_deref(), &script);
        let lent_to_made = match &made {
            Some(made) => lent(random, made, 2),
            None => Vec::new(),
        };
        let lent_to_table = lent(random, &table, 3);
        Case {
            seed,
            number,
            model,
            made,
            script,
            late,
            table,
            table_script,
            lent_to_made,
            lent_to_table,
            more_rooms: random.chance(25),
            spoils: spoils(random),
            short_index: random.one_of(&[1, 2, 3, 4, 5, 6, 10, 17, 40]),
            any_index: any_index(random),
        }
    }
}

fn made_and_script(random: &mut Random, bytes: &[u8]) -> (Option<Vec<u8>>, Vec<u8>) {
    match model::read(bytes) {
        Err(_) => (None, scripts::any_script(random)),
        Ok(model) => {
            let made = translate::translate(bytes, usize::MAX).expect("the model is accepted");
            let periods = model.threads.iter().map(|thread| thread.period.0);
            let budget = budget(random, made.len(), periods.min().unwrap_or(0));
            let start = model::start_state(&model);
            let script = scripts::script(random, &model, start, budget);
            (Some(made), script)
        }
    }
}

/// Tables at least so long are those of models with many items, whose scripts
/// are often long, so that every thread and mode has its turn.
const LONG_TABLE: usize = 25_000;

/// A tick on a table costs as much as the table is long. Few scripts go through
/// long periods, or far where there is no thread and so no least period.
fn budget(random: &mut Random, table: usize, least_period: u64) -> Budget {
    let far = match least_period {
        0 => random.chance(10),
        201..14_000 => random.chance(2),
        14_000..40_000 => true,
        _ => false,
    };
    let events = match random.below(100) {
        _ if far => random.within(40, 120),
        _ if table >= LONG_TABLE && random.chance(70) => random.within(150, 500),
        0..=4 => random.within(0, 5),
        5..=84 => random.within(6, 34),
        85..=96 => random.within(35, 60),
        _ => random.within(61, 150),
    };
    Budget {
        events,
        ticks: match (far, least_period) {
            (true, 0) => 110_000,
            (true, _) => 75_000,
            _ => events + 250_000 / table,
        },
    }
}

/// Some accepted models run at late clocks too.
fn late(random: &mut Random, bytes: &[u8]) -> Option<Late> {
    let model = model::read(bytes).ok()?;
    if !random.chance(12) {
        return None;
    }
    let clock = late_clock(random, &model);
    let mut state = model::start_state(&model);
    state.now = Duration(clock.into());
    let budget = Budget {
        events: random.within(5, 60),
        ticks: 300,
    };
    let script = scripts::script(random, &model, state, budget);
    Some(Late { clock, script })
}

/// Mostly shortly before the last clock; or before the begin of some period.
fn late_clock(random: &mut Random, model: &Model) -> u32 {
    match random.below(10) {
        0..=3 => LAST_NOW - random.within(1, 40) as u32,
        4 => LAST_NOW,
        5 => random.within(70_000, 300_000) as u32,
        _ => {
            let periods = model.threads.iter().map(|thread| thread.period.0 as u32);
            let periods: Vec<u32> = periods.chain([1_000]).collect();
            let period = random.one_of(&periods);
            let times = match random.chance(60) {
                true => LAST_NOW / period,
                false => random.within(1, (LAST_NOW / period) as usize) as u32,
            };
            (times * period).saturating_sub(random.below(4) as u32)
        }
    }
}

/// Most steps are of events that have a rule, or ticks.
fn lent(random: &mut Random, table: &[u8], count: usize) -> Vec<Lent> {
    let events = events_with_rules(table);
    (0..count)
        .map(|_| Lent {
            variables: any_variables(random),
            event: match random.below(10) {
                0..=4 => tick(random.one_of(&[1, 1, 2, 3, 7, 40, 300])),
                5..=8 if !events.is_empty() => {
                    let (kind, id) = random.one_of(&events);
                    tables::event(random, kind, id)
                }
                9 if random.chance(10) => Vec::new(),
                _ => any_event(random),
            },
        })
        .collect()
}

/// Mostly 0; the clock often near its end.
fn any_variables(random: &mut Random) -> Variables {
    let mut variables = [0; VARIABLES];
    for _ in 0..random.one_of(&[0, 0, 2, 6, 30]) {
        variables[random.within(1, 287)] = random.value();
    }
    variables[NOW] = random.one_of(&[
        0,
        12,
        999_999_998,
        999_999_999,
        1_000_000_000,
        1_000_000_001,
        i32::MAX,
        -4,
        i32::MIN,
    ]);
    variables
}

/// Mostly of the state, now and then of the model.
fn spoils(random: &mut Random) -> Vec<Spoil> {
    let few = random.one_of(&[1, 2, 4, 20, 300]);
    let models = random.one_of(&[0, 0, 2, 30]);
    (0..few)
        .map(|_| Spoil {
            of_model: random.chance(models),
            // Counts and clock stand in front.
            place: match random.below(3) {
                0 => random.below(9),
                1 => random.below(130),
                _ => random.below(10_000),
            },
            number: match random.below(4) {
                0 => random.below(6) as u32,
                1 => random.one_of(&[255, 256, 999_999_999, 1_000_000_000, 1_000_000_001]),
                2 => random.value() as u32,
                _ => random.one_of(&[u32::MAX, 1 << 31, 65_536, 1_000_000]),
            },
        })
        .collect()
}

/// Numbers of all sizes; the first two, which may count and point, often small.
fn any_index(random: &mut Random) -> Vec<usize> {
    let count = random.one_of(&[1, 2, 3, 4, 7, 30]);
    let mut index: Vec<usize> = (0..count)
        .map(|_| match random.below(5) {
            0 => random.below(400),
            1 => random.below(400) << 16,
            2 => (random.below(400) << 16) + (random.below(11) << 8) + random.below(3),
            3 => (random.below(300) << 32) + random.below(5),
            _ => usize::MAX - random.below(3),
        })
        .collect();
    if random.chance(70) {
        index[0] = random.below(20);
    }
    if count > 1 && random.chance(70) {
        index[1] = random.below(400);
    }
    index
}

/// Kind and id of each rule, as far as the records are whole.
fn events_with_rules(table: &[u8]) -> Vec<(u8, u8)> {
    let mut events = Vec::new();
    let mut rest = table;
    while let Some(length) = rest.first().and_then(|&kind| table_body(kind)) {
        if rest.len() <= length {
            break;
        }
        if let [0x21, kind, id, ..] = *rest {
            events.push((kind, id));
        }
        rest = &rest[1 + length..];
    }
    events
}
