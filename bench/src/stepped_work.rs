//! Work event by event: steps of a table by an index, steps of a model on a lent
//! state, and what is enabled.

use std::hint::black_box;
use std::rc::Rc;

use futonkestrel::{raw, Variables, MODEL_WORDS, STATE_WORDS, VARIABLES};
use plain::offers::{self, Enabled};
use plain::script::{read_event, run_on};
use plain::table::variable::{due, state};

use crate::limit_work;
use crate::measure::{Done, Measurement};
use crate::scripts::Script;
use crate::subjects::Pair;
use crate::work::{done_steps, measurement, plain_table_steps, with, GOAL, NO_GOAL, THREADS};

/// Table and index are made before; the caller keeps the variables.
pub fn table_steps_by_index(name: String, pair: &Pair, script: &Rc<Script>) -> Measurement {
    let mut start = [0; VARIABLES];
    assert_eq!(raw::table_start(&pair.table, &mut start), 0);
    let input = (pair.table.clone(), index_of(&pair.table), script.clone());
    let ours = with(input, move |(table, index, script), size| {
        let mut variables = start;
        let mut taken = 0;
        for event in futonkestrel::events(black_box(script.first(size))) {
            let answer = raw::table_step(black_box(table), index, &mut variables, event);
            assert_eq!(answer, 0, "all events are taken");
            taken += 1;
        }
        done_steps(taken, &variables)
    });
    let plain = plain_table_steps(pair, script);
    Measurement {
        limit: Some(limit_work::table_steps(pair, script)),
        ..measurement(name, pair, GOAL, script.events(), ours, plain)
    }
}

/// The model is read before; the caller keeps the state, which is shown at the end.
pub fn model_steps(name: String, pair: &Pair, script: &Rc<Script>) -> Measurement {
    let (words, start) = words_and_start(pair);
    let input = (words, start, script.clone());
    let ours = with(input, |(words, start, script), size| {
        let mut state = *start;
        let mut taken = 0;
        for event in futonkestrel::events(black_box(script.first(size))) {
            let answer = raw::model_step(black_box(words), &mut state, event);
            assert_eq!(answer, 0, "all events are taken");
            taken += 1;
        }
        let mut variables = [0; VARIABLES];
        assert_eq!(raw::model_variables(words, &state, &mut variables), 0);
        done_steps(taken, &variables)
    });
    let read = plain::model::read(&pair.model).expect("accepted");
    let plain = with((read, script.clone()), |(model, script), size| {
        let mut state = plain::model::start_state(black_box(model));
        let script = black_box(script.first(size));
        let (mut taken, mut at) = (0, 0);
        while at < script.len() {
            let (event, end) = read_event(script, at).expect("an event");
            state = plain::model::step(model, &state, &event).expect("all events are taken");
            taken += 1;
            at = end;
        }
        done_steps(taken, &plain::show::show_jobs(model, &state))
    });
    Measurement {
        limit: Some(limit_work::model_steps(pair, script)),
        ..measurement(name, pair, GOAL, script.events(), ours, plain)
    }
}

/// Due stands for something while a job is in hand: other figures of it go.
pub fn without_idle_dues(variables: &Variables) -> Variables {
    let mut shown = *variables;
    for thread in 0..THREADS {
        if shown[state(thread)] < 2 {
            shown[due(thread)] = 0;
        }
    }
    shown
}

/// So many states along a script are asked for what is enabled, in turns.
const STAGES: usize = 200;

/// What is enabled in the states of a run; each list is made anew.
pub fn model_enabled(name: String, pair: &Pair, script: &Rc<Script>) -> Measurement {
    let (words, start) = words_and_start(pair);
    let events = script.first(script.events().min(STAGES));
    let mut state = start;
    let stages: Vec<[u32; STATE_WORDS]> = futonkestrel::events(events)
        .map(|event| {
            assert_eq!(raw::model_step(&words, &mut state, event), 0);
            state
        })
        .collect();
    let ours = with((words, stages), |(words, stages), size| {
        listed_by_us(stages, size, |stage, output, told| {
            raw::model_enabled(black_box(words), stage, output, told)
        })
    });
    let read = plain::model::read(&pair.model).expect("accepted");
    let mut stages = Vec::new();
    run_on(
        events,
        &mut plain::model::start_state(&read),
        |state, event| plain::model::step(&read, state, event),
        |_, state| stages.push(state.clone()),
    );
    let plain = with((read, stages), |(model, stages), size| {
        listed_by_plain(stages, size, |stage| {
            offers::of_model(black_box(model), stage)
        })
    });
    measurement(name, pair, NO_GOAL, usize::MAX, ours, plain)
}

/// The same of the table, by an index.
pub fn table_enabled(name: String, pair: &Pair, script: &Rc<Script>) -> Measurement {
    let read = plain::table::read(&pair.table).expect("accepted");
    let events = script.first(script.events().min(STAGES));
    let mut stages: Vec<Variables> = Vec::new();
    run_on(
        events,
        &mut plain::table::start_state(&read),
        |variables, event| plain::table::step(&read, variables, event),
        |_, variables| stages.push(*variables),
    );
    let input = (pair.table.clone(), index_of(&pair.table), stages.clone());
    let ours = with(input, |(table, index, stages), size| {
        listed_by_us(stages, size, |stage, output, told| {
            raw::table_enabled(black_box(table), index, stage, output, told)
        })
    });
    let plain = with((read, stages), |(table, stages), size| {
        listed_by_plain(stages, size, |stage| {
            offers::of_table(black_box(table), stage)
        })
    });
    measurement(name, pair, NO_GOAL, usize::MAX, ours, plain)
}

/// A list of events never has more numbers here.
const LIST: usize = 1_000;

fn listed_by_us<S>(
    stages: &[S],
    size: usize,
    list: impl Fn(&S, &mut [u32], &mut [usize]) -> u32,
) -> Done {
    let mut output = [0; LIST];
    let mut lists = Lists::default();
    for stage in stages.iter().cycle().take(size) {
        let mut told = [0; 2];
        let answer = list(black_box(stage), &mut output, &mut told);
        assert_eq!(answer, 0, "there is room");
        let numbers = output[..4 * told[0]].iter();
        lists.add(numbers.copied(), told[1] == 1);
    }
    lists.done()
}

fn listed_by_plain<S>(stages: &[S], size: usize, list: impl Fn(&S) -> Enabled) -> Done {
    let mut lists = Lists::default();
    for stage in stages.iter().cycle().take(size) {
        let enabled = list(black_box(stage));
        let numbers = enabled.events.iter().flat_map(|offer| {
            let (kind, id) = (offer.kind.into(), offer.id.into());
            [kind, id, offer.low, offer.high]
        });
        lists.add(numbers, enabled.tick);
    }
    lists.done()
}

/// All lists that were made, as one figure: any other number or order of them
/// makes another.
#[derive(Default)]
struct Lists {
    count: u64,
    figure: u64,
}

impl Lists {
    fn add(&mut self, numbers: impl Iterator<Item = u32>, tick: bool) {
        const FACTOR: u64 = 0x9E37_79B9_7F4A_7C15;
        let mix = |figure: u64, number: u64| (figure ^ number).wrapping_mul(FACTOR);
        let all = numbers.map(u64::from).chain([1 << 40, tick.into()]);
        self.figure = all.fold(self.figure, mix);
        self.count += 1;
    }

    fn done(&self) -> Done {
        Done {
            units: self.count,
            result: self.figure.to_le_bytes().to_vec(),
        }
    }
}

pub fn index_of(table: &[u8]) -> Vec<usize> {
    let mut index = vec![0; raw::table_index(table, &mut [])];
    raw::table_index(table, &mut index);
    index
}

/// The model as it is read, and its state at the start.
fn words_and_start(pair: &Pair) -> (Vec<u32>, [u32; STATE_WORDS]) {
    let mut words = vec![0; MODEL_WORDS];
    assert_eq!(raw::model_read(&pair.model, &mut words, &mut []), 0);
    let mut start = [0; STATE_WORDS];
    assert_eq!(raw::model_start(&words, &mut start), 0);
    (words, start)
}
