//! What is measured: the library's work and the plain model's on one input, and
//! beside them the limit's.

use std::cell::{LazyCell, RefCell};
use std::hint::black_box;
use std::rc::Rc;

use futonkestrel::{raw, ROOM_FOR_TABLE};
use plain::script::{read_event, run};
use plain::table::variable::NOW;

use crate::ends;
use crate::limit_work;
use crate::measure::{Done, Measurement, Work};
use crate::scripts::Script;
use crate::size_work;
use crate::stepped_work;
use crate::subjects::{Amounts, Pair, Subject};

/// Speeds are to be at least so many times those of the plain model: of what
/// runs a model, steps, reads, translates or tells sizes, and of what runs a table.
pub const GOAL: Option<f64> = Some(1.0);
const TABLE_RUN_GOAL: Option<f64> = Some(1.1);
pub const NO_GOAL: Option<f64> = None;

/// The most threads of a model.
pub const THREADS: usize = 16;

/// The names that have a text; only one where it is the whole name.
pub fn names(text: &str) -> Vec<String> {
    let all: Vec<String> = SUBJECTS
        .iter()
        .flat_map(|(subject, _)| {
            MEASUREMENTS
                .iter()
                .map(move |(name, _)| format!("{subject}, {name}"))
        })
        .collect();
    if all.iter().any(|name| name == text) {
        return vec![text.to_string()];
    }
    all.into_iter().filter(|name| name.contains(text)).collect()
}

/// The measurements of [`names`].
pub fn measurements(text: &str, amounts: Amounts) -> Vec<Measurement> {
    let chosen = names(text);
    let mut made = Vec::new();
    for (subject_name, subject) in SUBJECTS {
        let subject = LazyCell::new(|| subject(amounts));
        for (name, make) in MEASUREMENTS {
            let name = format!("{subject_name}, {name}");
            if chosen.contains(&name) {
                made.push(make(&subject, name));
            }
        }
    }
    made
}

/// Makes a subject.
type Make = fn(Amounts) -> Subject;

const SUBJECTS: [(&str, Make); 4] = [
    ("1 thread", |amounts| Subject::periodic(1, amounts)),
    ("4 threads", |amounts| Subject::periodic(4, amounts)),
    ("16 threads", |amounts| Subject::periodic(16, amounts)),
    ("longest table", Subject::full),
];

/// Makes a measurement of that name.
type Measure = fn(&Subject, String) -> Measurement;

const MEASUREMENTS: [(&str, Measure); 18] = [
    ("model events", |subject, name| {
        model_run(name, &subject.quick, subject.events(), Unit::Event)
    }),
    ("model ticks", |subject, name| {
        model_run(name, &subject.slow, subject.long_ticks(), Unit::Tick)
    }),
    ("model ticks, 1 each", |subject, name| {
        model_run(name, &subject.slow, subject.single_ticks(), Unit::Tick)
    }),
    ("table events", |subject, name| {
        table_run(name, &subject.quick, subject.events(), Unit::Event)
    }),
    ("table ticks", |subject, name| {
        table_run(name, &subject.slow, subject.long_ticks(), Unit::Tick)
    }),
    ("table ticks, 1 each", |subject, name| {
        table_run(name, &subject.slow, subject.single_ticks(), Unit::Tick)
    }),
    ("table steps", |subject, name| {
        table_steps(name, &subject.quick, subject.events())
    }),
    ("table steps by an index", |subject, name| {
        stepped_work::table_steps_by_index(name, &subject.quick, subject.events())
    }),
    ("model steps on lent state", |subject, name| {
        stepped_work::model_steps(name, &subject.quick, subject.events())
    }),
    ("model enabled", |subject, name| {
        stepped_work::model_enabled(name, &subject.quick, subject.events())
    }),
    ("table enabled", |subject, name| {
        stepped_work::table_enabled(name, &subject.quick, subject.events())
    }),
    ("translations", |subject, name| {
        translation(name, &subject.quick)
    }),
    ("table sizes", |subject, name| {
        size_work::table_sizes(name, &subject.quick)
    }),
    ("sizes to translations", |subject, name| {
        size_work::sizes_to_translations(name, &subject.quick)
    }),
    ("model listing lines", |subject, name| {
        model_listing(name, &subject.quick, subject.events())
    }),
    ("table listing lines", |subject, name| {
        table_listing(name, &subject.quick, subject.events())
    }),
    ("models read", |subject, name| {
        model_reader(name, &subject.quick)
    }),
    ("tables read", |subject, name| {
        table_reading(name, &subject.quick)
    }),
];

fn model_run(name: String, pair: &Pair, script: &Rc<Script>, unit: Unit) -> Measurement {
    let input = (pair.model.clone(), script.clone());
    let ours = with(input.clone(), move |(model, script), size| {
        let run = futonkestrel::run_model(black_box(model), black_box(script.first(size)));
        our_run(run, script, size, unit)
    });
    let plain = with(input, move |(model, script), size| {
        let model = plain::model::read(black_box(model)).expect("accepted");
        let mut state = plain::model::start_state(&model);
        let (taken, refusal) = run(
            black_box(script.first(size)),
            &mut state,
            |state, event| plain::model::step(&model, state, event),
            |_, _| {},
        );
        assert_eq!(refusal, None, "all events are taken");
        done_run(taken, state.now.0, script, size, unit)
    });
    Measurement {
        ends: Some(ends::of_model(pair, script)),
        note: ticks_each(script, unit),
        limit: Some(limit_work::model_run(pair, script, unit)),
        ..measurement(name, pair, GOAL, script.events(), ours, plain)
    }
}

fn table_run(name: String, pair: &Pair, script: &Rc<Script>, unit: Unit) -> Measurement {
    let input = (pair.table.clone(), script.clone());
    let ours = with(input.clone(), move |(table, script), size| {
        let run = futonkestrel::run_table(black_box(table), black_box(script.first(size)));
        our_run(run, script, size, unit)
    });
    let plain = with(input, move |(table, script), size| {
        let table = plain::table::read(black_box(table)).expect("accepted");
        let mut variables = plain::table::start_state(&table);
        let (taken, refusal) = run(
            black_box(script.first(size)),
            &mut variables,
            |variables, event| plain::table::step(&table, variables, event),
            |_, _| {},
        );
        assert_eq!(refusal, None, "all events are taken");
        done_run(taken, variables[NOW] as u64, script, size, unit)
    });
    Measurement {
        ends: Some(ends::of_table(pair, script)),
        note: ticks_each(script, unit),
        limit: Some(limit_work::table_run(pair, script, unit)),
        ..measurement(name, pair, TABLE_RUN_GOAL, script.events(), ours, plain)
    }
}

/// The table is read before; the caller keeps the variables, and no index: each
/// step walks the table.
fn table_steps(name: String, pair: &Pair, script: &Rc<Script>) -> Measurement {
    let mut start = [0; futonkestrel::VARIABLES];
    assert_eq!(raw::table_start(&pair.table, &mut start), 0);
    let input = (pair.table.clone(), script.clone());
    let ours = with(input, move |(table, script), size| {
        let mut variables = start;
        let mut taken = 0;
        for event in futonkestrel::events(black_box(script.first(size))) {
            let answer = raw::table_step(black_box(table), &[], &mut variables, event);
            assert_eq!(answer, 0, "all events are taken");
            taken += 1;
        }
        done_steps(taken, &variables)
    });
    let plain = plain_table_steps(pair, script);
    Measurement {
        limit: Some(limit_work::table_steps(pair, script)),
        ..measurement(name, pair, NO_GOAL, script.events(), ours, plain)
    }
}

/// The plain model's steps of a table that is read before.
pub fn plain_table_steps(pair: &Pair, script: &Rc<Script>) -> Work {
    let read = plain::table::read(&pair.table).expect("accepted");
    with((read, script.clone()), |(table, script), size| {
        let mut variables = plain::table::start_state(black_box(table));
        let script = black_box(script.first(size));
        let mut taken = 0;
        let mut at = 0;
        while at < script.len() {
            let (event, end) = read_event(script, at).expect("an event");
            variables =
                plain::table::step(table, &variables, &event).expect("all events are taken");
            taken += 1;
            at = end;
        }
        done_steps(taken, &variables)
    })
}

/// The output has room for any table.
fn translation(name: String, pair: &Pair) -> Measurement {
    let model = pair.model.clone();
    let output = RefCell::new(vec![0; ROOM_FOR_TABLE]);
    let ours = with((model.clone(), output), |(model, output), size| {
        let mut output = output.borrow_mut();
        let mut length = 0;
        for _ in 0..size {
            length = futonkestrel::translate(black_box(model), &mut output).expect("accepted");
        }
        done_bytes(size, &output[..length])
    });
    let plain = with(model, |model, size| {
        let mut table = Vec::new();
        for _ in 0..size {
            let made = plain::translate::translate(black_box(model), ROOM_FOR_TABLE);
            table = made.expect("accepted");
        }
        done_bytes(size, &table)
    });
    measurement(name, pair, GOAL, usize::MAX, ours, plain)
}

fn model_listing(name: String, pair: &Pair, script: &Rc<Script>) -> Measurement {
    let input = (pair.model.clone(), script.clone());
    let output = listing_room(script);
    let ours = with(
        (input.clone(), output),
        |((model, script), output), size| {
            let mut output = output.borrow_mut();
            let script = black_box(script.first(size));
            let length = futonkestrel::model_listing_into(black_box(model), script, &mut output);
            done_bytes(size, &output[..length])
        },
    );
    let plain = with(input, |(model, script), size| {
        let script = black_box(script.first(size));
        let lines = plain::listing::steps(black_box(model), script);
        done_bytes(size, lines.as_bytes())
    });
    Measurement {
        limit: Some(limit_work::model_listing(pair, script)),
        ..measurement(name, pair, NO_GOAL, script.events(), ours, plain)
    }
}

fn table_listing(name: String, pair: &Pair, script: &Rc<Script>) -> Measurement {
    let input = (pair.table.clone(), script.clone());
    let output = listing_room(script);
    let ours = with(
        (input.clone(), output),
        |((table, script), output), size| {
            let mut output = output.borrow_mut();
            let script = black_box(script.first(size));
            let length = futonkestrel::table_listing_into(black_box(table), script, &mut output);
            done_bytes(size, &output[..length])
        },
    );
    let plain = with(input, |(table, script), size| {
        let script = black_box(script.first(size));
        let lines = plain::listing::of_table(black_box(table), script);
        done_bytes(size, lines.as_bytes())
    });
    Measurement {
        limit: Some(limit_work::table_listing(pair, script)),
        ..measurement(name, pair, NO_GOAL, script.events(), ours, plain)
    }
}

fn model_reader(name: String, pair: &Pair) -> Measurement {
    let model = pair.model.clone();
    let ours = with(model.clone(), |model, size| {
        let read = |_| futonkestrel::read_model(black_box(model)).is_ok();
        done_readings((0..size).filter(|&time| read(time)).count(), size)
    });
    let plain = with(model, |model, size| {
        let read = |_| black_box(plain::model::read(black_box(model))).is_ok();
        done_readings((0..size).filter(|&time| read(time)).count(), size)
    });
    measurement(name, pair, GOAL, usize::MAX, ours, plain)
}

fn table_reading(name: String, pair: &Pair) -> Measurement {
    let table = pair.table.clone();
    let ours = with(table.clone(), |table, size| {
        let read = |_| futonkestrel::read_table(black_box(table)).is_ok();
        done_readings((0..size).filter(|&time| read(time)).count(), size)
    });
    let plain = with(table, |table, size| {
        let read = |_| black_box(plain::table::read(black_box(table))).is_ok();
        done_readings((0..size).filter(|&time| read(time)).count(), size)
    });
    measurement(name, pair, GOAL, usize::MAX, ours, plain)
}

pub fn measurement(
    name: String,
    pair: &Pair,
    goal: Option<f64>,
    most: usize,
    ours: Work,
    plain: Work,
) -> Measurement {
    Measurement {
        name,
        note: String::new(),
        table_bytes: pair.table.len(),
        goal,
        most,
        ours,
        plain,
        limit: None,
        ends: None,
    }
}

/// What a run's speed is counted in.
#[derive(Clone, Copy)]
pub enum Unit {
    Event,
    Tick,
}

/// How many ticks an event has on average, where events are counted.
fn ticks_each(script: &Script, unit: Unit) -> String {
    let events = script.events();
    match unit {
        Unit::Event => format!(
            "{:.1} ticks each",
            script.ticks(events) as f64 / events as f64
        ),
        Unit::Tick => String::new(),
    }
}

/// Work on an input that it keeps.
pub fn with<I: 'static>(input: I, work: impl Fn(&I, usize) -> Done + 'static) -> Work {
    Box::new(move |size| work(&input, size))
}

fn our_run(run: futonkestrel::Run, script: &Script, size: usize, unit: Unit) -> Done {
    assert_eq!(run.refusal, None, "all events are taken");
    done_run(run.taken, run.clock.into(), script, size, unit)
}

pub fn done_run(taken: usize, clock: u64, script: &Script, size: usize, unit: Unit) -> Done {
    assert_eq!(taken, size, "all events are taken");
    assert_eq!(clock, script.ticks(size), "all ticks are taken");
    let units = match unit {
        Unit::Event => taken as u64,
        Unit::Tick => clock,
    };
    Done {
        units,
        result: Vec::new(),
    }
}

pub fn done_steps(taken: u64, variables: &[i32]) -> Done {
    Done {
        units: taken,
        result: variables.iter().flat_map(|v| v.to_le_bytes()).collect(),
    }
}

/// A table or a listing. The last line of a listing is not counted.
pub fn done_bytes(units: usize, result: &[u8]) -> Done {
    Done {
        units: units as u64,
        result: result.to_vec(),
    }
}

fn done_readings(accepted: usize, size: usize) -> Done {
    assert_eq!(accepted, size, "accepted");
    Done {
        units: accepted as u64,
        result: Vec::new(),
    }
}

/// No line is longer than 40 bytes here.
fn listing_room(script: &Script) -> RefCell<Vec<u8>> {
    RefCell::new(vec![0; 40 * (script.events() + 1)])
}

#[cfg(test)]
mod tests {
    use super::*;

    /// A short run of every measurement.
    #[test]
    fn all_sides_come_to_the_same() {
        let amounts = Amounts {
            events: 200,
            ticks: 5_000,
        };
        let all = measurements("", amounts);
        assert_eq!(all.len(), SUBJECTS.len() * MEASUREMENTS.len());
        for measurement in all {
            measurement.try_once(measurement.most.min(200));
        }
    }
}
