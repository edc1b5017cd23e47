//! What the plain model says of an input.

use std::cell::RefCell;

use plain::model::{self, Duration, Model, State};
use plain::refusal::{Refusal, EVENT};
use plain::script::{self, Event};
use plain::table::{self, Table};
use plain::{listing, offers, show, size, start_test, translate};

use crate::answers::{
    After, Listing, Offers, Run, Said, Size, Step, Told, Translation, Variables, BEHIND, BYTE, DUE,
    END, FIGURE, NOW, THREADS, VARIABLES,
};
use crate::case::Late;
use crate::lending::Number;
use crate::random::Random;
use crate::reach::Reach;
use crate::starts::{self, Asked, Question, StartTold};

/// All that is to be said of a model and a script, and what the events did. The
/// listing goes into an output with room behind it and, with `more_rooms`, one
/// that is too short.
pub fn of_model(bytes: &[u8], script: &[u8], more_rooms: bool) -> (Said, Reach) {
    let listings = into_rooms(listing::steps(bytes, script).as_bytes(), more_rooms);
    match model::read(bytes) {
        Err(refusal) => (refused(refusal, listings), Reach::default()),
        Ok(model) => {
            let start = model::start_state(&model);
            let (seen, mut reach) = model_seen(&model, start.clone(), script);
            reach.note_start(&model);
            let step = |state: &State, event: &Event| model::step(&model, state, event);
            let said = Said {
                read: Told::default(),
                // It is shown by an empty event, which is refused.
                start: after(EVENT, show_without_times(&model, &start)),
                steps: seen.steps,
                run: run(script, start, step, |state| state.now.0 as usize),
                listings,
                offers: seen.offers,
                shown: seen.shown,
                asked: seen.asked,
            };
            (said, reach)
        }
    }
}

/// What is seen along a script of a model whose clock starts late, and what the
/// events did.
pub fn of_late_model(bytes: &[u8], late: &Late) -> (Seen, Reach) {
    let model = model::read(bytes).expect("an accepted model has a late clock");
    let mut start = model::start_state(&model);
    start.now = Duration(late.clock.into());
    model_seen(&model, start, &late.script)
}

fn model_seen(model: &Model, start: State, script: &[u8]) -> (Seen, Reach) {
    let reach = RefCell::new(Reach::default());
    let step = |state: &State, event: &Event| {
        let came = model::step(model, state, event);
        reach.borrow_mut().note(model, state, event, &came);
        came
    };
    let random = RefCell::new(Random::new(script.len() as u64, start.now.0));
    let look = |state: &State| Look {
        variables: show_without_times(model, state),
        shown: Some(show::show_jobs(model, state)),
        offers: offered(offers::of_model(model, state)),
        asked: asked(
            &mut random.borrow_mut(),
            model,
            state,
            &mut reach.borrow_mut(),
        ),
    };
    let seen = seen(script, start, step, look);
    (seen, reach.into_inner())
}

/// What START's test tells in a state, of some threads and lengths.
fn asked(random: &mut Random, model: &Model, state: &State, reach: &mut Reach) -> Vec<Asked> {
    let ask = |question: Question| {
        let Question { thread, length } = question;
        let step = model::start_test(model, state, thread, length);
        let asked = Asked { question, step };
        reach.starts.note(model, state, &asked);
        asked
    };
    let questions = starts::questions(random, model, state);
    questions.into_iter().map(ask).collect()
}

/// What START's test tells in the state that a script leaves.
pub fn start_test(model: &[u8], script: &[u8], question: Question) -> StartTold {
    let Question { thread, length } = question;
    match start_test::start_test(model, script, thread, length) {
        Ok(step) => StartTold {
            told: Told::default(),
            step: step.into(),
        },
        Err(refusal) => StartTold {
            told: told(Some(refusal)),
            step: usize::MARK,
        },
    }
}

/// All that is to be said of a table and a script.
pub fn of_table(bytes: &[u8], script: &[u8], more_rooms: bool) -> Said {
    let listings = into_rooms(listing::of_table(bytes, script).as_bytes(), more_rooms);
    match table::read(bytes) {
        Err(refusal) => refused(refusal, listings),
        Ok(table) => {
            let start = table::start_state(&table);
            let seen = table_seen(&table, start, script);
            let step = |state: &Variables, event: &Event| table::step(&table, state, event);
            Said {
                read: Told::default(),
                start: after(0, start),
                steps: seen.steps,
                run: run(script, start, step, |state| state[NOW] as usize),
                listings,
                offers: seen.offers,
                shown: seen.shown,
                asked: seen.asked,
            }
        }
    }
}

/// The same as for a model, of its table.
pub fn of_late_table(bytes: &[u8], late: &Late) -> Seen {
    let table = table::read(bytes).expect("a made table is accepted");
    let mut start = table::start_state(&table);
    start[NOW] = late.clock as i32;
    table_seen(&table, start, &late.script)
}

fn table_seen(table: &Table, start: Variables, script: &[u8]) -> Seen {
    let step = |state: &Variables, event: &Event| table::step(table, state, event);
    let look = |state: &Variables| Look {
        variables: *state,
        shown: None,
        offers: table_offers(table, state),
        asked: Vec::new(),
    };
    seen(script, start, step, look)
}

/// The table made from a model, into an output of some room.
pub fn translation(model: &[u8], room: usize) -> Translation {
    match translate::translate(model, room) {
        Err(refusal) => Translation {
            told: told(Some(refusal)),
            length: 0,
            output: vec![BYTE; room],
        },
        Ok(table) => Translation {
            told: Told::default(),
            length: table.len(),
            output: into_room(&table, room),
        },
    }
}

/// The size of the table made from a model.
pub fn size(model: &[u8]) -> Size {
    let (refusal, size) = size::table_size(model);
    Size {
        told: told(refusal),
        bytes: size.bytes,
        records: [size.rules, size.clauses, size.atoms, size.updates],
    }
}

/// One event of its own, on variables of its own.
pub fn lent_step(table: &Table, variables: &Variables, event: &[u8]) -> After {
    if event.is_empty() {
        // No bytes are no event; the plain model asks only where there are some.
        return after(EVENT, *variables);
    }
    let mut state = *variables;
    let answer = script::answer_one(event, 0, &mut state, |state, event| {
        table::step(table, state, event)
    });
    after(answer.number, state)
}

fn told(refusal: Option<Refusal>) -> Told {
    refusal.map_or(Told::default(), |refusal| Told {
        number: refusal.number.into(),
        start: refusal.start,
        end: refusal.end,
    })
}

fn after(answer: u8, variables: Variables) -> After {
    After {
        answer: answer.into(),
        variables,
        behind: [FIGURE; BEHIND],
    }
}

/// A refused model or table starts nothing and takes nothing.
fn refused(refusal: Refusal, listings: Vec<Listing>) -> Said {
    Said {
        read: told(Some(refusal)),
        start: after(refusal.number, [FIGURE; VARIABLES]),
        steps: Vec::new(),
        run: Run {
            told: told(Some(refusal)),
            ..Run::default()
        },
        listings,
        offers: Vec::new(),
        shown: Vec::new(),
        asked: Vec::new(),
    }
}

/// The library shows a model's state without Due and End, which it computes
/// where it needs them.
fn show_without_times(model: &Model, state: &State) -> Variables {
    let mut variables = show::show(model, state);
    variables[DUE..DUE + THREADS].fill(0);
    variables[END..END + THREADS].fill(0);
    variables
}

/// What a table offers with some variables.
pub fn table_offers(table: &Table, variables: &Variables) -> Offers {
    offered(offers::of_table(table, variables))
}

fn offered(enabled: offers::Enabled) -> Offers {
    let numbers = |offer: &offers::Offer| {
        let (kind, id) = (offer.kind.into(), offer.id.into());
        [kind, id, offer.low, offer.high]
    };
    Offers {
        events: enabled.events.iter().map(numbers).collect(),
        tick: enabled.tick,
    }
}

/// A state, looked at.
struct Look {
    variables: Variables,
    /// As a lent state of a model shows them.
    shown: Option<Variables>,
    offers: Offers,
    asked: Vec<Asked>,
}

/// What is seen along a script; all but the steps at the start too.
#[derive(Default)]
pub struct Seen {
    pub steps: Vec<Step>,
    pub shown: Vec<Variables>,
    pub offers: Vec<Offers>,
    pub asked: Vec<Vec<Asked>>,
}

fn seen<S>(
    script: &[u8],
    mut state: S,
    step: impl Fn(&S, &Event) -> Result<S, u8>,
    look: impl Fn(&S) -> Look,
) -> Seen {
    let mut seen = Seen::default();
    let start = look(&state);
    seen.shown.extend(start.shown);
    seen.offers.push(start.offers);
    seen.asked.push(start.asked);
    script::run_on(script, &mut state, step, |answer, state| {
        let look = look(state);
        seen.shown.extend(look.shown);
        seen.offers.push(look.offers);
        seen.asked.push(look.asked);
        seen.steps.push(Step {
            number: seen.steps.len(),
            start: answer.start,
            end: answer.end,
            after: after(answer.number, look.variables),
        });
    });
    seen
}

fn run<S>(
    script: &[u8],
    mut state: S,
    step: impl Fn(&S, &Event) -> Result<S, u8>,
    clock: impl Fn(&S) -> usize,
) -> Run {
    let (taken, refusal) = script::run(script, &mut state, step, |_, _| ());
    Run {
        told: told(refusal),
        taken,
        clock: clock(&state),
    }
}

fn into_rooms(listing: &[u8], more_rooms: bool) -> Vec<Listing> {
    let length = listing.len();
    let rooms = if more_rooms {
        vec![length + 5, length - 2, 0]
    } else {
        vec![length + 5]
    };
    let into = |room| Listing {
        length,
        output: into_room(listing, room),
    };
    rooms.into_iter().map(into).collect()
}

/// As many of the bytes as there is room for, and nothing behind them.
fn into_room(bytes: &[u8], room: usize) -> Vec<u8> {
    let mut output = bytes[..bytes.len().min(room)].to_vec();
    output.resize(room, BYTE);
    output
}
