//! The limit's work. It begins with what is read and decoded.

use std::cell::RefCell;
use std::hint::black_box;
use std::rc::Rc;

use plain::table::variable::NOW;

use crate::limit::{self, Event, Lines, Machine, Model, Scratch, State, Table, TAKEN};
use crate::measure::Work;
use crate::scripts::Script;
use crate::stepped_work::without_idle_dues;
use crate::subjects::Pair;
use crate::work::{done_bytes, done_run, done_steps, with, Unit};

fn decoded_model(pair: &Pair) -> Model {
    Model::decode(&plain::model::read(&pair.model).expect("accepted"))
}

fn decoded_table(pair: &Pair) -> Table {
    Table::decode(&plain::table::read(&pair.table).expect("accepted"))
}

pub fn model_run(pair: &Pair, script: &Rc<Script>, unit: Unit) -> Work {
    let input = (decoded_model(pair), script.clone());
    with(input, move |(model, script), size| {
        let mut state = State::start(black_box(model));
        let events = black_box(script.first(size));
        let (taken, answer) = limit::run(events, |event| state.step(model, event), |_| {});
        assert_eq!(answer, TAKEN, "all events are taken");
        done_run(taken, state.now.into(), script, size, unit)
    })
}

pub fn table_run(pair: &Pair, script: &Rc<Script>, unit: Unit) -> Work {
    let input = (decoded_table(pair), script.clone());
    with(input, move |(table, script), size| {
        let mut machine = Machine::start(black_box(table));
        let events = black_box(script.first(size));
        let (taken, answer) = limit::run(events, |event| machine.step(event), |_| {});
        assert_eq!(answer, TAKEN, "all events are taken");
        done_run(taken, machine.variables[NOW] as u64, script, size, unit)
    })
}

/// The variables are the caller's: nothing is kept from step to step.
pub fn table_steps(pair: &Pair, script: &Rc<Script>) -> Work {
    let input = (decoded_table(pair), script.clone());
    with(input, |(table, script), size| {
        let mut variables = table.start;
        let mut scratch = Scratch::default();
        let step =
            |event: &Event| black_box(table).step(black_box(&mut variables), event, &mut scratch);
        let (taken, answer) = limit::run(black_box(script.first(size)), step, |_| {});
        assert_eq!(answer, TAKEN, "all events are taken");
        done_steps(taken as u64, &variables)
    })
}

/// The state is the caller's, and keeps the instant to which time may leap.
pub fn model_steps(pair: &Pair, script: &Rc<Script>) -> Work {
    let input = (decoded_model(pair), script.clone());
    with(input, |(model, script), size| {
        let mut state = State::start(black_box(model));
        let step = |event: &Event| state.step(black_box(model), event);
        let (taken, answer) = limit::run(black_box(script.first(size)), step, |_| {});
        assert_eq!(answer, TAKEN, "all events are taken");
        done_steps(taken as u64, &without_idle_dues(&state.show(model)))
    })
}

pub fn model_listing(pair: &Pair, script: &Rc<Script>) -> Work {
    let lines = RefCell::new(Lines::default());
    let input = (decoded_model(pair), script.clone(), lines);
    with(input, |(model, script, lines), size| {
        let mut lines = lines.borrow_mut();
        lines.clear();
        let state = RefCell::new(State::start(black_box(model)));
        let (_, answer) = limit::run(
            black_box(script.first(size)),
            |event| state.borrow_mut().step(model, event),
            |event| lines.add(event, state.borrow().now),
        );
        lines.end(answer, state.borrow().now);
        done_bytes(size, &lines.bytes)
    })
}

pub fn table_listing(pair: &Pair, script: &Rc<Script>) -> Work {
    let lines = RefCell::new(Lines::default());
    let input = (decoded_table(pair), script.clone(), lines);
    with(input, |(table, script, lines), size| {
        let mut lines = lines.borrow_mut();
        lines.clear();
        let machine = RefCell::new(Machine::start(black_box(table)));
        let clock = || machine.borrow().variables[NOW] as u32;
        let (_, answer) = limit::run(
            black_box(script.first(size)),
            |event| machine.borrow_mut().step(event),
            |event| lines.add(event, clock()),
        );
        lines.end(answer, clock());
        done_bytes(size, &lines.bytes)
    })
}
