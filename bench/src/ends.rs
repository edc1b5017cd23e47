//! The states at the end of a run, which itself tells events and clock only: all
//! sides show all variables, after the same events.

use std::rc::Rc;

use futonkestrel::{raw, Variables, VARIABLES};
use plain::script::run;
use plain::table::variable::due;

use crate::limit::{self, Machine, Model, State, Table};
use crate::measure::Ends;
use crate::scripts::Script;
use crate::stepped_work::index_of;
use crate::subjects::Pair;
use crate::work::THREADS;

/// The states of a model after so many events.
pub fn of_model(pair: &Pair, script: &Rc<Script>) -> Ends {
    let (model, script) = (pair.model.clone(), script.clone());
    Box::new(move |size| assert_same_state(&model, script.first(size)))
}

/// The variables of a table after so many events.
pub fn of_table(pair: &Pair, script: &Rc<Script>) -> Ends {
    let (table, script) = (pair.table.clone(), script.clone());
    Box::new(move |size| assert_same_variables(&table, script.first(size)))
}

fn assert_same_state(model: &[u8], script: &[u8]) {
    let read = plain::model::read(model).expect("accepted");
    let mut state = plain::model::start_state(&read);
    let step = |state: &_, event: &_| plain::model::step(&read, state, event);
    run(script, &mut state, step, |_, _| {});
    let mut wanted = plain::show::show(&read, &state);

    let decoded = Model::decode(&read);
    let mut state = State::start(&decoded);
    limit::run(script, |event| state.step(&decoded, event), |_| {});
    assert_eq!(state.show(&decoded), wanted, "the limit has the same state");

    // No event shows the state as it is, without Due and End.
    let mut ours = [0; VARIABLES];
    futonkestrel::model_after(model, script, &[], &mut ours);
    wanted[due(0)..due(0) + 2 * THREADS].fill(0);
    assert_eq!(ours, wanted, "we have the same state");
}

fn assert_same_variables(table: &[u8], script: &[u8]) {
    let read = plain::table::read(table).expect("accepted");
    let mut wanted = plain::table::start_state(&read);
    let step = |variables: &_, event: &_| plain::table::step(&read, variables, event);
    run(script, &mut wanted, step, |_, _| {});

    let decoded = Table::decode(&read);
    let mut machine = Machine::start(&decoded);
    limit::run(script, |event| machine.step(event), |_| {});
    let found: Variables = machine.variables;
    assert_eq!(found, wanted, "the limit has the same variables");

    let index = index_of(table);
    let mut ours = [0; VARIABLES];
    assert_eq!(raw::table_start(table, &mut ours), 0);
    for event in futonkestrel::events(script) {
        raw::table_step(table, &index, &mut ours, event);
    }
    assert_eq!(ours, wanted, "we have the same variables");
}
