//! A state of the model written as the table's variables, for comparison.

use crate::model::{due, Model, State, COMPLETED, EXECUTION, WAITING_EXECUTION};
use crate::table::variable::{self, CPU, ENTERED_AT, MODE, NOW, PENDING, PHASE};
use crate::table::Variables;

/// Each variable shows its counterpart in the model; one without counterpart
/// is 0, and so are Due before the first dispatch and End of an idle thread.
pub fn show(model: &Model, state: &State) -> Variables {
    let mut variables = [0; variable::COUNT];
    variables[NOW] = state.now.0 as i32;
    variables[MODE] = i32::from(state.mode);
    variables[PHASE] = i32::from(state.phase);
    variables[PENDING] = i32::from(state.pending);
    variables[ENTERED_AT] = state.entered_at.0 as i32;
    variables[CPU] = i32::from(state.cpu);
    for thread in 0..state.threads.len() {
        show_thread(&mut variables, model, state, thread);
    }
    for (number, &active) in state.connection_active.iter().enumerate() {
        variables[variable::connection_active(number)] = i32::from(active);
    }
    for (number, value) in state.input_ports.iter().enumerate() {
        variables[variable::input_port(number)] = value.0;
    }
    for (number, value) in state.port_buffers.iter().enumerate() {
        variables[variable::port_buffer(number)] = value.0;
    }
    for (number, value) in state.output_ports.iter().enumerate() {
        variables[variable::output_port(number)] = value.0;
    }
    for (number, value) in state.locals.iter().enumerate() {
        variables[variable::local(number)] = value.0;
    }
    variables
}

fn show_thread(variables: &mut Variables, model: &Model, state: &State, thread: usize) {
    let own = &state.threads[thread];
    variables[variable::active(thread)] = i32::from(own.active);
    variables[variable::state(thread)] = i32::from(own.code);
    variables[variable::dispatch_time(thread)] = own.dispatch_time.0 as i32;
    variables[variable::behavior_state(thread)] = i32::from(own.behavior_state);
    variables[variable::missed(thread)] = own.missed as i32;
    if own.dispatched {
        variables[variable::due(thread)] = due(model, state, thread).0 as i32;
    }
    if own.code == EXECUTION {
        let end = state.now.0 as i64 + own.length.0 as i64 - own.spent.0 as i64;
        variables[variable::end(thread)] = end as i32;
    }
}

/// The same for one who has the state without the run that led to it: Due is
/// shown of threads with a job in hand alone, and is 0 of all others.
pub fn show_jobs(model: &Model, state: &State) -> Variables {
    let mut variables = show(model, state);
    for (number, own) in state.threads.iter().enumerate() {
        if !matches!(own.code, WAITING_EXECUTION | EXECUTION | COMPLETED) {
            variables[variable::due(number)] = 0;
        }
    }
    variables
}

/// The variables of a table with each End left out that is not that of a
/// running thread, since it then stands for nothing.
pub fn without_idle_ends(variables: &Variables) -> Variables {
    let mut shown = *variables;
    for thread in 0..16 {
        if shown[variable::state(thread)] != i32::from(EXECUTION) {
            shown[variable::end(thread)] = 0;
        }
    }
    shown
}

/// The first variable in which a state of the model and the table's variables
/// do not agree.
pub fn first_difference(model: &Model, state: &State, variables: &Variables) -> Option<usize> {
    let (wanted, found) = (show(model, state), without_idle_ends(variables));
    (0..variable::COUNT).find(|&variable| wanted[variable] != found[variable])
}
