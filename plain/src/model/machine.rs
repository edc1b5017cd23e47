//! The model's machine: its start state, and the step of one event.

use super::{
    holds_mode, Assignment, BehaviorTransition, Duration, GuardAtom, Model, Operand, Target,
    Timing, Value,
};
use crate::refusal::{LAST_CLOCK, NOT_ENABLED};
use crate::script::{
    Event, ACTIVATE, COMPLETE, DEACTIVATE, DEADLINE, DISPATCH, ENTER, LAST_NOW, LEAVE, MISS,
    REQUEST, START, TICK,
};

pub const WAITING_MODE: u8 = 0;
pub const WAITING_DISPATCH: u8 = 1;
pub const WAITING_EXECUTION: u8 = 2;
pub const EXECUTION: u8 = 3;
pub const COMPLETED: u8 = 4;

/// Pending and Cpu where there is none.
pub const NONE: u8 = 255;

/// The steps of the test for START, in the order in which they are looked at.
pub const NO_STEP_FAILS: u8 = 0;
pub const STATE_STEP: u8 = 1;
pub const PROCESSOR_STEP: u8 = 2;
pub const CONNECTIONS_STEP: u8 = 3;
pub const LENGTH_STEP: u8 = 4;

/// The phases: steady, request pending, mode transition in progress.
const STEADY: u8 = 0;
const REQUEST_PENDING: u8 = 1;
const IN_TRANSITION: u8 = 2;

#[derive(Clone, Debug, PartialEq, Eq)]
pub struct ThreadState {
    pub active: bool,
    pub code: u8,
    pub dispatch_time: Duration,
    /// Whether it was ever dispatched. No rule reads this; it only tells from
    /// when on Due means something.
    pub dispatched: bool,
    pub length: Duration,
    pub spent: Duration,
    pub behavior_state: u8,
    pub missed: u64,
}

#[derive(Clone, Debug, PartialEq, Eq)]
pub struct State {
    pub now: Duration,
    pub mode: u8,
    pub phase: u8,
    pub pending: u8,
    pub entered_at: Duration,
    pub cpu: u8,
    pub threads: Vec<ThreadState>,
    /// Flag: which connections are live.
    pub connection_active: Vec<bool>,
    pub input_ports: Vec<Value>,
    pub port_buffers: Vec<Value>,
    pub output_ports: Vec<Value>,
    pub locals: Vec<Value>,
}

/// Everything starts at 0 but the mode, the two figures that mean none, what
/// the initial mode makes active, behaviour states, locals, and input ports with
/// their buffers.
pub fn start_state(model: &Model) -> State {
    let initial = model.initial_mode;
    let port_starts: Vec<Value> = model.input_ports.iter().map(|port| port.start).collect();
    State {
        now: Duration(0),
        mode: initial,
        phase: STEADY,
        pending: NONE,
        entered_at: Duration(0),
        cpu: NONE,
        threads: model
            .threads
            .iter()
            .map(|thread| ThreadState {
                active: holds_mode(thread.mode_mask, initial),
                code: WAITING_MODE,
                dispatch_time: Duration(0),
                dispatched: false,
                length: Duration(0),
                spent: Duration(0),
                behavior_state: thread.first_behavior_state,
                missed: 0,
            })
            .collect(),
        connection_active: model
            .connections
            .iter()
            .map(|connection| holds_mode(connection.mode_mask, initial))
            .collect(),
        input_ports: port_starts.clone(),
        port_buffers: port_starts,
        output_ports: vec![Value(0); model.output_ports.len()],
        locals: model.locals.iter().map(|local| local.start).collect(),
    }
}

/// The state after an event, or the number of its refusal. A refused event
/// leaves the state that was lent as it was.
pub fn step(model: &Model, state: &State, event: &Event) -> Result<State, u8> {
    let mut next = state.clone();
    if event.kind == TICK {
        for _ in 0..event.ticks {
            tick(model, &mut next)?;
        }
        return Ok(next);
    }
    let may_happen = match event.kind {
        START => start_test(model, state, u32::from(event.id), event.length) == NO_STEP_FAILS,
        kind => enabled(model, state, kind, event.id),
    };
    if !may_happen {
        return Err(NOT_ENABLED);
    }
    take_effect(model, &mut next, event);
    Ok(next)
}

/// Whether an event of a kind and id is enabled; START with some allowed
/// length. Nothing is enabled for an id without an item.
pub fn enabled(model: &Model, state: &State, kind: u8, id: u8) -> bool {
    let number = usize::from(id);
    if number >= item_count(model, kind) {
        return false;
    }
    match kind {
        ACTIVATE => activate_enabled(state, number),
        DEACTIVATE => deactivate_enabled(model, state, number),
        DISPATCH => dispatch_enabled(model, state, number),
        START => start_enabled(model, state, number),
        COMPLETE => complete_enabled(state, number),
        DEADLINE => deadline_enabled(model, state, number),
        MISS => miss_enabled(model, state, number),
        REQUEST => true,
        ENTER => enter_enabled(model, state, id),
        LEAVE => leave_enabled(model, state, id),
        _ => false,
    }
}

/// How many items an id of this kind can name.
pub fn item_count(model: &Model, kind: u8) -> usize {
    match kind {
        ACTIVATE..=MISS => model.threads.len(),
        REQUEST..=LEAVE => model.mode_transitions.len(),
        _ => 0,
    }
}

/// The effect of an enabled event.
fn take_effect(model: &Model, state: &mut State, event: &Event) {
    let number = usize::from(event.id);
    match event.kind {
        ACTIVATE => state.threads[number].code = WAITING_DISPATCH,
        DEACTIVATE => deactivate(state, number),
        DISPATCH => dispatch(model, state, number),
        START => start(model, state, event.id, Duration(u64::from(event.length))),
        COMPLETE => complete(model, state, number),
        DEADLINE => deadline(model, state, number),
        MISS => miss(state, number),
        REQUEST => request(model, state, event.id),
        ENTER => enter(model, state, number),
        LEAVE => leave(model, state, number),
        _ => {}
    }
}

/// Due: the dispatch time and the deadline together.
pub fn due(model: &Model, state: &State, thread: usize) -> Duration {
    state.threads[thread]
        .dispatch_time
        .plus(model.threads[thread].deadline)
}

// ACTIVATE and DEACTIVATE

fn activate_enabled(state: &State, thread: usize) -> bool {
    state.threads[thread].active && state.threads[thread].code == WAITING_MODE
}

/// Not active, and waiting for dispatch or to be stopped.
fn deactivate_enabled(model: &Model, state: &State, thread: usize) -> bool {
    !state.threads[thread].active
        && (state.threads[thread].code == WAITING_DISPATCH || may_be_stopped(model, state, thread))
}

/// A job in hand, completed or not, of a thread that is not critical. Those that
/// are critical go on to their deadline.
fn may_be_stopped(model: &Model, state: &State, thread: usize) -> bool {
    !model.threads[thread].critical
        && matches!(
            state.threads[thread].code,
            WAITING_EXECUTION | EXECUTION | COMPLETED
        )
}

/// A stopped job frees the processor that it held and sends nothing.
fn deactivate(state: &mut State, thread: usize) {
    if state.threads[thread].code == EXECUTION {
        state.cpu = NONE;
    }
    state.threads[thread].code = WAITING_MODE;
    state.threads[thread].length = Duration(0);
    state.threads[thread].spent = Duration(0);
}

// DISPATCH

/// Waiting for dispatch, active, at the begin of a period; and no thread that
/// feeds it over an active delayed connection has a job that is due now.
fn dispatch_enabled(model: &Model, state: &State, thread: usize) -> bool {
    state.threads[thread].code == WAITING_DISPATCH
        && state.threads[thread].active
        && state.now.is_multiple(model.threads[thread].period)
        && !model
            .connections_into(thread, Timing::Delayed)
            .any(|connection| {
                state.connection_active[connection]
                    && job_due_now(model, state, model.source(connection))
            })
}

/// A job in progress, completed or not, whose Due is now.
fn job_due_now(model: &Model, state: &State, thread: usize) -> bool {
    matches!(
        state.threads[thread].code,
        WAITING_EXECUTION | EXECUTION | COMPLETED
    ) && due(model, state, thread) == state.now
}

fn dispatch(model: &Model, state: &mut State, thread: usize) {
    state.threads[thread].code = WAITING_EXECUTION;
    state.threads[thread].dispatch_time = state.now;
    state.threads[thread].dispatched = true;
    for port in model.input_ports_of(thread) {
        if !fed_by_live_immediate(model, state, port) {
            freeze(state, port);
        }
    }
}

fn fed_by_live_immediate(model: &Model, state: &State, port: usize) -> bool {
    model
        .immediate_feeding(port)
        .is_some_and(|connection| state.connection_active[connection])
}

/// Input freezing: the port becomes what its buffer holds.
fn freeze(state: &mut State, port: usize) {
    state.input_ports[port] = state.port_buffers[port];
}

// START

/// The first step of the test for START that fails, or none of them. Any number
/// may be asked for; one that no thread has fails at the first step.
pub fn start_test(model: &Model, state: &State, number: u32, length: u32) -> u8 {
    let thread = number as usize;
    if !waits_for_start(model, state, thread) {
        STATE_STEP
    } else if state.cpu != NONE {
        PROCESSOR_STEP
    } else if held_back(model, state, thread) {
        CONNECTIONS_STEP
    } else if !length_allowed(model, thread, length) {
        LENGTH_STEP
    } else {
        NO_STEP_FAILS
    }
}

/// Enabled with some allowed length, so with the shortest.
fn start_enabled(model: &Model, state: &State, thread: usize) -> bool {
    let shortest = model.threads[thread].bcet.0 as u32;
    start_test(model, state, thread as u32, shortest) == NO_STEP_FAILS
}

/// There is such a thread, it waits for execution, and its Due is not now.
fn waits_for_start(model: &Model, state: &State, thread: usize) -> bool {
    thread < model.threads.len()
        && state.threads[thread].code == WAITING_EXECUTION
        && due(model, state, thread) != state.now
}

/// Some thread that feeds it over an active immediate connection is to run first.
fn held_back(model: &Model, state: &State, thread: usize) -> bool {
    model
        .connections_into(thread, Timing::Immediate)
        .any(|connection| {
            let source = model.source(connection);
            state.connection_active[connection]
                && (source_at_work(state, source, thread)
                    || source_to_be_dispatched(model, state, source, thread))
        })
}

/// The source was dispatched in the same instant and has not completed.
fn source_at_work(state: &State, source: usize, thread: usize) -> bool {
    matches!(state.threads[source].code, WAITING_EXECUTION | EXECUTION)
        && state.threads[source].dispatch_time == state.threads[thread].dispatch_time
}

/// The thread was dispatched just now, and the source can yet be.
fn source_to_be_dispatched(model: &Model, state: &State, source: usize, thread: usize) -> bool {
    state.threads[thread].dispatch_time == state.now
        && state.threads[source].active
        && matches!(state.threads[source].code, WAITING_MODE | WAITING_DISPATCH)
        && state.now.is_multiple(model.threads[source].period)
}

/// The length that a START chooses lies in Min to Max.
fn length_allowed(model: &Model, thread: usize, length: u32) -> bool {
    let thread = &model.threads[thread];
    let length = Duration(u64::from(length));
    thread.bcet <= length && length <= thread.wcet
}

fn start(model: &Model, state: &mut State, id: u8, length: Duration) {
    let thread = usize::from(id);
    state.threads[thread].code = EXECUTION;
    state.cpu = id;
    state.threads[thread].length = length;
    state.threads[thread].spent = Duration(0);
    for port in model.input_ports_of(thread) {
        if fed_by_live_immediate(model, state, port) {
            freeze(state, port);
        }
    }
}

// COMPLETE

fn complete_enabled(state: &State, thread: usize) -> bool {
    state.threads[thread].code == EXECUTION
        && state.threads[thread].spent == state.threads[thread].length
}

fn complete(model: &Model, state: &mut State, thread: usize) {
    if let Some(transition) = first_enabled(model, state, thread) {
        take_transition(state, transition);
    }
    send_outputs(model, state, thread, Timing::Immediate);
    state.threads[thread].code = COMPLETED;
    state.cpu = NONE;
    state.threads[thread].length = Duration(0);
    state.threads[thread].spent = Duration(0);
}

/// Transition priority: the lowest number that leaves the present behaviour
/// state with a true guard.
pub fn first_enabled<'a>(
    model: &'a Model,
    state: &State,
    thread: usize,
) -> Option<&'a BehaviorTransition> {
    model.behavior_transitions_of(thread).find(|transition| {
        transition.from == state.threads[thread].behavior_state
            && transition.guard.iter().all(|atom| atom_holds(state, atom))
    })
}

fn atom_holds(state: &State, atom: &GuardAtom) -> bool {
    let (left, right) = (value_of(state, atom.left), value_of(state, atom.right));
    match atom.op {
        0 => left == right,
        1 => left != right,
        2 => left < right,
        3 => left >= right,
        4 => left > right,
        _ => left <= right,
    }
}

fn value_of(state: &State, operand: Operand) -> Value {
    match operand {
        Operand::Constant(value) => value,
        Operand::InputPort(number) => state.input_ports[number],
        Operand::Local(number) => state.locals[number],
    }
}

/// Assignments read what was there before the transition.
fn take_transition(state: &mut State, transition: &BehaviorTransition) {
    let before = state.clone();
    for assignment in &transition.assignments {
        let value = expression(&before, assignment);
        match assignment.target {
            Target::Local(number) => state.locals[number] = value,
            Target::OutputPort(number) => state.output_ports[number] = value,
        }
    }
    state.threads[transition.thread].behavior_state = transition.to;
}

fn expression(state: &State, assignment: &Assignment) -> Value {
    let (first, second) = (
        value_of(state, assignment.first),
        value_of(state, assignment.second),
    );
    match assignment.op {
        0 => first,
        1 => first.plus(second),
        _ => first.minus(second),
    }
}

/// The live connections of one type copy the thread's outputs to buffers.
fn send_outputs(model: &Model, state: &mut State, thread: usize, timing: Timing) {
    for number in model.connections_out_of(thread, timing) {
        if state.connection_active[number] {
            let connection = &model.connections[number];
            state.port_buffers[connection.input_port] = state.output_ports[connection.output_port];
        }
    }
}

// DEADLINE and MISS

fn deadline_enabled(model: &Model, state: &State, thread: usize) -> bool {
    state.threads[thread].code == COMPLETED && due(model, state, thread) == state.now
}

fn deadline(model: &Model, state: &mut State, thread: usize) {
    send_outputs(model, state, thread, Timing::Delayed);
    state.threads[thread].code = code_after_job(state, thread);
}

/// The code once a job is over goes by whether the thread is active.
fn code_after_job(state: &State, thread: usize) -> u8 {
    if state.threads[thread].active {
        WAITING_DISPATCH
    } else {
        WAITING_MODE
    }
}

/// At Due, not yet running, or running with work left.
fn miss_enabled(model: &Model, state: &State, thread: usize) -> bool {
    let own = &state.threads[thread];
    due(model, state, thread) == state.now
        && (own.code == WAITING_EXECUTION || (own.code == EXECUTION && own.spent != own.length))
}

fn miss(state: &mut State, thread: usize) {
    state.threads[thread].missed += 1;
    if state.threads[thread].code == EXECUTION {
        state.cpu = NONE;
    }
    state.threads[thread].code = code_after_job(state, thread);
    state.threads[thread].length = Duration(0);
    state.threads[thread].spent = Duration(0);
}

// REQUEST, ENTER and LEAVE

/// Only a steady state in the from-mode heeds the request.
fn request(model: &Model, state: &mut State, id: u8) {
    let from = model.mode_transitions[usize::from(id)].from;
    if state.phase == STEADY && state.mode == from {
        state.phase = REQUEST_PENDING;
        state.pending = id;
    }
}

fn enter_enabled(model: &Model, state: &State, id: u8) -> bool {
    state.phase == REQUEST_PENDING
        && state.pending == id
        && state
            .now
            .is_multiple(model.mode_transitions[usize::from(id)].hyperperiod_old)
}

/// The new mode decides on the threads; a connection needs both modes.
fn enter(model: &Model, state: &mut State, number: usize) {
    let transition = &model.mode_transitions[number];
    state.phase = IN_TRANSITION;
    state.entered_at = state.now;
    for (own, thread) in state.threads.iter_mut().zip(&model.threads) {
        own.active = holds_mode(thread.mode_mask, transition.to);
    }
    for (active, connection) in state.connection_active.iter_mut().zip(&model.connections) {
        *active = holds_mode(connection.mode_mask, transition.from)
            && holds_mode(connection.mode_mask, transition.to);
    }
}

fn leave_enabled(model: &Model, state: &State, id: u8) -> bool {
    state.phase == IN_TRANSITION
        && state.pending == id
        && state.now != state.entered_at
        && state
            .now
            .is_multiple(model.mode_transitions[usize::from(id)].hyperperiod_common)
}

/// Mode and connections are those of the new mode.
fn leave(model: &Model, state: &mut State, number: usize) {
    let transition = &model.mode_transitions[number];
    state.phase = STEADY;
    state.pending = NONE;
    state.mode = transition.to;
    for (active, connection) in state.connection_active.iter_mut().zip(&model.connections) {
        *active = holds_mode(connection.mode_mask, transition.to);
    }
}

// TICK

/// One tick: nothing may be enabled but requests, then the clock must have
/// room; it goes on by one, and so does the elapsed time of the running job.
fn tick(model: &Model, state: &mut State) -> Result<(), u8> {
    if something_urgent(model, state) {
        return Err(NOT_ENABLED);
    }
    if state.now >= Duration(u64::from(LAST_NOW)) {
        return Err(LAST_CLOCK);
    }
    state.now = state.now.plus(Duration(1));
    for own in &mut state.threads {
        if own.code == EXECUTION {
            own.spent = own.spent.plus(Duration(1));
        }
    }
    Ok(())
}

/// Whether any event but REQUEST and TICK is enabled.
fn something_urgent(model: &Model, state: &State) -> bool {
    (ACTIVATE..=LEAVE)
        .filter(|&kind| kind != REQUEST)
        .any(|kind| {
            (0..item_count(model, kind)).any(|number| enabled(model, state, kind, number as u8))
        })
}
