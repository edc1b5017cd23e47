//! The table made from a model.

use crate::model::{
    self, holds_mode, Assignment, BehaviorTransition, GuardAtom, Model, Target, Timing, COMPLETED,
    EXECUTION, NONE, WAITING_DISPATCH, WAITING_EXECUTION, WAITING_MODE,
};
use crate::refusal::{Refusal, ROOM};
use crate::script::{
    ACTIVATE, COMPLETE, DEACTIVATE, DEADLINE, DISPATCH, ENTER, LEAVE, MISS, REQUEST, START,
};
use crate::show::show;
use crate::table::variable::{self, CPU, ENTERED_AT, MODE, NOW, PENDING, PHASE};
use crate::table::{
    self, Atom, Clause, Condition, InitialValue, Operand, Rule, Table, Update, MULTIPLE,
    NO_MULTIPLE,
};

const EQUAL: u8 = 0;
const NOT_EQUAL: u8 = 1;
const LESS: u8 = 2;
const AT_LEAST: u8 = 3;

const COPY: u8 = 0;
const ADD: u8 = 1;

/// Reads a model and gives the bytes of its table. Too long a table is
/// refused, with the empty part where the model's bytes end.
pub fn translate(model_bytes: &[u8], room: usize) -> Result<Vec<u8>, Refusal> {
    let model = model::read(model_bytes)?;
    let bytes = table::write(&table_of(&model));
    if bytes.len() > room {
        let end = model_bytes.len();
        return Err(Refusal {
            number: ROOM,
            start: end,
            end,
        });
    }
    Ok(bytes)
}

/// The table of a model: starts for variables that are not 0, then the rules
/// by kind and id.
pub fn table_of(model: &Model) -> Table {
    Table {
        initial_values: initial_values(model),
        rules: rules(model),
    }
}

fn initial_values(model: &Model) -> Vec<InitialValue> {
    let variables = show(model, &model::start_state(model));
    (0..variable::COUNT)
        .filter(|&variable| variables[variable] != 0)
        .map(|variable| InitialValue {
            variable,
            value: variables[variable],
        })
        .collect()
}

fn rules(model: &Model) -> Vec<Rule> {
    let mut rules = Vec::new();
    for kind in ACTIVATE..=MISS {
        for thread in 0..model.threads.len() {
            rules.extend(rules_of_thread(model, kind, thread));
        }
    }
    for kind in REQUEST..=LEAVE {
        for transition in 0..model.mode_transitions.len() {
            rules.extend(rules_of_mode_transition(model, kind, transition));
        }
    }
    rules
}

fn rules_of_thread(model: &Model, kind: u8, thread: usize) -> Vec<Rule> {
    match kind {
        ACTIVATE => vec![activate_rule(thread)],
        DEACTIVATE => deactivate_rules(model, thread),
        DISPATCH => vec![dispatch_rule(model, thread)],
        START => vec![start_rule(model, thread)],
        COMPLETE => complete_rules(model, thread),
        DEADLINE => deadline_rules(model, thread),
        _ => miss_rules(thread),
    }
}

fn rules_of_mode_transition(model: &Model, kind: u8, transition: usize) -> Vec<Rule> {
    match kind {
        REQUEST => request_rules(model, transition),
        ENTER => vec![enter_rule(model, transition)],
        _ => vec![leave_rule(model, transition)],
    }
}

// Parts of rules

/// A rule of any kind but START, whose low and high are 0.
fn rule(kind: u8, id: usize, clauses: Vec<Clause>, updates: Vec<Update>) -> Rule {
    Rule {
        kind,
        id: id as u8,
        low: 0,
        high: 0,
        clauses,
        updates,
    }
}

fn constant(number: impl Into<i32>) -> Operand {
    Operand::Constant(number.into())
}

/// A figure of the model's clock as a constant; all of them fit.
fn figure(duration: model::Duration) -> Operand {
    Operand::Constant(duration.0 as i32)
}

fn atom(op: u8, variable: usize, operand: Operand) -> Atom {
    Atom {
        op,
        variable,
        operand,
    }
}

/// One atom, alone in its clause.
fn plain(op: u8, variable: usize, operand: Operand) -> Clause {
    vec![atom(op, variable, operand)]
}

/// The most common such clause: a variable has this value.
fn equal(variable: usize, number: impl Into<i32>) -> Clause {
    plain(EQUAL, variable, constant(number))
}

/// The most common update; its second operand is unused.
fn copy(target: usize, first: Operand) -> Update {
    Update {
        condition: None,
        target,
        op: COPY,
        first,
        second: constant(0),
    }
}

fn add(target: usize, first: Operand, second: Operand) -> Update {
    Update {
        condition: None,
        target,
        op: ADD,
        first,
        second,
    }
}

/// The update applies only where a connection's Flag has this value.
fn where_flag(connection: usize, wanted: u8, update: Update) -> Update {
    let variable = variable::connection_active(connection);
    Update {
        condition: Some(Condition { variable, wanted }),
        ..update
    }
}

/// Input freezing: the port becomes what its buffer holds.
fn freeze(port: usize) -> Update {
    copy(
        variable::input_port(port),
        Operand::Variable(variable::port_buffer(port)),
    )
}

/// The code once a job is over goes by whether the thread is active.
fn code_after_job(active: u8) -> u8 {
    if active == 1 {
        WAITING_DISPATCH
    } else {
        WAITING_MODE
    }
}

// Kinds 1 and 2

fn activate_rule(thread: usize) -> Rule {
    let clauses = vec![
        equal(variable::active(thread), 1),
        equal(variable::state(thread), WAITING_MODE),
    ];
    let updates = vec![copy(variable::state(thread), constant(WAITING_DISPATCH))];
    rule(ACTIVATE, thread, clauses, updates)
}

/// One rule for a thread without a job; where it is not critical, one for each code
/// at which it is stopped.
fn deactivate_rules(model: &Model, thread: usize) -> Vec<Rule> {
    let mut codes = vec![WAITING_DISPATCH];
    if !model.threads[thread].critical {
        codes.extend([WAITING_EXECUTION, EXECUTION, COMPLETED]);
    }
    codes
        .into_iter()
        .map(|code| deactivate_rule(thread, code))
        .collect()
}

/// Only a thread that runs has a processor and an End to give up.
fn deactivate_rule(thread: usize, code: u8) -> Rule {
    let clauses = vec![
        equal(variable::active(thread), 0),
        equal(variable::state(thread), code),
    ];
    let mut updates = vec![copy(variable::state(thread), constant(WAITING_MODE))];
    if code == EXECUTION {
        updates.push(copy(CPU, constant(NONE)));
        updates.push(copy(variable::end(thread), constant(0)));
    }
    rule(DEACTIVATE, thread, clauses, updates)
}

// Kind 3

fn dispatch_rule(model: &Model, thread: usize) -> Rule {
    let mut clauses = vec![
        equal(variable::state(thread), WAITING_DISPATCH),
        equal(variable::active(thread), 1),
        plain(MULTIPLE, NOW, figure(model.threads[thread].period)),
    ];
    for connection in model.connections_into(thread, Timing::Delayed) {
        clauses.push(delayed_source_clause(model, connection));
    }
    let mut updates = vec![
        copy(variable::state(thread), constant(WAITING_EXECUTION)),
        copy(variable::dispatch_time(thread), Operand::Variable(NOW)),
        add(
            variable::due(thread),
            Operand::Variable(NOW),
            figure(model.threads[thread].deadline),
        ),
    ];
    for port in model.input_ports_of(thread) {
        updates.push(match model.immediate_feeding(port) {
            Some(connection) => where_flag(connection, 0, freeze(port)),
            None => freeze(port),
        });
    }
    rule(DISPATCH, thread, clauses, updates)
}

/// A delayed connection does not hold back where it is not live, its source
/// has no job, or the source's Due is another instant.
fn delayed_source_clause(model: &Model, connection: usize) -> Clause {
    let source = model.source(connection);
    vec![
        atom(EQUAL, variable::connection_active(connection), constant(0)),
        atom(EQUAL, variable::state(source), constant(WAITING_MODE)),
        atom(EQUAL, variable::state(source), constant(WAITING_DISPATCH)),
        atom(NOT_EQUAL, variable::due(source), Operand::Variable(NOW)),
    ]
}

// Kind 4

fn start_rule(model: &Model, thread: usize) -> Rule {
    let mut clauses = vec![
        equal(variable::state(thread), WAITING_EXECUTION),
        equal(CPU, NONE),
        plain(NOT_EQUAL, variable::due(thread), Operand::Variable(NOW)),
    ];
    for connection in model.connections_into(thread, Timing::Immediate) {
        clauses.push(source_at_work_clause(model, connection, thread));
        clauses.push(source_to_be_dispatched_clause(model, connection, thread));
    }
    let mut updates = vec![
        copy(variable::state(thread), constant(EXECUTION)),
        copy(CPU, constant(thread as i32)),
        add(
            variable::end(thread),
            Operand::Variable(NOW),
            Operand::ChosenLength,
        ),
    ];
    for port in model.input_ports_of(thread) {
        if let Some(connection) = model.immediate_feeding(port) {
            updates.push(where_flag(connection, 1, freeze(port)));
        }
    }
    Rule {
        low: model.threads[thread].bcet.0 as u32,
        high: model.threads[thread].wcet.0 as u32,
        ..rule(START, thread, clauses, updates)
    }
}

/// The source is neither waiting for execution nor in it, or was dispatched in
/// another instant.
fn source_at_work_clause(model: &Model, connection: usize, thread: usize) -> Clause {
    let source = model.source(connection);
    vec![
        atom(EQUAL, variable::connection_active(connection), constant(0)),
        atom(LESS, variable::state(source), constant(WAITING_EXECUTION)),
        atom(EQUAL, variable::state(source), constant(COMPLETED)),
        atom(
            NOT_EQUAL,
            variable::dispatch_time(source),
            Operand::Variable(variable::dispatch_time(thread)),
        ),
    ]
}

/// The source will not be dispatched in this instant, or the thread was
/// dispatched in another.
fn source_to_be_dispatched_clause(model: &Model, connection: usize, thread: usize) -> Clause {
    let source = model.source(connection);
    vec![
        atom(EQUAL, variable::connection_active(connection), constant(0)),
        atom(EQUAL, variable::active(source), constant(0)),
        atom(
            AT_LEAST,
            variable::state(source),
            constant(WAITING_EXECUTION),
        ),
        atom(
            NOT_EQUAL,
            variable::dispatch_time(thread),
            Operand::Variable(NOW),
        ),
        atom(NO_MULTIPLE, NOW, figure(model.threads[source].period)),
    ]
}

// Kind 5

/// One rule for each transition of the thread, then the default rule.
fn complete_rules(model: &Model, thread: usize) -> Vec<Rule> {
    let transitions: Vec<&BehaviorTransition> = model.behavior_transitions_of(thread).collect();
    let mut rules: Vec<Rule> = (0..transitions.len())
        .map(|number| transition_rule(model, transitions[number], &transitions[..number]))
        .collect();
    rules.push(default_rule(model, thread, &transitions));
    rules
}

/// The atoms hold, and no earlier transition from the same state does.
fn transition_rule(
    model: &Model,
    transition: &BehaviorTransition,
    earlier: &[&BehaviorTransition],
) -> Rule {
    let thread = transition.thread;
    let mut clauses = job_done_clauses(thread);
    clauses.push(equal(variable::behavior_state(thread), transition.from));
    for guard_atom in &transition.guard {
        clauses.push(vec![atom_of(guard_atom)]);
    }
    for other in earlier.iter().filter(|other| other.from == transition.from) {
        clauses.push(negated_guard(other));
    }
    let mut updates = job_done_updates(thread);
    updates.push(copy(
        variable::behavior_state(thread),
        constant(transition.to),
    ));
    updates.extend(transition.assignments.iter().map(update_of));
    updates.extend(immediate_updates(model, thread, &transition.assignments));
    rule(COMPLETE, thread, clauses, updates)
}

/// No transition of the thread is taken.
fn default_rule(model: &Model, thread: usize, transitions: &[&BehaviorTransition]) -> Rule {
    let mut clauses = job_done_clauses(thread);
    for transition in transitions {
        let state = variable::behavior_state(thread);
        let mut clause = plain(NOT_EQUAL, state, constant(transition.from));
        clause.extend(negated_guard(transition));
        clauses.push(clause);
    }
    let mut updates = job_done_updates(thread);
    updates.extend(immediate_updates(model, thread, &[]));
    rule(COMPLETE, thread, clauses, updates)
}

fn job_done_clauses(thread: usize) -> Vec<Clause> {
    vec![
        equal(variable::state(thread), EXECUTION),
        plain(EQUAL, variable::end(thread), Operand::Variable(NOW)),
    ]
}

fn job_done_updates(thread: usize) -> Vec<Update> {
    vec![
        copy(variable::state(thread), constant(COMPLETED)),
        copy(CPU, constant(NONE)),
        copy(variable::end(thread), constant(0)),
    ]
}

/// The atoms of a guard, each negated; of no atoms, the empty clause.
fn negated_guard(transition: &BehaviorTransition) -> Clause {
    transition
        .guard
        .iter()
        .map(|guard_atom| Atom {
            op: negated(guard_atom.op),
            ..atom_of(guard_atom)
        })
        .collect()
}

/// = and ≠, < and ≥, > and ≤ negate each other.
fn negated(op: u8) -> u8 {
    match op {
        0 => 1,
        1 => 0,
        2 => 3,
        3 => 2,
        4 => 5,
        _ => 4,
    }
}

fn atom_of(guard_atom: &GuardAtom) -> Atom {
    let variable = match guard_atom.left {
        model::Operand::InputPort(port) => variable::input_port(port),
        model::Operand::Local(local) => variable::local(local),
        // No left side is a constant.
        model::Operand::Constant(_) => NOW,
    };
    atom(guard_atom.op, variable, operand_of(guard_atom.right))
}

fn operand_of(operand: model::Operand) -> Operand {
    match operand {
        model::Operand::Constant(value) => Operand::Constant(value.0),
        model::Operand::InputPort(port) => Operand::Variable(variable::input_port(port)),
        model::Operand::Local(local) => Operand::Variable(variable::local(local)),
    }
}

fn update_of(assignment: &Assignment) -> Update {
    let target = match assignment.target {
        Target::Local(local) => variable::local(local),
        Target::OutputPort(port) => variable::output_port(port),
    };
    assign(target, assignment)
}

/// A target takes the expression of an assignment; a copy leaves the second
/// operand unused.
fn assign(target: usize, assignment: &Assignment) -> Update {
    let first = operand_of(assignment.first);
    match assignment.op {
        COPY => copy(target, first),
        op => Update {
            condition: None,
            target,
            op,
            first,
            second: operand_of(assignment.second),
        },
    }
}

/// Live immediate connections send what their output port is assigned, or what
/// it has where it is not assigned.
fn immediate_updates(model: &Model, thread: usize, assignments: &[Assignment]) -> Vec<Update> {
    model
        .connections_out_of(thread, Timing::Immediate)
        .map(|number| {
            let connection = &model.connections[number];
            let target = variable::port_buffer(connection.input_port);
            let output_port = connection.output_port;
            let assigned = assignments
                .iter()
                .find(|assignment| assignment.target == Target::OutputPort(output_port));
            let update = match assigned {
                Some(assignment) => assign(target, assignment),
                None => copy(
                    target,
                    Operand::Variable(variable::output_port(output_port)),
                ),
            };
            where_flag(number, 1, update)
        })
        .collect()
}

// Kinds 6 and 7

fn deadline_rules(model: &Model, thread: usize) -> Vec<Rule> {
    [1, 0]
        .into_iter()
        .map(|active| deadline_rule(model, thread, active))
        .collect()
}

fn deadline_rule(model: &Model, thread: usize, active: u8) -> Rule {
    let clauses = vec![
        equal(variable::state(thread), COMPLETED),
        plain(EQUAL, variable::due(thread), Operand::Variable(NOW)),
        equal(variable::active(thread), active),
    ];
    let mut updates = vec![copy(
        variable::state(thread),
        constant(code_after_job(active)),
    )];
    for number in model.connections_out_of(thread, Timing::Delayed) {
        let connection = &model.connections[number];
        let target = variable::port_buffer(connection.input_port);
        let output = Operand::Variable(variable::output_port(connection.output_port));
        updates.push(where_flag(number, 1, copy(target, output)));
    }
    rule(DEADLINE, thread, clauses, updates)
}

fn miss_rules(thread: usize) -> Vec<Rule> {
    [
        (WAITING_EXECUTION, 1),
        (WAITING_EXECUTION, 0),
        (EXECUTION, 1),
        (EXECUTION, 0),
    ]
    .into_iter()
    .map(|(code, active)| miss_rule(thread, code, active))
    .collect()
}

fn miss_rule(thread: usize, code: u8, active: u8) -> Rule {
    let mut clauses = vec![
        equal(variable::state(thread), code),
        equal(variable::active(thread), active),
        plain(EQUAL, variable::due(thread), Operand::Variable(NOW)),
    ];
    let missed = variable::missed(thread);
    let mut updates = vec![
        copy(variable::state(thread), constant(code_after_job(active))),
        add(missed, Operand::Variable(missed), constant(1)),
    ];
    if code == EXECUTION {
        clauses.push(plain(
            NOT_EQUAL,
            variable::end(thread),
            Operand::Variable(NOW),
        ));
        updates.push(copy(CPU, constant(NONE)));
        updates.push(copy(variable::end(thread), constant(0)));
    }
    rule(MISS, thread, clauses, updates)
}

// Kinds 8, 9 and 10

/// A request that is heeded, and one that is taken without effect.
fn request_rules(model: &Model, transition: usize) -> Vec<Rule> {
    let from = model.mode_transitions[transition].from;
    let heeded = rule(
        REQUEST,
        transition,
        vec![equal(PHASE, 0), equal(MODE, from)],
        vec![
            copy(PHASE, constant(1)),
            copy(PENDING, constant(transition as i32)),
        ],
    );
    let ignored_clause = vec![
        atom(NOT_EQUAL, PHASE, constant(0)),
        atom(NOT_EQUAL, MODE, constant(from)),
    ];
    let ignored = rule(REQUEST, transition, vec![ignored_clause], Vec::new());
    vec![heeded, ignored]
}

fn enter_rule(model: &Model, transition: usize) -> Rule {
    let model::ModeTransition {
        from,
        to,
        hyperperiod_old,
        ..
    } = model.mode_transitions[transition];
    let clauses = vec![
        equal(PHASE, 1),
        equal(PENDING, transition as i32),
        plain(MULTIPLE, NOW, figure(hyperperiod_old)),
    ];
    let mut updates = vec![
        copy(PHASE, constant(2)),
        copy(ENTERED_AT, Operand::Variable(NOW)),
    ];
    for (number, thread) in model.threads.iter().enumerate() {
        let active = holds_mode(thread.mode_mask, to);
        updates.push(copy(variable::active(number), constant(active)));
    }
    for (number, connection) in model.connections.iter().enumerate() {
        let active = holds_mode(connection.mode_mask, from) && holds_mode(connection.mode_mask, to);
        updates.push(copy(variable::connection_active(number), constant(active)));
    }
    rule(ENTER, transition, clauses, updates)
}

fn leave_rule(model: &Model, transition: usize) -> Rule {
    let model::ModeTransition {
        to,
        hyperperiod_common,
        ..
    } = model.mode_transitions[transition];
    let clauses = vec![
        equal(PHASE, 2),
        equal(PENDING, transition as i32),
        plain(NOT_EQUAL, NOW, Operand::Variable(ENTERED_AT)),
        plain(MULTIPLE, NOW, figure(hyperperiod_common)),
    ];
    let mut updates = vec![
        copy(PHASE, constant(0)),
        copy(PENDING, constant(NONE)),
        copy(MODE, constant(to)),
    ];
    for (number, connection) in model.connections.iter().enumerate() {
        let active = holds_mode(connection.mode_mask, to);
        updates.push(copy(variable::connection_active(number), constant(active)));
    }
    rule(LEAVE, transition, clauses, updates)
}
