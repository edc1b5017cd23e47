//! The size of a model's table, told without making it.
//!
//! Each item of a model brings records of its own into the table: a thread its
//! rules, a port or connection the clauses and updates that name it, and so on.
//! The size is the sum over all items.

use std::iter::Sum;
use std::ops::{Add, Mul};

use crate::model::{self, holds_mode, BehaviorTransition, Connection, Model, Timing};
use crate::refusal::Refusal;

/// The bytes of a table, and its records of each kind. Starts have no count of
/// their own, but their bytes.
#[derive(Clone, Copy, Debug, Default, PartialEq, Eq)]
pub struct TableSize {
    pub bytes: usize,
    pub rules: usize,
    pub clauses: usize,
    pub atoms: usize,
    pub updates: usize,
}

impl TableSize {
    /// Bytes, rules, clauses, atoms and updates, the order in which they are told.
    pub fn told(self) -> [usize; 5] {
        [
            self.bytes,
            self.rules,
            self.clauses,
            self.atoms,
            self.updates,
        ]
    }
}

/// Reads a model and tells the size of its table. Nothing is written, so nothing
/// is refused for want of room; where the model is refused, all counts are 0.
pub fn table_size(model_bytes: &[u8]) -> (Option<Refusal>, TableSize) {
    match model::read(model_bytes) {
        Ok(model) => (None, size_of(&model)),
        Err(refusal) => (Some(refusal), TableSize::default()),
    }
}

/// The size of an accepted model's table.
pub fn size_of(model: &Model) -> TableSize {
    let connections: TableSize = model
        .connections
        .iter()
        .map(|connection| connection_size(model, connection))
        .sum();
    let threads = model.threads.iter();
    let stoppable = threads.filter(|thread| !thread.critical).count();
    let transitions = &model.behavior_transitions;
    let behavior: TableSize = (0..transitions.len())
        .map(|number| transition_size(&transitions[number], &transitions[..number]))
        .sum();
    START * start_count(model)
        + thread_size() * model.threads.len()
        + stop_size() * stoppable
        + port_size() * model.input_ports.len()
        + connections
        + mode_transition_size(model) * model.mode_transitions.len()
        + behavior
}

// Records

const NOTHING: TableSize = TableSize {
    bytes: 0,
    rules: 0,
    clauses: 0,
    atoms: 0,
    updates: 0,
};

/// Kind, variable and value.
const START: TableSize = TableSize {
    bytes: 1 + 2 + 4,
    ..NOTHING
};

/// Kind, event kind, id, low and high.
const RULE: TableSize = TableSize {
    bytes: 1 + 1 + 1 + 4 + 4,
    rules: 1,
    ..NOTHING
};

/// Its kind alone.
const CLAUSE: TableSize = TableSize {
    bytes: 1,
    clauses: 1,
    ..NOTHING
};

/// A tag and a number.
const OPERAND: usize = 1 + 4;

/// Kind, op, variable and operand.
const ATOM: TableSize = TableSize {
    bytes: 1 + 1 + 2 + OPERAND,
    atoms: 1,
    ..NOTHING
};

/// Kind, condition variable, wanted value, target, op and two operands.
const UPDATE: TableSize = TableSize {
    bytes: 1 + 2 + 1 + 2 + 1 + 2 * OPERAND,
    updates: 1,
    ..NOTHING
};

impl Add for TableSize {
    type Output = TableSize;

    fn add(self, other: TableSize) -> TableSize {
        TableSize {
            bytes: self.bytes + other.bytes,
            rules: self.rules + other.rules,
            clauses: self.clauses + other.clauses,
            atoms: self.atoms + other.atoms,
            updates: self.updates + other.updates,
        }
    }
}

impl Mul<usize> for TableSize {
    type Output = TableSize;

    fn mul(self, times: usize) -> TableSize {
        TableSize {
            bytes: self.bytes * times,
            rules: self.rules * times,
            clauses: self.clauses * times,
            atoms: self.atoms * times,
            updates: self.updates * times,
        }
    }
}

impl Sum for TableSize {
    fn sum<I: Iterator<Item = TableSize>>(sizes: I) -> TableSize {
        sizes.fold(NOTHING, Add::add)
    }
}

/// A clause of so many atoms.
fn clause(atoms: usize) -> TableSize {
    CLAUSE + ATOM * atoms
}

/// A rule of so many plain conditions, each a clause of one atom, and updates.
fn rule(conditions: usize, updates: usize) -> TableSize {
    RULE + clause(1) * conditions + UPDATE * updates
}

// Items

/// The variables that do not start at 0: Pending and Cpu, which are none; Mode,
/// Active, behaviour states, Flags, locals, and input ports with their buffers
/// where the model has it so.
fn start_count(model: &Model) -> usize {
    let live = |mode_mask| holds_mode(mode_mask, model.initial_mode);
    let modes = usize::from(model.initial_mode != 0);
    let threads = model.threads.iter();
    let active = threads.clone().filter(|thread| live(thread.mode_mask));
    let elsewhere = threads.filter(|thread| thread.first_behavior_state != 0);
    let connections = model.connections.iter();
    let flags = connections.filter(|connection| live(connection.mode_mask));
    let ports = model.input_ports.iter().filter(|port| port.start.0 != 0);
    let ports_and_buffers = 2 * ports.count();
    let locals = model.locals.iter().filter(|local| local.start.0 != 0);
    2 + modes
        + active.count()
        + elsewhere.count()
        + flags.count()
        + ports_and_buffers
        + locals.count()
}

/// The rules that every thread has, without what its ports, connections and
/// transitions add to them.
fn thread_size() -> TableSize {
    let activate = rule(2, 1);
    let deactivate = rule(2, 1);
    let dispatch = rule(3, 3);
    let start = rule(3, 3);
    let default_complete = rule(2, 3);
    // Each of these for Active 1 and for Active 0.
    let deadline = rule(3, 1);
    let miss_waiting = rule(3, 2);
    let miss_running = rule(4, 4);
    activate
        + deactivate
        + dispatch
        + start
        + default_complete
        + (deadline + miss_waiting + miss_running) * 2
}

/// The rules of DEACTIVATE that a thread which is not critical has besides: one for
/// each code at which it is stopped.
fn stop_size() -> TableSize {
    let waiting = rule(2, 1);
    let running = rule(2, 3);
    let completed = rule(2, 1);
    waiting + running + completed
}

/// Every input port takes its buffer at DISPATCH, be it connected or not.
fn port_size() -> TableSize {
    UPDATE
}

/// A delayed connection has a clause at DISPATCH, and both rules of DEADLINE send
/// over it. An immediate one has two clauses and an update at START, and every
/// rule of COMPLETE sends over it: one for each transition of the source, and the
/// default.
fn connection_size(model: &Model, connection: &Connection) -> TableSize {
    match connection.timing {
        Timing::Delayed => clause(4) + UPDATE * 2,
        Timing::Immediate => {
            let source = model.output_ports[connection.output_port].owner;
            let completes = model.behavior_transitions_of(source).count() + 1;
            clause(4) + clause(5) + UPDATE + UPDATE * completes
        }
    }
}

/// REQUEST heeded and ignored, ENTER with all Active and Flags, LEAVE with all
/// Flags.
fn mode_transition_size(model: &Model) -> TableSize {
    let (threads, connections) = (model.threads.len(), model.connections.len());
    let heeded = rule(2, 2);
    let ignored = RULE + clause(2);
    let enter = rule(3, 2 + threads + connections);
    let leave = rule(4, 3 + connections);
    heeded + ignored + enter + leave
}

/// A rule of COMPLETE with a clause for each of the thread's earlier transitions
/// from the same state, and a clause of the default rule.
fn transition_size(transition: &BehaviorTransition, before: &[BehaviorTransition]) -> TableSize {
    let guard = transition.guard.len();
    let own = rule(3 + guard, 4 + transition.assignments.len());
    let earlier = before
        .iter()
        .filter(|other| other.thread == transition.thread && other.from == transition.from);
    let negated: TableSize = earlier.map(|other| clause(other.guard.len())).sum();
    own + negated + clause(1 + guard)
}
