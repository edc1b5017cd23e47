//! The timing model: what it holds once accepted. Its reader and its machine
//! are in the two parts below.

mod machine;
mod reader;

pub use machine::{
    due, enabled, first_enabled, item_count, start_state, start_test, step, State, ThreadState,
    COMPLETED, CONNECTIONS_STEP, EXECUTION, LENGTH_STEP, NONE, NO_STEP_FAILS, PROCESSOR_STEP,
    STATE_STEP, WAITING_DISPATCH, WAITING_EXECUTION, WAITING_MODE,
};
pub use reader::{hyperperiod, read};

use crate::sums::{difference, sum};

/// A figure of the clock: an instant or a stretch of time.
#[derive(Clone, Copy, Debug, PartialEq, Eq, PartialOrd, Ord)]
pub struct Duration(pub u64);

impl Duration {
    pub fn plus(self, other: Duration) -> Duration {
        Duration(self.0 + other.0)
    }

    /// Whether this is a multiple of a period; periods are above 0.
    pub fn is_multiple(self, period: Duration) -> bool {
        self.0.is_multiple_of(period.0)
    }
}

/// A value of a port or of a local. Its arithmetic stops at both ends.
#[derive(Clone, Copy, Debug, PartialEq, Eq, PartialOrd, Ord)]
pub struct Value(pub i32);

impl Value {
    pub fn plus(self, other: Value) -> Value {
        Value(sum(self.0, other.0))
    }

    pub fn minus(self, other: Value) -> Value {
        Value(difference(self.0, other.0))
    }
}

/// Kind 02.
#[derive(Clone, Copy, Debug, PartialEq, Eq)]
pub struct Thread {
    pub period: Duration,
    pub deadline: Duration,
    /// Min, the best-case execution time.
    pub bcet: Duration,
    /// Max, the worst-case execution time.
    pub wcet: Duration,
    pub mode_mask: u8,
    pub critical: bool,
    pub first_behavior_state: u8,
}

/// Kinds 03 and 0B.
#[derive(Clone, Copy, Debug, PartialEq, Eq)]
pub struct InputPort {
    pub owner: usize,
    /// Of the port and of its buffer; 0 unless it is written.
    pub start: Value,
}

/// Kind 04.
#[derive(Clone, Copy, Debug, PartialEq, Eq)]
pub struct OutputPort {
    pub owner: usize,
}

/// Kind 05.
#[derive(Clone, Copy, Debug, PartialEq, Eq)]
pub struct Local {
    pub owner: usize,
    pub start: Value,
}

/// The type of a connection.
#[derive(Clone, Copy, Debug, PartialEq, Eq)]
pub enum Timing {
    Immediate,
    Delayed,
}

/// Kind 06.
#[derive(Clone, Copy, Debug, PartialEq, Eq)]
pub struct Connection {
    pub timing: Timing,
    pub output_port: usize,
    pub input_port: usize,
    pub mode_mask: u8,
}

/// Kind 07, with its two hyperperiods.
#[derive(Clone, Copy, Debug, PartialEq, Eq)]
pub struct ModeTransition {
    pub from: u8,
    pub to: u8,
    /// H1.
    pub hyperperiod_old: Duration,
    /// H2.
    pub hyperperiod_common: Duration,
}

/// An operand of a guard atom or of an assignment.
#[derive(Clone, Copy, Debug, PartialEq, Eq)]
pub enum Operand {
    Constant(Value),
    InputPort(usize),
    Local(usize),
}

/// The target of an assignment.
#[derive(Clone, Copy, Debug, PartialEq, Eq)]
pub enum Target {
    Local(usize),
    OutputPort(usize),
}

/// Kind 09. The ops from 0 on are =, ≠, <, ≥, > and ≤.
#[derive(Clone, Copy, Debug, PartialEq, Eq)]
pub struct GuardAtom {
    pub op: u8,
    pub left: Operand,
    pub right: Operand,
}

/// Kind 0A. The op is a copy of the first operand (0), a sum (1) or a
/// difference (2).
#[derive(Clone, Copy, Debug, PartialEq, Eq)]
pub struct Assignment {
    pub target: Target,
    pub op: u8,
    pub first: Operand,
    pub second: Operand,
}

/// Kind 08, with the 09 and 0A records that belong to it.
#[derive(Clone, Debug, PartialEq, Eq)]
pub struct BehaviorTransition {
    pub thread: usize,
    pub from: u8,
    pub to: u8,
    pub guard: Vec<GuardAtom>,
    pub assignments: Vec<Assignment>,
}

/// An accepted model. An item's number is its place in the list of its kind, or
/// of both kinds where two share a list.
#[derive(Clone, Debug, Default, PartialEq, Eq)]
pub struct Model {
    pub mode_count: u8,
    pub initial_mode: u8,
    pub threads: Vec<Thread>,
    pub input_ports: Vec<InputPort>,
    pub output_ports: Vec<OutputPort>,
    pub locals: Vec<Local>,
    pub connections: Vec<Connection>,
    pub mode_transitions: Vec<ModeTransition>,
    pub behavior_transitions: Vec<BehaviorTransition>,
}

/// Whether a set of modes, one bit for each, has this mode.
pub fn holds_mode(mode_mask: u8, mode: u8) -> bool {
    (mode_mask >> mode) & 1 == 1
}

impl Model {
    /// The source of a connection: the thread that owns its output port.
    pub fn source(&self, connection: usize) -> usize {
        self.output_ports[self.connections[connection].output_port].owner
    }

    /// The thread that a connection leads into.
    pub fn destination(&self, connection: usize) -> usize {
        self.input_ports[self.connections[connection].input_port].owner
    }

    /// The connections of one type into a thread, by number.
    pub fn connections_into(
        &self,
        thread: usize,
        timing: Timing,
    ) -> impl Iterator<Item = usize> + '_ {
        (0..self.connections.len())
            .filter(move |&c| self.connections[c].timing == timing && self.destination(c) == thread)
    }

    /// The connections of one type out of a thread, by number.
    pub fn connections_out_of(
        &self,
        thread: usize,
        timing: Timing,
    ) -> impl Iterator<Item = usize> + '_ {
        (0..self.connections.len())
            .filter(move |&c| self.connections[c].timing == timing && self.source(c) == thread)
    }

    /// The immediate connection that feeds an input port. No input port is
    /// connected twice, so there is at most one.
    pub fn immediate_feeding(&self, input_port: usize) -> Option<usize> {
        (0..self.connections.len()).find(|&c| {
            let connection = &self.connections[c];
            connection.timing == Timing::Immediate && connection.input_port == input_port
        })
    }

    /// The input ports of a thread, by number.
    pub fn input_ports_of(&self, thread: usize) -> impl Iterator<Item = usize> + '_ {
        (0..self.input_ports.len()).filter(move |&i| self.input_ports[i].owner == thread)
    }

    /// The behaviour transitions of a thread, by number.
    pub fn behavior_transitions_of(
        &self,
        thread: usize,
    ) -> impl Iterator<Item = &BehaviorTransition> {
        self.behavior_transitions
            .iter()
            .filter(move |transition| transition.thread == thread)
    }
}
