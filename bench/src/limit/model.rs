//! A model decoded: what each event looks at lies together, by thread.

use std::ops::Range;

use plain::model::{self, Operand, Target, Timing};

/// Places of values in a state: input ports, their buffers, outputs, locals.
pub const INPUTS: usize = 0;
pub const BUFFERS: usize = 32;
pub const OUTPUTS: usize = 64;
pub const LOCALS: usize = 96;
pub const PLACES: usize = 128;

/// A part of one of the lists below.
pub type Part = Range<u16>;

pub struct Thread {
    pub period: u32,
    pub deadline: u32,
    pub bcet: u32,
    pub wcet: u32,
    /// Its input ports.
    pub inputs: Part,
    /// Connections out of it that copy when it completes, and at its deadline.
    pub sends_at_once: Part,
    pub sends_later: Part,
    /// Connections into it.
    pub fed_at_once: Part,
    pub fed_later: Part,
    /// Its transitions by the behaviour state that they leave.
    pub transitions: [Part; 8],
}

pub struct Input {
    pub port: u8,
    /// The bit of the immediate connection into it, 0 for none.
    pub immediate: u32,
}

pub struct Send {
    pub flag: u32,
    pub output: u8,
    pub input: u8,
}

pub struct Feed {
    pub flag: u32,
    pub source: u8,
}

#[derive(Clone, Copy)]
pub enum Value {
    Constant(i32),
    Place(u8),
}

pub struct Transition {
    pub to: u8,
    pub guard: Part,
    pub assignments: Part,
}

pub struct Atom {
    pub op: u8,
    pub left: Value,
    pub right: Value,
}

pub struct Assignment {
    pub target: u8,
    pub op: u8,
    pub first: Value,
    pub second: Value,
}

/// A mode transition with what it makes of threads and connections.
pub struct Change {
    pub from: u8,
    pub to: u8,
    pub hyperperiod_old: u32,
    pub hyperperiod_common: u32,
    pub active: u16,
    pub flags_between: u32,
    pub flags_after: u32,
}

#[derive(Default)]
pub struct Model {
    pub threads: Vec<Thread>,
    pub inputs: Vec<Input>,
    pub sends: Vec<Send>,
    pub feeds: Vec<Feed>,
    pub transitions: Vec<Transition>,
    pub atoms: Vec<Atom>,
    pub assignments: Vec<Assignment>,
    pub changes: Vec<Change>,
    /// The threads that are not critical, and so are stopped when they leave.
    pub stopped: u16,
    /// At the start.
    pub mode: u8,
    pub active: u16,
    pub flags: u32,
    pub behavior_states: Vec<u8>,
    /// Of input ports and of their buffers.
    pub port_starts: Vec<i32>,
    pub locals: Vec<i32>,
}

impl Model {
    pub fn decode(read: &model::Model) -> Model {
        let mut model = Model {
            mode: read.initial_mode,
            stopped: threads(read, |thread| !thread.critical),
            active: active(read, read.initial_mode),
            flags: flags(read, &[read.initial_mode]),
            behavior_states: read
                .threads
                .iter()
                .map(|t| t.first_behavior_state)
                .collect(),
            port_starts: read.input_ports.iter().map(|port| port.start.0).collect(),
            locals: read.locals.iter().map(|local| local.start.0).collect(),
            ..Model::default()
        };
        for thread in 0..read.threads.len() {
            let decoded = model.thread(read, thread);
            model.threads.push(decoded);
        }
        for transition in &read.mode_transitions {
            model.changes.push(change(read, transition));
        }
        model
    }

    fn thread(&mut self, read: &model::Model, number: usize) -> Thread {
        let figures = &read.threads[number];
        let figure = |duration: model::Duration| duration.0 as u32;
        let input = |port: usize| Input {
            port: port as u8,
            immediate: read.immediate_feeding(port).map_or(0, bit),
        };
        let inputs: Vec<Input> = read.input_ports_of(number).map(input).collect();
        Thread {
            period: figure(figures.period),
            deadline: figure(figures.deadline),
            bcet: figure(figures.bcet),
            wcet: figure(figures.wcet),
            inputs: added(&mut self.inputs, inputs),
            sends_at_once: self.sends(read, number, Timing::Immediate),
            sends_later: self.sends(read, number, Timing::Delayed),
            fed_at_once: self.feeds(read, number, Timing::Immediate),
            fed_later: self.feeds(read, number, Timing::Delayed),
            transitions: std::array::from_fn(|from| self.transitions(read, number, from as u8)),
        }
    }

    fn sends(&mut self, read: &model::Model, thread: usize, timing: Timing) -> Part {
        let send = |number: usize| Send {
            flag: bit(number),
            output: (OUTPUTS + read.connections[number].output_port) as u8,
            input: (BUFFERS + read.connections[number].input_port) as u8,
        };
        let sends = read.connections_out_of(thread, timing).map(send).collect();
        added(&mut self.sends, sends)
    }

    fn feeds(&mut self, read: &model::Model, thread: usize, timing: Timing) -> Part {
        let feed = |number: usize| Feed {
            flag: bit(number),
            source: read.source(number) as u8,
        };
        let feeds = read.connections_into(thread, timing).map(feed).collect();
        added(&mut self.feeds, feeds)
    }

    fn transitions(&mut self, read: &model::Model, thread: usize, from: u8) -> Part {
        let mut own = Vec::new();
        for transition in read.behavior_transitions_of(thread) {
            if transition.from != from {
                continue;
            }
            let atom = |atom: &model::GuardAtom| Atom {
                op: atom.op,
                left: value(atom.left),
                right: value(atom.right),
            };
            let assignment = |assignment: &model::Assignment| Assignment {
                target: target(assignment.target),
                op: assignment.op,
                first: value(assignment.first),
                second: value(assignment.second),
            };
            let atoms = transition.guard.iter().map(atom).collect();
            let assignments = transition.assignments.iter().map(assignment).collect();
            own.push(Transition {
                to: transition.to,
                guard: added(&mut self.atoms, atoms),
                assignments: added(&mut self.assignments, assignments),
            });
        }
        added(&mut self.transitions, own)
    }
}

/// Adds items to a list; their part of it.
fn added<T>(list: &mut Vec<T>, items: Vec<T>) -> Part {
    let first = list.len() as u16;
    list.extend(items);
    first..list.len() as u16
}

fn bit(connection: usize) -> u32 {
    1 << connection
}

fn value(operand: Operand) -> Value {
    match operand {
        Operand::Constant(value) => Value::Constant(value.0),
        Operand::InputPort(number) => Value::Place((INPUTS + number) as u8),
        Operand::Local(number) => Value::Place((LOCALS + number) as u8),
    }
}

fn target(target: Target) -> u8 {
    match target {
        Target::Local(number) => (LOCALS + number) as u8,
        Target::OutputPort(number) => (OUTPUTS + number) as u8,
    }
}

fn holds(mask: u8, mode: u8) -> bool {
    mask >> mode & 1 == 1
}

/// The threads of which something is so.
fn threads(read: &model::Model, so: impl Fn(&model::Thread) -> bool) -> u16 {
    let bits = read.threads.iter().enumerate();
    let chosen = bits.filter(|(_, thread)| so(thread));
    chosen.fold(0, |bits, (number, _)| bits | 1 << number)
}

/// The threads that are active in a mode.
fn active(read: &model::Model, mode: u8) -> u16 {
    threads(read, |thread| holds(thread.mode_mask, mode))
}

/// The connections that live in all these modes.
fn flags(read: &model::Model, modes: &[u8]) -> u32 {
    let bits = read.connections.iter().enumerate();
    let live = bits.filter(|(_, one)| modes.iter().all(|mode| holds(one.mode_mask, *mode)));
    live.fold(0, |bits, (number, _)| bits | bit(number))
}

fn change(read: &model::Model, transition: &model::ModeTransition) -> Change {
    let (from, to) = (transition.from, transition.to);
    Change {
        from,
        to,
        hyperperiod_old: transition.hyperperiod_old.0 as u32,
        hyperperiod_common: transition.hyperperiod_common.0 as u32,
        active: active(read, to),
        flags_between: flags(read, &[from, to]),
        flags_after: flags(read, &[to]),
    }
}
