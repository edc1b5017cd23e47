//! Reading a model from bytes.

use super::{
    holds_mode, Assignment, BehaviorTransition, Connection, Duration, GuardAtom, InputPort, Local,
    ModeTransition, Model, Operand, OutputPort, Target, Thread, Timing, Value,
};
use crate::bytes::{extent, i32_at, operand_at, u32_at, u8_at, Extent};
use crate::refusal::{
    Refusal, CUT, FAULTY_TIME, HYPERPERIOD, NAMES_NOTHING, ORDER, OWNER, RANGE, TOO_MANY, TWICE,
};
use crate::script::LAST_NOW;

const HEAD: u8 = 0x01;
const THREAD: u8 = 0x02;
const INPUT_PORT: u8 = 0x03;
const OUTPUT_PORT: u8 = 0x04;
const LOCAL: u8 = 0x05;
const CONNECTION: u8 = 0x06;
const MODE_TRANSITION: u8 = 0x07;
const BEHAVIOR_TRANSITION: u8 = 0x08;
const GUARD_ATOM: u8 = 0x09;
const ASSIGNMENT: u8 = 0x0A;
/// An input port with a start of its own.
const STARTED_INPUT_PORT: u8 = 0x0B;

/// The tag of an operand that is a constant.
const TAG_CONSTANT: u8 = 0;
/// The tag of an input port, as an operand or a left side.
const TAG_INPUT_PORT: u8 = 1;
/// The tag of a local, as an operand, a left side or a target.
const TAG_LOCAL: u8 = 2;
/// The tag of an output port as a target.
const TAG_OUTPUT_PORT: u8 = 3;

/// The greatest figure of Period, Deadline, Min and Max.
const LONGEST: u32 = 1_000_000;

/// The body length of each model kind.
fn body_length(kind: u8) -> Option<usize> {
    match kind {
        HEAD => Some(2),
        THREAD => Some(19),
        INPUT_PORT | OUTPUT_PORT => Some(1),
        LOCAL | STARTED_INPUT_PORT => Some(5),
        CONNECTION => Some(4),
        MODE_TRANSITION => Some(2),
        BEHAVIOR_TRANSITION => Some(3),
        GUARD_ATOM => Some(8),
        ASSIGNMENT => Some(13),
        _ => None,
    }
}

/// Reads a model up to its end or to a record with a cause against it. With no
/// record at all there is no head, and the part is empty.
pub fn read(bytes: &[u8]) -> Result<Model, Refusal> {
    if bytes.is_empty() {
        return Err(Refusal {
            number: ORDER,
            start: 0,
            end: 0,
        });
    }
    let mut model = Model::default();
    let mut previous = None;
    let mut start = 0;
    while start < bytes.len() {
        let kind = bytes[start];
        let end = match extent(bytes, start, body_length(kind)) {
            Extent::Whole(end) => end,
            Extent::Cut => {
                return Err(Refusal {
                    number: CUT,
                    start,
                    end: bytes.len(),
                })
            }
            Extent::Unknown => {
                return Err(Refusal {
                    number: ORDER,
                    start,
                    end: bytes.len(),
                })
            }
        };
        let body = &bytes[start + 1..end];
        if let Some(number) = cause(&model, previous, kind, body) {
            return Err(Refusal { number, start, end });
        }
        add(&mut model, kind, body);
        previous = Some(kind);
        start = end;
    }
    Ok(model)
}

/// The first cause, in the order of the table of refusals, against a whole
/// record that would follow what was read so far. Names and times stand there
/// right before the other fields.
fn cause(model: &Model, previous: Option<u8>, kind: u8, body: &[u8]) -> Option<u8> {
    if !in_order(previous, kind) {
        Some(ORDER)
    } else if one_too_many(model, kind) {
        Some(TOO_MANY)
    } else if !all_named(model, kind, body) {
        Some(NAMES_NOTHING)
    } else if !times_in_range(kind, body) {
        Some(FAULTY_TIME)
    } else if !in_range(model, kind, body) {
        Some(RANGE)
    } else if of_another_thread(model, kind, body) {
        Some(OWNER)
    } else if twice(model, kind, body) {
        Some(TWICE)
    } else if hyperperiod_too_long(model, kind, body) {
        Some(HYPERPERIOD)
    } else {
        None
    }
}

/// One head, first; places up to that of 08 never fall; atoms and assignments
/// stand behind a behaviour transition, the atoms before the assignments.
fn in_order(previous: Option<u8>, kind: u8) -> bool {
    match (previous, kind) {
        (None, _) => kind == HEAD,
        (Some(_), HEAD) => false,
        (Some(previous), GUARD_ATOM) => matches!(previous, BEHAVIOR_TRANSITION | GUARD_ATOM),
        (Some(previous), ASSIGNMENT) => {
            matches!(previous, BEHAVIOR_TRANSITION | GUARD_ATOM | ASSIGNMENT)
        }
        (Some(GUARD_ATOM | ASSIGNMENT), _) => kind == BEHAVIOR_TRANSITION,
        (Some(previous), _) => place(kind) >= place(previous),
    }
}

/// Where a kind stands: in the order of the kinds, but that input ports with and
/// without a written start stand in one place.
fn place(kind: u8) -> u8 {
    match kind {
        STARTED_INPUT_PORT => INPUT_PORT,
        _ => kind,
    }
}

/// Whether the greatest count of this kind was reached before.
fn one_too_many(model: &Model, kind: u8) -> bool {
    let last = model.behavior_transitions.last();
    match kind {
        THREAD => model.threads.len() == 16,
        INPUT_PORT | STARTED_INPUT_PORT => model.input_ports.len() == 32,
        OUTPUT_PORT => model.output_ports.len() == 32,
        LOCAL => model.locals.len() == 32,
        CONNECTION => model.connections.len() == 32,
        MODE_TRANSITION => model.mode_transitions.len() == 16,
        BEHAVIOR_TRANSITION => model.behavior_transitions.len() == 64,
        GUARD_ATOM => last.is_some_and(|transition| transition.guard.len() == 4),
        ASSIGNMENT => last.is_some_and(|transition| transition.assignments.len() == 4),
        _ => false,
    }
}

/// Whether every number that is looked at is that of a mode or an item. The
/// initial mode is held against the count as it is written, whatever it is. Masks
/// and behaviour states are ranges.
fn all_named(model: &Model, kind: u8, body: &[u8]) -> bool {
    match kind {
        HEAD => u8_at(body, 1) < u8_at(body, 0),
        INPUT_PORT | STARTED_INPUT_PORT | OUTPUT_PORT | LOCAL | BEHAVIOR_TRANSITION => {
            usize::from(u8_at(body, 0)) < model.threads.len()
        }
        CONNECTION => {
            usize::from(u8_at(body, 1)) < model.output_ports.len()
                && usize::from(u8_at(body, 2)) < model.input_ports.len()
        }
        MODE_TRANSITION => names_mode(model, u8_at(body, 0)) && names_mode(model, u8_at(body, 1)),
        GUARD_ATOM => {
            operand_named(model, left_side_at(body, 1)) && operand_named(model, operand_at(body, 3))
        }
        ASSIGNMENT => {
            target_named(model, u8_at(body, 0), u8_at(body, 1))
                && operand_named(model, operand_at(body, 3))
                && operand_named(model, operand_at(body, 8))
        }
        _ => true,
    }
}

fn names_mode(model: &Model, mode: u8) -> bool {
    mode < model.mode_count
}

/// The left side of an atom: a tag and a number of one byte each.
fn left_side_at(body: &[u8], at: usize) -> (u8, i32) {
    (u8_at(body, at), i32::from(u8_at(body, at + 1)))
}

/// An operand is looked at whether it is used or not, but its number only behind
/// a tag that may stand there and is no constant's.
fn operand_named(model: &Model, (tag, number): (u8, i32)) -> bool {
    match tag {
        TAG_INPUT_PORT => names_item(number, model.input_ports.len()),
        TAG_LOCAL => names_item(number, model.locals.len()),
        _ => true,
    }
}

fn names_item(number: i32, count: usize) -> bool {
    usize::try_from(number).is_ok_and(|number| number < count)
}

fn target_named(model: &Model, tag: u8, number: u8) -> bool {
    match tag {
        TAG_LOCAL => usize::from(number) < model.locals.len(),
        TAG_OUTPUT_PORT => usize::from(number) < model.output_ports.len(),
        _ => true,
    }
}

/// A thread has two chains of bounds: on Deadline and Period, on Min and Max.
fn times_in_range(kind: u8, body: &[u8]) -> bool {
    let chain = |shorter, longer| {
        let (shorter, longer) = (u32_at(body, shorter), u32_at(body, longer));
        1 <= shorter && shorter <= longer && longer <= LONGEST
    };
    kind != THREAD || (chain(4, 0) && chain(8, 12))
}

/// Whether every other field lies in its range.
fn in_range(model: &Model, kind: u8, body: &[u8]) -> bool {
    match kind {
        HEAD => (1..=8).contains(&u8_at(body, 0)),
        THREAD => {
            let (critical, state) = (u8_at(body, 17), u8_at(body, 18));
            names_modes(model, u8_at(body, 16)) && critical <= 1 && state <= 7
        }
        CONNECTION => u8_at(body, 0) <= 1 && names_modes(model, u8_at(body, 3)),
        BEHAVIOR_TRANSITION => u8_at(body, 1) <= 7 && u8_at(body, 2) <= 7,
        GUARD_ATOM => {
            u8_at(body, 0) <= 5
                && matches!(u8_at(body, 1), TAG_INPUT_PORT | TAG_LOCAL)
                && operand_tag(u8_at(body, 3))
        }
        ASSIGNMENT => {
            matches!(u8_at(body, 0), TAG_LOCAL | TAG_OUTPUT_PORT)
                && u8_at(body, 2) <= 2
                && operand_tag(u8_at(body, 3))
                && operand_tag(u8_at(body, 8))
        }
        _ => true,
    }
}

/// Whether each mode of a mask exists; an empty mask is fine.
fn names_modes(model: &Model, mode_mask: u8) -> bool {
    (0..8).all(|mode| !holds_mode(mode_mask, mode) || names_mode(model, mode))
}

fn operand_tag(tag: u8) -> bool {
    matches!(tag, TAG_CONSTANT | TAG_INPUT_PORT | TAG_LOCAL)
}

/// Whether an atom or assignment, which names nothing that is not there, names a
/// port or local that its transition's thread does not own.
fn of_another_thread(model: &Model, kind: u8, body: &[u8]) -> bool {
    let thread = match model.behavior_transitions.last() {
        Some(transition) => transition.thread,
        None => return false,
    };
    let foreign = |operand| operand_owner(model, operand).is_some_and(|owner| owner != thread);
    match kind {
        GUARD_ATOM => {
            let atom = guard_atom(body);
            foreign(atom.left) || foreign(atom.right)
        }
        ASSIGNMENT => {
            let assignment = assignment(body);
            target_owner(model, assignment.target) != thread
                || foreign(assignment.first)
                || foreign(assignment.second)
        }
        _ => false,
    }
}

fn operand_owner(model: &Model, operand: Operand) -> Option<usize> {
    match operand {
        Operand::Constant(_) => None,
        Operand::InputPort(number) => Some(model.input_ports[number].owner),
        Operand::Local(number) => Some(model.locals[number].owner),
    }
}

fn target_owner(model: &Model, target: Target) -> usize {
    match target {
        Target::Local(number) => model.locals[number].owner,
        Target::OutputPort(number) => model.output_ports[number].owner,
    }
}

/// Whether a connection meets an input port again, whatever the masks, or an
/// assignment a target of its transition again.
fn twice(model: &Model, kind: u8, body: &[u8]) -> bool {
    match (kind, model.behavior_transitions.last()) {
        (CONNECTION, _) => {
            let input_port = connection(body).input_port;
            model
                .connections
                .iter()
                .any(|earlier| earlier.input_port == input_port)
        }
        (ASSIGNMENT, Some(transition)) => {
            let target = assignment(body).target;
            transition
                .assignments
                .iter()
                .any(|earlier| earlier.target == target)
        }
        _ => false,
    }
}

/// Whether H1 or H2 of a mode transition lies over the last clock.
fn hyperperiod_too_long(model: &Model, kind: u8, body: &[u8]) -> bool {
    let (from, to) = (u8_at(body, 0), u8_at(body, 1));
    kind == MODE_TRANSITION
        && (hyperperiod_old(model, from).is_none() || hyperperiod_common(model, from, to).is_none())
}

/// H1: over the critical threads that the old mode has.
fn hyperperiod_old(model: &Model, from: u8) -> Option<Duration> {
    hyperperiod(&model.threads, |thread| holds_mode(thread.mode_mask, from))
}

/// H2: over the critical threads that both modes have.
fn hyperperiod_common(model: &Model, from: u8, to: u8) -> Option<Duration> {
    hyperperiod(&model.threads, |thread| {
        holds_mode(thread.mode_mask, from) && holds_mode(thread.mode_mask, to)
    })
}

/// The hyperperiod of the chosen critical threads: their periods' least common
/// multiple, so 1 without any; `None` where it lies over the last clock.
pub fn hyperperiod(threads: &[Thread], chosen: impl Fn(&Thread) -> bool) -> Option<Duration> {
    let mut multiple = 1;
    for thread in threads {
        if thread.critical && chosen(thread) {
            multiple = least_common_multiple(multiple, thread.period.0);
            if multiple > u64::from(LAST_NOW) {
                return None;
            }
        }
    }
    Some(Duration(multiple))
}

fn least_common_multiple(a: u64, b: u64) -> u64 {
    a / greatest_common_divisor(a, b) * b
}

fn greatest_common_divisor(a: u64, b: u64) -> u64 {
    if b == 0 {
        a
    } else {
        greatest_common_divisor(b, a % b)
    }
}

/// Puts a record with no cause against it into the model.
fn add(model: &mut Model, kind: u8, body: &[u8]) {
    match kind {
        HEAD => {
            model.mode_count = u8_at(body, 0);
            model.initial_mode = u8_at(body, 1);
        }
        THREAD => model.threads.push(thread(body)),
        INPUT_PORT => model.input_ports.push(input_port(body, 0)),
        STARTED_INPUT_PORT => model.input_ports.push(input_port(body, i32_at(body, 1))),
        OUTPUT_PORT => model.output_ports.push(OutputPort {
            owner: usize::from(u8_at(body, 0)),
        }),
        LOCAL => model.locals.push(local(body)),
        CONNECTION => model.connections.push(connection(body)),
        MODE_TRANSITION => {
            let mode_transition = mode_transition(model, body);
            model.mode_transitions.push(mode_transition);
        }
        BEHAVIOR_TRANSITION => model.behavior_transitions.push(behavior_transition(body)),
        GUARD_ATOM => {
            if let Some(transition) = model.behavior_transitions.last_mut() {
                transition.guard.push(guard_atom(body));
            }
        }
        ASSIGNMENT => {
            if let Some(transition) = model.behavior_transitions.last_mut() {
                transition.assignments.push(assignment(body));
            }
        }
        _ => {}
    }
}

fn thread(body: &[u8]) -> Thread {
    let figure = |at| Duration(u64::from(u32_at(body, at)));
    Thread {
        period: figure(0),
        deadline: figure(4),
        bcet: figure(8),
        wcet: figure(12),
        mode_mask: u8_at(body, 16),
        critical: u8_at(body, 17) == 1,
        first_behavior_state: u8_at(body, 18),
    }
}

fn input_port(body: &[u8], start: i32) -> InputPort {
    InputPort {
        owner: usize::from(u8_at(body, 0)),
        start: Value(start),
    }
}

fn local(body: &[u8]) -> Local {
    Local {
        owner: usize::from(u8_at(body, 0)),
        start: Value(i32_at(body, 1)),
    }
}

fn connection(body: &[u8]) -> Connection {
    Connection {
        timing: if u8_at(body, 0) == 0 {
            Timing::Immediate
        } else {
            Timing::Delayed
        },
        output_port: usize::from(u8_at(body, 1)),
        input_port: usize::from(u8_at(body, 2)),
        mode_mask: u8_at(body, 3),
    }
}

fn mode_transition(model: &Model, body: &[u8]) -> ModeTransition {
    let (from, to) = (u8_at(body, 0), u8_at(body, 1));
    ModeTransition {
        from,
        to,
        hyperperiod_old: hyperperiod_old(model, from).unwrap_or(Duration(1)),
        hyperperiod_common: hyperperiod_common(model, from, to).unwrap_or(Duration(1)),
    }
}

fn behavior_transition(body: &[u8]) -> BehaviorTransition {
    BehaviorTransition {
        thread: usize::from(u8_at(body, 0)),
        from: u8_at(body, 1),
        to: u8_at(body, 2),
        guard: Vec::new(),
        assignments: Vec::new(),
    }
}

fn guard_atom(body: &[u8]) -> GuardAtom {
    GuardAtom {
        op: u8_at(body, 0),
        left: operand(left_side_at(body, 1)),
        right: operand(operand_at(body, 3)),
    }
}

fn assignment(body: &[u8]) -> Assignment {
    let number = usize::from(u8_at(body, 1));
    Assignment {
        target: match u8_at(body, 0) {
            TAG_LOCAL => Target::Local(number),
            _ => Target::OutputPort(number),
        },
        op: u8_at(body, 2),
        first: operand(operand_at(body, 3)),
        second: operand(operand_at(body, 8)),
    }
}

/// An operand with no cause against it.
fn operand((tag, number): (u8, i32)) -> Operand {
    match tag {
        TAG_CONSTANT => Operand::Constant(Value(number)),
        TAG_INPUT_PORT => Operand::InputPort(number as usize),
        _ => Operand::Local(number as usize),
    }
}
