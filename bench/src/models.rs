//! The models that are measured, as bytes.

/// A model of so many threads, which hand values round. Each clock figure is a
/// multiple of `unit`. There is time for all jobs.
pub fn periodic(threads: usize, unit: u32) -> Vec<u8> {
    let modes = if threads > 4 { 4 } else { 2 };
    let mut model = vec![0x01, modes, 0];
    for number in 0..threads {
        let figures = periodic_figures(threads, number).map(|figure| figure * unit);
        // Every fourth thread is critical, and another fourth rests but in mode 0.
        let mask = if number % 4 == 3 { 1 } else { all(modes) };
        model.extend(thread(figures, mask, number % 4 == 0, 0));
    }
    let pairs = || (0..2 * threads).map(|item| item / 2);
    model.extend(pairs().flat_map(|owner| [0x03, owner as u8]));
    model.extend((0..threads).flat_map(|owner| [0x04, owner as u8]));
    model.extend(pairs().flat_map(|owner| local(owner, owner as i32)));
    for number in 0..threads {
        let next = (number + 1) % threads;
        let immediate = number % 2 == 0 && next != number;
        model.extend(connection(!immediate, number, 2 * next, all(modes)));
    }
    for number in (0..threads).step_by(2) {
        let further = (number + 2) % threads;
        model.extend(connection(true, number, 2 * further + 1, all(modes)));
    }
    for mode in 0..modes {
        model.extend([0x07, mode, (mode + 1) % modes]);
    }
    for number in 0..threads {
        model.extend(counting(number));
    }
    model
}

/// The greatest unit that [`periodic`] can have.
pub fn greatest_unit(threads: usize) -> u32 {
    let longest = (0..threads).map(|number| periodic_figures(threads, number)[0]);
    1_000_000 / longest.max().unwrap_or(1)
}

/// Period, Deadline, Min and Max. Two neighbours have the same period.
fn periodic_figures(threads: usize, number: usize) -> [u32; 4] {
    let period = 5 * threads as u32 * if number % 4 < 2 { 1 } else { 2 };
    [period, period - (number as u32 + 1) % 2, 1, 3]
}

/// A behaviour of two states: it counts to 50, sending sums, then begins anew.
fn counting(thread: usize) -> Vec<u8> {
    let (count, seen) = (2 * thread, 2 * thread + 1);
    let (input, output) = (2 * thread, thread);
    [
        transition(thread, 0, 0),
        atom(LESS, LOCAL, count, (CONSTANT, 50)),
        atom(LESS, INPUT, input, (CONSTANT, 1_000)),
        assignment(OUTPUT, output, ADD, (INPUT, input), (LOCAL, count)),
        assignment(LOCAL, count, ADD, (LOCAL, count), (CONSTANT, 1)),
        transition(thread, 0, 1),
        atom(AT_LEAST, LOCAL, count, (CONSTANT, 50)),
        assignment(LOCAL, count, COPY, (CONSTANT, 0), (CONSTANT, 0)),
        assignment(OUTPUT, output, SUBTRACT, (INPUT, input), (LOCAL, seen)),
        transition(thread, 1, 0),
        assignment(LOCAL, seen, COPY, (INPUT, input + 1), (CONSTANT, 0)),
        assignment(OUTPUT, output, COPY, (LOCAL, count), (CONSTANT, 0)),
    ]
    .concat()
}

/// A model with the most of every kind and the longest table: all behaviour
/// transitions are of one thread and from one state, that thread has all
/// connections, immediate ones, no thread is critical, and whatever can start
/// otherwise than at 0 does so. The transitions are taken in turn.
pub fn full(unit: u32) -> Vec<u8> {
    const SENDER: usize = 15;
    let modes = 8;
    let mut model = vec![0x01, modes, 1];
    for _ in 0..16 {
        model.extend(thread(
            [50, 50, 1, 3].map(|figure| figure * unit),
            255,
            false,
            7,
        ));
    }
    model.extend((0..32).flat_map(|input| started_port(input % 15, input as i32 + 1)));
    model.extend((0..32).flat_map(|_| [0x04, SENDER as u8]));
    model.extend((0..32).flat_map(|number| local(SENDER, number + 1)));
    for number in 0..32 {
        model.extend(connection(false, number, number, 255));
    }
    for number in 0..16 {
        model.extend([0x07, number % 8, (number + 1 + number / 8) % 8]);
    }
    for number in 0..64 {
        let turn = number as usize + 1;
        let after = if turn == 64 { 1 } else { turn + 1 };
        model.extend(transition(SENDER, 7, 7));
        for positive in 1..4 {
            model.extend(atom(NOT_EQUAL, LOCAL, positive, (CONSTANT, 0)));
        }
        model.extend(atom(EQUAL, LOCAL, 0, (CONSTANT, turn)));
        model.extend(assignment(LOCAL, 0, COPY, (CONSTANT, after), (CONSTANT, 0)));
        for step in 0..3 {
            let output = (turn + 7 * step) % 32;
            let last = (LOCAL, turn % 32);
            model.extend(assignment(OUTPUT, output, ADD, (LOCAL, 1), last));
        }
    }
    model
}

/// The greatest unit that [`full`] can have.
pub const GREATEST_FULL_UNIT: u32 = 20_000;

const EQUAL: u8 = 0;
const NOT_EQUAL: u8 = 1;
const LESS: u8 = 2;
const AT_LEAST: u8 = 3;

const COPY: u8 = 0;
const ADD: u8 = 1;
const SUBTRACT: u8 = 2;

/// Tags of operands and targets.
const CONSTANT: u8 = 0;
const INPUT: u8 = 1;
const LOCAL: u8 = 2;
const OUTPUT: u8 = 3;

/// The mask of so many modes.
fn all(modes: u8) -> u8 {
    ((1_u16 << modes) - 1) as u8
}

fn thread(figures: [u32; 4], mask: u8, critical: bool, first_state: u8) -> Vec<u8> {
    let figures: Vec<u8> = figures.into_iter().flat_map(u32::to_le_bytes).collect();
    [&[0x02], &figures[..], &[mask, critical.into(), first_state]].concat()
}

/// An input port with a written start.
fn started_port(owner: usize, start: i32) -> Vec<u8> {
    [&[0x0B, owner as u8], &start.to_le_bytes()[..]].concat()
}

fn local(owner: usize, start: i32) -> Vec<u8> {
    [&[0x05, owner as u8], &start.to_le_bytes()[..]].concat()
}

fn connection(delayed: bool, output: usize, input: usize, mask: u8) -> Vec<u8> {
    vec![0x06, delayed.into(), output as u8, input as u8, mask]
}

fn transition(thread: usize, from: u8, to: u8) -> Vec<u8> {
    vec![0x08, thread as u8, from, to]
}

fn atom(op: u8, tag: u8, number: usize, right: (u8, usize)) -> Vec<u8> {
    [&[0x09, op, tag, number as u8], &operand(right)[..]].concat()
}

fn assignment(tag: u8, number: usize, op: u8, first: (u8, usize), second: (u8, usize)) -> Vec<u8> {
    let target = [0x0A, tag, number as u8, op];
    [&target[..], &operand(first), &operand(second)].concat()
}

fn operand((tag, number): (u8, usize)) -> Vec<u8> {
    [&[tag], &(number as i32).to_le_bytes()[..]].concat()
}
