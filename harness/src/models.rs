//! Random models. Most are accepted, and most of their events can happen.

use std::ops::Range;

use crate::damage::{change_field, damage_records};
use crate::large::large;
use crate::random::Random;
use crate::records::{model_body, operand, place, split, Record};

/// A model of some style: plain ones often, rare shapes now and then.
pub fn model(random: &mut Random) -> Vec<u8> {
    match random.weighted(&[330, 140, 100, 15, 50, 20, 25, 1, 9, 220, 10, 18, 1, 80]) {
        0 => drawn(random, few_threads),
        1 => drawn(random, flowing),
        2 => drawn(random, coinciding_threads),
        3 => drawn(random, many_threads),
        4 => drawn(random, ring),
        5 => drawn(random, extreme_figures),
        6 => drawn(random, long_hyperperiods),
        7 => full(random).concat(),
        8 => one_too_many(random),
        9 => damaged(random),
        10 => any_bytes(random),
        11 => large(random),
        12 => drawn(random, far_threads),
        _ => drawn(random, parting),
    }
}

/// How a model is drawn. Figures in percent say how often something is so.
struct Style {
    modes: usize,
    threads: usize,
    figures: Figures,
    critical: usize,
    /// At most so many ports in, ports out and locals.
    items: usize,
    connected: usize,
    immediate: usize,
    /// How often a mask holds a mode.
    mask: usize,
    mode_transitions: usize,
    behavior_transitions: usize,
    /// How often a thread has a transition that it can always take.
    steady: usize,
    shape: Shape,
}

/// How connections join threads.
#[derive(Clone, Copy, PartialEq)]
enum Shape {
    Any,
    /// Each thread feeds the next one.
    Chain,
    /// And the last one the first, so that they may wait for each other.
    Ring,
}

/// How Period, Deadline, Min and Max are drawn.
#[derive(Clone, Copy)]
enum Figures {
    Small,
    /// Jobs are short and often done long before the next period.
    Roomy,
    /// Divisors and multiples of this one, so that instants fall together.
    Coinciding(usize),
    Extreme,
    /// Periods with a least common multiple near the last clock.
    Long,
    /// Periods that soon lead to late clocks.
    Far,
}

/// A behaviour state that no transition leaves.
const AT_REST: u8 = 6;

/// Where a thread's record has its first behaviour state.
const FIRST_STATE: usize = 19;

fn few_threads(random: &mut Random) -> Style {
    Style {
        modes: random.one_of(&[1, 1, 2, 2, 3]),
        threads: random.one_of(&[0, 1, 1, 1, 2, 2, 2, 2, 3, 3]),
        figures: Figures::Small,
        critical: 30,
        items: 4,
        connected: 85,
        immediate: 50,
        mask: 75,
        mode_transitions: random.one_of(&[0, 1, 2, 4]),
        behavior_transitions: random.one_of(&[0, 2, 4, 8]),
        steady: 60,
        shape: Shape::Any,
    }
}

/// Values go from thread to thread, and modes change in between.
fn flowing(random: &mut Random) -> Style {
    Style {
        modes: 2,
        threads: random.within(2, 3),
        figures: Figures::Roomy,
        critical: 10,
        items: 4,
        connected: 100,
        immediate: 60,
        mask: 65,
        mode_transitions: 4,
        behavior_transitions: 2,
        steady: 95,
        shape: Shape::Chain,
    }
}

fn coinciding_threads(random: &mut Random) -> Style {
    Style {
        threads: random.within(2, 5),
        figures: Figures::Coinciding(random.one_of(&[2, 3, 4, 6])),
        items: 7,
        ..few_threads(random)
    }
}

fn many_threads(random: &mut Random) -> Style {
    Style {
        modes: random.one_of(&[1, 2, 8]),
        threads: random.within(6, 16),
        items: random.one_of(&[8, 16, 32]),
        behavior_transitions: 12,
        ..coinciding_threads(random)
    }
}

fn ring(random: &mut Random) -> Style {
    Style {
        threads: random.within(1, 4),
        items: 2,
        immediate: 90,
        mask: 90,
        shape: Shape::Ring,
        ..coinciding_threads(random)
    }
}

fn extreme_figures(random: &mut Random) -> Style {
    Style {
        threads: random.within(1, 2),
        figures: Figures::Extreme,
        ..few_threads(random)
    }
}

fn long_hyperperiods(random: &mut Random) -> Style {
    Style {
        modes: 2,
        threads: random.within(2, 3),
        figures: Figures::Long,
        critical: 90,
        mode_transitions: 2,
        ..few_threads(random)
    }
}

fn far_threads(random: &mut Random) -> Style {
    Style {
        modes: 2,
        figures: Figures::Far,
        mode_transitions: 2,
        mask: 90,
        ..extreme_figures(random)
    }
}

/// Threads, critical and not, that the other mode often has not, with periods at
/// whose ends modes change while jobs are in hand.
fn parting(random: &mut Random) -> Style {
    Style {
        modes: 2,
        threads: random.within(2, 4),
        figures: Figures::Coinciding(random.within(1, 4)),
        critical: 35,
        mask: 50,
        mode_transitions: 4,
        ..flowing(random)
    }
}

fn drawn(random: &mut Random, style: fn(&mut Random) -> Style) -> Vec<u8> {
    let style = style(random);
    Draft::new(random, &style).records.concat()
}

/// A model under way: its records, and who owns each port and local.
struct Draft {
    threads: usize,
    inputs: Vec<usize>,
    outputs: Vec<usize>,
    locals: Vec<usize>,
    records: Vec<Record>,
}

impl Draft {
    fn new(random: &mut Random, style: &Style) -> Draft {
        let initial = random.below(style.modes);
        let mut draft = Draft {
            threads: style.threads,
            inputs: owners(random, style),
            outputs: owners(random, style),
            locals: owners(random, style),
            records: vec![vec![0x01, style.modes as u8, initial as u8]],
        };
        for _ in 0..style.threads {
            draft.records.push(thread(random, style));
        }
        draft.add_items(random);
        draft.add_connections(random, style);
        for _ in 0..random.within(style.mode_transitions / 2, style.mode_transitions) {
            draft.add_mode_transition(random, style, initial);
        }
        if style.threads > 0 {
            draft.add_behavior(random, style);
        }
        draft
    }

    /// Ports and locals.
    fn add_items(&mut self, random: &mut Random) {
        self.records
            .extend(items(random, &self.inputs, &self.outputs, &self.locals));
    }

    /// Whatever a model can start otherwise than at 0 does so.
    fn start_beyond_0(&mut self, random: &mut Random) {
        for record in &mut self.records {
            let start = match record[0] {
                0x02 => FIRST_STATE..FIRST_STATE + 1,
                0x03 => {
                    *record = started(random, 0x0B, record[1].into());
                    START_VALUE
                }
                0x05 | 0x0B => START_VALUE,
                _ => continue,
            };
            if record[start.clone()].iter().all(|&byte| byte == 0) {
                record[start.start] = 1;
            }
        }
    }

    fn first_state(&self, thread: usize) -> u8 {
        self.records[1 + thread][FIRST_STATE]
    }

    /// Most input ports are fed by some output port. Threads rarely wait for
    /// themselves or, but in a ring, for each other.
    fn add_connections(&mut self, random: &mut Random, style: &Style) {
        for input in 0..self.inputs.len() {
            if self.outputs.is_empty() || !random.chance(style.connected) {
                continue;
            }
            let output = if style.shape != Shape::Any && input < style.threads {
                (input + style.threads - 1) % style.threads
            } else {
                random.below(self.outputs.len())
            };
            let onward = self.outputs[output] < self.inputs[input];
            let waiting = onward || style.shape == Shape::Ring || random.chance(10);
            let delayed = !(waiting && random.chance(style.immediate));
            let mask = mask(random, style);
            self.records
                .push(vec![0x06, delayed.into(), output as u8, input as u8, mask]);
        }
    }

    /// Half of the transitions leave the initial mode.
    fn add_mode_transition(&mut self, random: &mut Random, style: &Style, initial: usize) {
        let from = if random.chance(50) {
            initial
        } else {
            random.below(style.modes)
        };
        let to = if random.chance(80) {
            (from + 1) % style.modes
        } else {
            random.below(style.modes)
        };
        self.records.push(vec![0x07, from as u8, to as u8]);
    }

    /// Steady transitions come last, so that others go before where they can.
    fn add_behavior(&mut self, random: &mut Random, style: &Style) {
        for _ in 0..random.within(style.behavior_transitions / 2, style.behavior_transitions) {
            self.add_behavior_transition(random);
        }
        for thread in 0..style.threads {
            if random.chance(style.steady) {
                self.add_steady_transition(random, thread);
            }
        }
    }

    fn add_behavior_transition(&mut self, random: &mut Random) {
        let thread = random.below(self.threads);
        let from = random.one_of(&[0, 0, 0, 1, 1, 2, 7]);
        let to = random.one_of(&[0, 0, 1, 1, 2, 7]);
        self.records.push(vec![0x08, thread as u8, from, to]);
        let most = random.one_of(&[1, 2, 4]);
        let (atoms, assignments) = (random.within(0, most), random.within(0, most));
        self.add_guard(random, thread, atoms);
        self.add_assignments(random, thread, assignments);
    }

    /// From the first behaviour state, mostly back to it, always with a new
    /// value for some output port; now and then it is the last one taken.
    fn add_steady_transition(&mut self, random: &mut Random, thread: usize) {
        let first_state = self.first_state(thread);
        let to = match random.below(100) {
            0..=64 => first_state,
            65..=79 => 1,
            _ => AT_REST,
        };
        self.records.push(vec![0x08, thread as u8, first_state, to]);
        let (readable, outputs) = (self.readable(thread), owned(3, &self.outputs, thread));
        if !outputs.is_empty() {
            let (tag, number) = random.one_of(&outputs);
            let first = any_operand(random, &readable);
            // Up or down, so that values come to both ends.
            let (op, by) = random.one_of(&[(1, 1), (1, 2), (2, 3)]);
            let second = operand(0, by);
            self.records
                .push([&[0x0A, tag, number, op], &first[..], &second].concat());
        }
    }

    fn add_guard(&mut self, random: &mut Random, thread: usize, count: usize) {
        let readable = self.readable(thread);
        if readable.is_empty() {
            return;
        }
        for _ in 0..count {
            let (tag, number) = random.one_of(&readable);
            let left = [0x09, random.below(6) as u8, tag, number];
            let right = any_operand(random, &readable);
            self.records.push([&left[..], &right].concat());
        }
    }

    fn add_assignments(&mut self, random: &mut Random, thread: usize, count: usize) {
        let readable = self.readable(thread);
        let mut targets = owned(2, &self.locals, thread);
        targets.extend(owned(3, &self.outputs, thread));
        let any_op = |random: &mut Random| random.below(3) as u8;
        self.records
            .extend(assignments(random, &readable, targets, count, any_op));
    }

    /// The thread's input ports and locals, as tags and numbers.
    fn readable(&self, thread: usize) -> Vec<(u8, u8)> {
        let mut items = owned(1, &self.inputs, thread);
        items.extend(owned(2, &self.locals, thread));
        items
    }
}

/// Ports and locals of these owners. Half of the input ports have a written
/// start, of any sort.
pub fn items(
    random: &mut Random,
    inputs: &[usize],
    outputs: &[usize],
    locals: &[usize],
) -> Vec<Record> {
    let mut records = Vec::new();
    for &owner in inputs {
        records.push(input_port(random, owner));
    }
    records.extend(outputs.iter().map(|&owner| vec![0x04, owner as u8]));
    for &owner in locals {
        records.push(started(random, 0x05, owner));
    }
    records
}

fn input_port(random: &mut Random, owner: usize) -> Record {
    if random.chance(50) {
        vec![0x03, owner as u8]
    } else {
        started(random, 0x0B, owner)
    }
}

/// A local, or an input port with a written start.
fn started(random: &mut Random, kind: u8, owner: usize) -> Record {
    [&[kind, owner as u8], &random.value().to_le_bytes()[..]].concat()
}

/// Where such a record has its start.
const START_VALUE: Range<usize> = 2..6;

/// Assignment records to some of the targets, each at most once.
pub fn assignments(
    random: &mut Random,
    readable: &[(u8, u8)],
    mut targets: Vec<(u8, u8)>,
    count: usize,
    any_op: impl Fn(&mut Random) -> u8,
) -> Vec<Vec<u8>> {
    let mut records = Vec::new();
    for _ in 0..count.min(targets.len()) {
        let (tag, number) = targets.swap_remove(random.below(targets.len()));
        let left = [0x0A, tag, number, any_op(random)];
        let first = any_operand(random, readable);
        let second = any_operand(random, readable);
        records.push([&left[..], &first, &second].concat());
    }
    records
}

/// The owners of some items; in a chain or ring every thread has the first few.
fn owners(random: &mut Random, style: &Style) -> Vec<usize> {
    if style.threads == 0 {
        return Vec::new();
    }
    let first = if style.shape == Shape::Any {
        0
    } else {
        style.threads
    };
    let more = random.within(style.items / 4, style.items);
    let mut owners: Vec<usize> = (0..first).collect();
    owners.extend((0..more).map(|_| random.below(style.threads)));
    owners
}

/// The items of a thread, as tags and numbers.
pub fn owned(tag: u8, owners: &[usize], thread: usize) -> Vec<(u8, u8)> {
    (0..owners.len())
        .filter(|&item| owners[item] == thread)
        .map(|item| (tag, item as u8))
        .collect()
}

/// A constant, or one of those.
pub fn any_operand(random: &mut Random, readable: &[(u8, u8)]) -> Vec<u8> {
    if readable.is_empty() || random.chance(45) {
        operand(0, random.value())
    } else {
        let (tag, number) = random.one_of(readable);
        operand(tag, number.into())
    }
}

fn mask(random: &mut Random, style: &Style) -> u8 {
    (0..style.modes)
        .filter(|_| random.chance(style.mask))
        .map(|mode| 1 << mode)
        .sum()
}

fn thread(random: &mut Random, style: &Style) -> Record {
    let mut record = vec![0x02];
    for figure in figures(random, style.figures) {
        record.extend((figure as u32).to_le_bytes());
    }
    let critical = random.chance(style.critical);
    let first_state = random.one_of(&[0, 0, 0, 0, 1, 2, 7]);
    record.extend([mask(random, style), critical.into(), first_state]);
    record
}

/// Period, Deadline, Min and Max.
fn figures(random: &mut Random, figures: Figures) -> [usize; 4] {
    match figures {
        Figures::Small => {
            let period = random.one_of(&[1, 2, 3, 4, 5, 6, 6, 8, 8, 12]);
            with_small_lengths(random, period)
        }
        Figures::Roomy => {
            let period = random.one_of(&[3, 4, 6, 6]);
            [period, random.within(2, period), 1, random.within(1, 2)]
        }
        Figures::Coinciding(base) => {
            let period = base * random.one_of(&[1, 1, 1, 2, 4]);
            with_small_lengths(random, period)
        }
        Figures::Extreme => {
            let [period, deadline] = ordered(random);
            let [max, min] = ordered(random);
            [period, deadline, min, max]
        }
        Figures::Far => {
            let period = random.one_of(&[14_050, 17_600, 23_500, 35_200]);
            with_small_lengths(random, period)
        }
        Figures::Long => {
            let period = random.one_of(&[
                999, 1_000, 1_001, 1_024, 31_607, 31_627, 999_983, 999_999, 1_000_000,
            ]);
            with_small_lengths(random, period)
        }
    }
}

/// Often the deadline is the period, and often a job is too long for it.
fn with_small_lengths(random: &mut Random, period: usize) -> [usize; 4] {
    let deadline = if random.chance(50) {
        period
    } else {
        random.within(1, period)
    };
    let min = random.one_of(&[1, 1, 1, 2]);
    let max = min + random.one_of(&[0, 0, 1, 2, 4]);
    [period, deadline, min, max]
}

/// Two figures at ends of ranges, the greater first.
fn ordered(random: &mut Random) -> [usize; 2] {
    let ends = [1, 2, 255, 256, 1_000, 65_535, 65_536, 999_999, 1_000_000];
    let (one, other) = (random.one_of(&ends), random.one_of(&ends[..4]));
    [one.max(other), one.min(other)]
}

/// The most of every kind. The longest table comes from one thread that has all
/// behaviour and sends over all connections, where all is live at the start,
/// nothing starts at 0 and no thread is critical.
fn full(random: &mut Random) -> Vec<Record> {
    let longest = random.chance(50);
    let style = Style {
        modes: 8,
        threads: 16,
        connected: 100,
        immediate: if longest { 100 } else { 50 },
        mask: if longest { 100 } else { 75 },
        critical: if longest { 0 } else { 30 },
        shape: Shape::Ring,
        ..many_threads(random)
    };
    let pairs: Vec<usize> = (0..32).map(|item| item / 2).collect();
    let mut draft = Draft {
        threads: 16,
        inputs: pairs.clone(),
        outputs: if longest { vec![15; 32] } else { pairs.clone() },
        locals: pairs,
        records: vec![vec![0x01, 8, random.within(longest.into(), 7) as u8]],
    };
    for _ in 0..16 {
        draft.records.push(thread(random, &style));
    }
    draft.add_items(random);
    if longest {
        draft.start_beyond_0(random);
    }
    draft.add_connections(random, &style);
    for _ in 0..16 {
        draft.add_mode_transition(random, &style, 0);
    }
    for number in 0..64 {
        let thread = if longest { 15 } else { number % 16 };
        let from = draft.first_state(thread);
        draft.records.push(vec![0x08, thread as u8, from, 1]);
        draft.add_guard(random, thread, 4);
        draft.add_assignments(random, thread, 4);
    }
    draft.records
}

/// A full model with one more record of some kind, which may be wrong besides.
fn one_too_many(random: &mut Random) -> Vec<u8> {
    let mut records = full(random);
    let kind = random.within(0x02, 0x0A) as u8;
    let last = records
        .iter()
        .rposition(|record| place(record[0]) == kind)
        .expect("a full model has every kind");
    let mut one_more = match kind {
        0x03 => input_port(random, 0),
        _ => records[last].clone(),
    };
    if random.chance(50) {
        change_field(random, &mut one_more);
    }
    records.insert(last + 1, one_more);
    records.concat()
}

/// A model with a few records or bytes changed.
fn damaged(random: &mut Random) -> Vec<u8> {
    let styles: [fn(&mut Random) -> Style; 5] = [
        few_threads,
        flowing,
        coinciding_threads,
        extreme_figures,
        long_hyperperiods,
    ];
    let style = random.one_of(&styles);
    let bytes = drawn(random, style);
    damage_records(random, split(&bytes, model_body))
}

/// Few bytes, most of them kinds or small figures.
fn any_bytes(random: &mut Random) -> Vec<u8> {
    let mut bytes: Vec<u8> = (0..random.below(40)).map(|_| random.byte() % 16).collect();
    if random.chance(70) {
        bytes.splice(0..0, [0x01, 2, 0]);
    }
    bytes
}
