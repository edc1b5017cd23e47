//! Large models that run in time: the most of every kind or nearly so, figures
//! at which all threads have their turn, behaviour that goes round through all
//! transitions of a thread, and modes that follow one another.

use crate::models::{any_operand, assignments, items, owned};
use crate::random::Random;
use crate::records::{operand, Record};

/// A model under way.
struct Large {
    modes: usize,
    threads: usize,
    /// Who owns each port and local.
    inputs: Vec<usize>,
    outputs: Vec<usize>,
    locals: Vec<usize>,
    /// Whose each behaviour transition is.
    transitions: Vec<usize>,
    /// In percent, how often a transition is the last one taken.
    resting: usize,
    records: Vec<Record>,
}

pub fn large(random: &mut Random) -> Vec<u8> {
    let most = random.chance(60);
    let modes = if most { 8 } else { random.within(2, 8) };
    let threads = if most { 16 } else { random.within(5, 16) };
    let mut dealt = |greatest: usize| {
        let count = if most {
            greatest
        } else {
            random.within(16, greatest)
        };
        dealt_to(random, threads, count)
    };
    let mut large = Large {
        modes,
        threads,
        inputs: dealt(32),
        outputs: dealt(32),
        locals: dealt(32),
        transitions: dealt(64),
        resting: random.one_of(&[0, 0, 20]),
        records: vec![vec![0x01, modes as u8, random.below(modes) as u8]],
    };
    large.add_threads(random);
    large.add_items(random);
    large.add_connections(random);
    let switches = if most { 16 } else { random.within(modes, 16) };
    large.add_mode_transitions(random, switches);
    large.add_behavior(random);
    large.records.concat()
}

/// The owners of so many items: all threads in turn, in some order.
fn dealt_to(random: &mut Random, threads: usize, count: usize) -> Vec<usize> {
    let mut owners: Vec<usize> = (0..count).map(|item| item % threads).collect();
    random.shuffle(&mut owners);
    owners
}

impl Large {
    /// Sixteen jobs just fit into the shortest period, or do not.
    fn add_threads(&mut self, random: &mut Random) {
        let base = random.one_of(&[8, 12, 20, 24]);
        for thread in 0..self.threads {
            let period = base * random.one_of(&[1, 1, 1, 2]);
            let deadline = if random.chance(60) {
                period
            } else {
                random.within(1, period)
            };
            let longest = random.one_of(&[1, 1, 1, 2]);
            let mut record = vec![0x02];
            for figure in [period, deadline, 1, longest] {
                record.extend((figure as u32).to_le_bytes());
            }
            let critical = random.chance(8);
            let first_state = random.below(self.round_of(thread));
            record.extend([self.mask(random), critical.into(), first_state as u8]);
            self.records.push(record);
        }
    }

    fn mask(&self, random: &mut Random) -> u8 {
        (0..self.modes)
            .filter(|_| random.chance(80))
            .map(|mode| 1 << mode)
            .sum()
    }

    fn add_items(&mut self, random: &mut Random) {
        self.records
            .extend(items(random, &self.inputs, &self.outputs, &self.locals));
    }

    /// One into every input port. Few threads wait for themselves or for those
    /// behind them.
    fn add_connections(&mut self, random: &mut Random) {
        let mut inputs: Vec<usize> = (0..self.inputs.len()).collect();
        random.shuffle(&mut inputs);
        for input in inputs {
            let output = random.below(self.outputs.len());
            let onward = self.outputs[output] < self.inputs[input];
            let immediate = random.chance(if onward { 70 } else { 3 });
            let delayed = u8::from(!immediate);
            let mask = self.mask(random);
            self.records
                .push(vec![0x06, delayed, output as u8, input as u8, mask]);
        }
    }

    /// Every mode has a next one.
    fn add_mode_transitions(&mut self, random: &mut Random, count: usize) {
        let mut transitions: Vec<(usize, usize)> = (0..count)
            .map(|number| match number < self.modes {
                true => (number, (number + 1) % self.modes),
                false => (number % self.modes, random.below(self.modes)),
            })
            .collect();
        random.shuffle(&mut transitions);
        let records = transitions
            .iter()
            .map(|&(from, to)| vec![0x07, from as u8, to as u8]);
        self.records.extend(records);
    }

    /// The transitions of a thread lead from one behaviour state to the next,
    /// and from the last to the first; some to a state that none leaves.
    fn add_behavior(&mut self, random: &mut Random) {
        let mut states = vec![0; self.threads];
        for thread in self.transitions.clone() {
            let from = states[thread];
            let to = (from + 1) % self.round_of(thread);
            states[thread] = to;
            let leads = if random.chance(self.resting) { 7 } else { to };
            self.records
                .push(vec![0x08, thread as u8, from as u8, leads as u8]);
            self.add_guard(random, thread);
            self.add_assignments(random, thread);
        }
    }

    /// How many behaviour states a thread goes through.
    fn round_of(&self, thread: usize) -> usize {
        let own = self.transitions.iter().filter(|&&owner| owner == thread);
        own.count().clamp(1, 7)
    }

    /// Most atoms hold.
    fn add_guard(&mut self, random: &mut Random, thread: usize) {
        let readable = self.readable(thread);
        for _ in 0..random.one_of(&[0, 1, 2, 4, 4]) {
            let (tag, number) = random.one_of(&readable);
            let same = operand(tag, number.into());
            let (op, right) = match random.below(10) {
                0..=3 => (random.one_of(&[0, 3, 5]), same),
                4 => (3, operand(0, i32::MIN)),
                5 => (5, operand(0, i32::MAX)),
                6..=8 => (1, any_operand(random, &readable)),
                _ => (random.below(6) as u8, any_operand(random, &readable)),
            };
            let left = [0x09, op, tag, number];
            self.records.push([&left[..], &right].concat());
        }
    }

    fn add_assignments(&mut self, random: &mut Random, thread: usize) {
        let readable = self.readable(thread);
        let mut targets = owned(2, &self.locals, thread);
        targets.extend(owned(3, &self.outputs, thread));
        let count = random.one_of(&[1, 2, 4]);
        let sums_mostly = |random: &mut Random| random.one_of(&[0, 1, 1, 2, 2]);
        self.records
            .extend(assignments(random, &readable, targets, count, sums_mostly));
    }

    /// The thread's input ports and locals, as tags and numbers.
    fn readable(&self, thread: usize) -> Vec<(u8, u8)> {
        let mut items = owned(1, &self.inputs, thread);
        items.extend(owned(2, &self.locals, thread));
        items
    }
}
