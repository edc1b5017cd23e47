//! Random models and damaged bytes, as several tests need them.

/// Marsaglia's xorshift generator of 64 bits.
pub struct Random(pub u64);

impl Random {
    pub fn next(&mut self) -> u64 {
        self.0 ^= self.0 << 13;
        self.0 ^= self.0 >> 7;
        self.0 ^= self.0 << 17;
        self.0
    }

    /// A number below `bound`, which is above 0.
    pub fn below(&mut self, bound: usize) -> usize {
        ((self.next() >> 33) % bound as u64) as usize
    }

    /// A number from `low` to `high`.
    pub fn within(&mut self, low: usize, high: usize) -> usize {
        low + self.below(high - low + 1)
    }

    /// True in `percent` of all calls.
    pub fn chance(&mut self, percent: usize) -> bool {
        self.below(100) < percent
    }

    pub fn one_of<T: Copy>(&mut self, choices: &[T]) -> T {
        choices[self.below(choices.len())]
    }
}

/// What is drawn of a model before its behaviour.
struct Draft {
    modes: usize,
    threads: usize,
    input_owners: Vec<usize>,
    output_owners: Vec<usize>,
    local_owners: Vec<usize>,
    bytes: Vec<u8>,
}

pub fn random_model(random: &mut Random) -> Vec<u8> {
    let mut draft = random_items(random);
    random_connections(random, &mut draft);
    if random.chance(75) {
        for _ in 0..random.within(1, 6) {
            let (from, to) = (random.below(draft.modes), random.below(draft.modes));
            draft.bytes.extend([0x07, from as u8, to as u8]);
        }
    }
    for _ in 0..random.below(9) {
        random_behavior_transition(random, &mut draft);
    }
    draft.bytes
}

/// Head, threads, ports and locals.
fn random_items(random: &mut Random) -> Draft {
    let modes = random.one_of(&[1, 2, 2, 2, 3, 8]);
    let threads = random.within(1, 4);
    let mut bytes = vec![0x01, modes as u8, random.below(modes) as u8];
    for _ in 0..threads {
        random_thread(random, modes, &mut bytes);
    }
    let mut owners = |most: usize| -> Vec<usize> {
        (0..random.below(most + 1))
            .map(|_| random.below(threads))
            .collect()
    };
    let (input_owners, output_owners, local_owners) = (owners(6), owners(5), owners(4));
    for &owner in &input_owners {
        random_input_port(random, owner, &mut bytes);
    }
    bytes.extend(output_owners.iter().flat_map(|&owner| [0x04, owner as u8]));
    for &owner in &local_owners {
        bytes.extend([0x05, owner as u8]);
        bytes.extend(random_value(random).to_le_bytes());
    }
    Draft {
        modes,
        threads,
        input_owners,
        output_owners,
        local_owners,
        bytes,
    }
}

/// With or without a written start.
fn random_input_port(random: &mut Random, owner: usize, bytes: &mut Vec<u8>) {
    if random.chance(50) {
        bytes.extend([0x03, owner as u8]);
    } else {
        bytes.extend([0x0B, owner as u8]);
        bytes.extend(random_value(random).to_le_bytes());
    }
}

fn random_thread(random: &mut Random, modes: usize, bytes: &mut Vec<u8>) {
    let period = random.one_of(&[1, 2, 2, 3, 4, 4, 6, 8]);
    let deadline = if random.chance(40) {
        period
    } else {
        random.within(1, period)
    };
    let bcet = random.within(1, 2);
    let wcet = bcet + random.below(3);
    bytes.push(0x02);
    for figure in [period, deadline, bcet, wcet] {
        bytes.extend((figure as u32).to_le_bytes());
    }
    bytes.extend([
        random_mask(random, modes),
        random.below(2) as u8,
        random.below(3) as u8,
    ]);
}

/// Masks hold many modes, so that something happens.
fn random_mask(random: &mut Random, modes: usize) -> u8 {
    (0..modes)
        .filter(|_| random.chance(65))
        .map(|mode| 1 << mode)
        .sum()
}

fn random_value(random: &mut Random) -> i32 {
    random.one_of(&[0, 1, 2, 3, -1, -2, 255, i32::MAX, i32::MIN])
}

/// Most input ports are fed by some output port, by no more than one.
fn random_connections(random: &mut Random, draft: &mut Draft) {
    for input_port in 0..draft.input_owners.len() {
        if !draft.output_owners.is_empty() && random.chance(80) {
            let output_port = random.below(draft.output_owners.len());
            let timing = random.below(2) as u8;
            let mode_mask = random_mask(random, draft.modes);
            draft
                .bytes
                .extend([0x06, timing, output_port as u8, input_port as u8, mode_mask]);
        }
    }
}

fn random_behavior_transition(random: &mut Random, draft: &mut Draft) {
    let thread = random.below(draft.threads);
    let (from, to) = (random.below(3) as u8, random.below(3) as u8);
    draft.bytes.extend([0x08, thread as u8, from, to]);
    let readable = readable_of(draft, thread);
    if !readable.is_empty() {
        for _ in 0..random.below(3) {
            let (tag, number) = random.one_of(&readable);
            draft
                .bytes
                .extend([0x09, random.below(6) as u8, tag, number]);
            random_operand(random, &readable, &mut draft.bytes);
        }
    }
    let mut targets = targets_of(draft, thread);
    for _ in 0..random.below(4) {
        if targets.is_empty() {
            break;
        }
        let (tag, number) = targets.swap_remove(random.below(targets.len()));
        draft
            .bytes
            .extend([0x0A, tag, number, random.below(3) as u8]);
        random_operand(random, &readable, &mut draft.bytes);
        random_operand(random, &readable, &mut draft.bytes);
    }
}

/// The thread's input ports and locals, as tags and numbers.
fn readable_of(draft: &Draft, thread: usize) -> Vec<(u8, u8)> {
    let mut items = owned(1, &draft.input_owners, thread);
    items.extend(owned(2, &draft.local_owners, thread));
    items
}

/// The thread's locals and output ports, as tags and numbers.
fn targets_of(draft: &Draft, thread: usize) -> Vec<(u8, u8)> {
    let mut items = owned(2, &draft.local_owners, thread);
    items.extend(owned(3, &draft.output_owners, thread));
    items
}

fn owned(tag: u8, owners: &[usize], thread: usize) -> Vec<(u8, u8)> {
    (0..owners.len())
        .filter(|&item| owners[item] == thread)
        .map(|item| (tag, item as u8))
        .collect()
}

fn random_operand(random: &mut Random, readable: &[(u8, u8)], bytes: &mut Vec<u8>) {
    if readable.is_empty() || random.chance(40) {
        bytes.push(0);
        bytes.extend(random_value(random).to_le_bytes());
    } else {
        let (tag, number) = random.one_of(readable);
        bytes.extend([tag, number, 0, 0, 0]);
    }
}

/// Changes, drops or adds a few bytes.
pub fn damage(random: &mut Random, bytes: &mut Vec<u8>) {
    for _ in 0..random.within(1, 2) {
        let byte = random.one_of(&[
            0, 1, 1, 2, 2, 3, 3, 4, 5, 6, 7, 8, 9, 10, 11, 16, 32, 36, 255,
        ]);
        let at = random.below(bytes.len() + 1);
        match random.below(12) {
            0 => bytes.insert(at, byte),
            1 if at < bytes.len() => {
                bytes.remove(at);
            }
            _ if at < bytes.len() => bytes[at] = byte,
            _ => bytes.truncate(at.saturating_sub(1)),
        }
    }
}
