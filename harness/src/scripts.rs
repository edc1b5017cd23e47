//! Random scripts: some that a model takes far, some that are refused often,
//! and some with damaged bytes.

use std::ops::RangeInclusive;

use plain::model::{
    self, Model, State, COMPLETED, EXECUTION, NONE, WAITING_DISPATCH, WAITING_EXECUTION,
    WAITING_MODE,
};
use plain::script::{
    read_event, ACTIVATE, COMPLETE, DEACTIVATE, DEADLINE, DISPATCH, ENTER, LAST_NOW, LEAVE, MISS,
    REQUEST, START, TICK,
};

use crate::damage::damage_bytes;
use crate::random::Random;

/// How much one script may ask for. A tick costs as much as an event.
#[derive(Clone, Copy)]
pub struct Budget {
    pub events: usize,
    pub ticks: usize,
}

/// A script for an accepted model in some state.
pub fn script(random: &mut Random, model: &Model, state: State, budget: Budget) -> Vec<u8> {
    let noise = random.one_of(&[0, 0, 0, 5, 10, 25, 70]);
    let mut writer = Writer {
        model,
        state,
        noise,
        ticks: budget.ticks,
        script: Vec::new(),
    };
    for _ in 0..budget.events {
        let event = writer.event(random);
        writer.give(event);
        if writer.is_at_the_end() && random.chance(30) {
            break;
        }
    }
    let mut script = writer.script;
    if random.chance(8) {
        script.extend(broken_event(random));
    }
    if random.chance(6) {
        damage_bytes(random, &mut script);
    }
    script
}

/// A short script that knows nothing of what it is for.
pub fn any_script(random: &mut Random) -> Vec<u8> {
    let mut script: Vec<u8> = (0..random.below(8))
        .flat_map(|_| any_event(random))
        .collect();
    if random.chance(20) {
        script.extend(broken_event(random));
    }
    script
}

/// Cut, of unknown kind, or a TICK of none.
pub fn broken_event(random: &mut Random) -> Vec<u8> {
    let broken: [&[u8]; 8] = [
        &[TICK, 0, 0],
        &[TICK],
        &[TICK, 1],
        &[START, 0, 1, 0, 0],
        &[COMPLETE],
        &[0x00],
        &[0x0C, 1, 0],
        &[0xFF, TICK, 1, 0],
    ];
    random.one_of(&broken).to_vec()
}

/// Any kind, with an id that may name nothing and a length that may be too
/// great.
pub fn any_event(random: &mut Random) -> Vec<u8> {
    let kind = random.within(0x01, 0x0B) as u8;
    let id = random.one_of(&[0, 0, 1, 1, 2, 3, 15, 16, 254, 255]);
    match kind {
        TICK => tick(random.one_of(&[1, 1, 1, 2, 3])),
        START => start(id, random.one_of(&[0, 1, 1, 2, 3, 1_000_000, u32::MAX])),
        _ => vec![kind, id],
    }
}

pub fn tick(count: u16) -> Vec<u8> {
    [&[TICK], &count.to_le_bytes()[..]].concat()
}

pub fn start(id: u8, length: u32) -> Vec<u8> {
    [&[START, id], &length.to_le_bytes()[..]].concat()
}

/// Whether threads are to be deactivated, and nothing else is to be done.
fn only_deactivate(urgent: &[(u8, u8)]) -> bool {
    urgent.iter().all(|&(kind, _)| kind == DEACTIVATE)
}

/// A script under way, and the state of a run that goes on after refusals.
struct Writer<'a> {
    model: &'a Model,
    state: State,
    /// How often, in percent, an event is not chosen from the enabled ones.
    noise: usize,
    ticks: usize,
    script: Vec<u8>,
}

impl Writer<'_> {
    /// Runs the event and writes it down.
    fn give(&mut self, event: Vec<u8>) {
        if let Ok((read, _)) = read_event(&event, 0) {
            if let Ok(next) = model::step(self.model, &self.state, &read) {
                self.state = next;
            }
        }
        self.script.extend(event);
    }

    /// Whether there is no more time, and nothing is left to be done.
    fn is_at_the_end(&self) -> bool {
        self.state.now.0 >= u64::from(LAST_NOW) && self.urgent().is_empty()
    }

    /// Mostly an event that is enabled now.
    fn event(&mut self, random: &mut Random) -> Vec<u8> {
        if random.chance(self.noise) {
            return self.noisy_event(random);
        }
        if self.noise > 0 && random.chance(30) {
            if let Some((kind, id)) = self.held_back(random) {
                return self.event_of(random, kind, id);
            }
        }
        let urgent = self.urgent();
        if random.chance(self.request_chance(&urgent)) {
            return vec![REQUEST, self.request(random)];
        }
        if urgent.is_empty() {
            return self.tick_onward(random);
        }
        if self.noise > 0 && only_deactivate(&urgent) && random.chance(40) {
            // Time waits for threads that leave.
            return tick(1);
        }
        if self.state.now.0 == u64::from(LAST_NOW) && random.chance(30) {
            // What is due goes before the clock's end.
            return tick(1);
        }
        let (mut kind, mut id) = random.one_of(&urgent);
        if random.chance(30) {
            // Mode changes stand last; taken first they meet idle threads.
            (kind, id) = urgent[urgent.len() - 1];
        }
        self.event_of(random, kind, id)
    }

    /// The enabled events that time waits for.
    fn urgent(&self) -> Vec<(u8, u8)> {
        let threads = self.model.threads.len() as u8;
        let transitions = self.model.mode_transitions.len() as u8;
        let of = |kinds: RangeInclusive<u8>, count: u8| {
            kinds.flat_map(move |kind| (0..count).map(move |id| (kind, id)))
        };
        of(ACTIVATE..=MISS, threads)
            .chain(of(ENTER..=LEAVE, transitions))
            .filter(|&(kind, id)| model::enabled(self.model, &self.state, kind, id))
            .collect()
    }

    /// In percent. More often where a job ends, so that the mode changes beside it.
    fn request_chance(&self, urgent: &[(u8, u8)]) -> usize {
        let ends = |&(kind, _): &(u8, u8)| matches!(kind, COMPLETE | DEADLINE | MISS);
        match self.model.mode_transitions.is_empty() {
            true => 0,
            false if urgent.iter().any(ends) => 15,
            false => 8,
        }
    }

    /// A DISPATCH or START that nothing holds back but another thread, or the stop
    /// of a thread that leaves, which nothing holds back but that it is critical.
    fn held_back(&self, random: &mut Random) -> Option<(u8, u8)> {
        let id = random.below(self.model.threads.len().max(1));
        let own = self.state.threads.get(id)?;
        let kind = match own.code {
            WAITING_EXECUTION | EXECUTION | COMPLETED if !own.active => DEACTIVATE,
            WAITING_DISPATCH if own.active && self.now_is_multiple(id) => DISPATCH,
            WAITING_EXECUTION if self.state.cpu == NONE && !self.due_now(id) => START,
            _ => return None,
        };
        let enabled = model::enabled(self.model, &self.state, kind, id as u8);
        (!enabled).then_some((kind, id as u8))
    }

    fn now_is_multiple(&self, thread: usize) -> bool {
        self.state
            .now
            .is_multiple(self.model.threads[thread].period)
    }

    fn due_now(&self, thread: usize) -> bool {
        model::due(self.model, &self.state, thread) == self.state.now
    }

    /// The event of a kind and id; START mostly with its least or greatest
    /// length.
    fn event_of(&self, random: &mut Random, kind: u8, id: u8) -> Vec<u8> {
        match self.model.threads.get(usize::from(id)) {
            Some(thread) if kind == START => {
                let (min, max) = (thread.bcet.0 as u32, thread.wcet.0 as u32);
                let chosen = random.within(min.min(max) as usize, max as usize) as u32;
                let outside = random.one_of(&[min.wrapping_sub(1), max + 1, 0, u32::MAX]);
                let length = match random.below(100) {
                    0..=34 => min,
                    35..=69 => max,
                    _ if random.chance(self.noise) => outside,
                    _ => chosen,
                };
                start(id, length)
            }
            _ => vec![kind, id],
        }
    }

    /// Mostly a transition that leaves the present mode.
    fn request(&self, random: &mut Random) -> u8 {
        let transitions = &self.model.mode_transitions;
        let leaving: Vec<usize> = (0..transitions.len())
            .filter(|&number| transitions[number].from == self.state.mode)
            .collect();
        if leaving.is_empty() || random.chance(20) {
            random.below(transitions.len()) as u8
        } else {
            random.one_of(&leaving) as u8
        }
    }

    /// Mostly up to the next instant at which something can happen.
    fn tick_onward(&mut self, random: &mut Random) -> Vec<u8> {
        let next = self.ticks_to_next_instant().unwrap_or(self.ticks);
        let wanted = match random.below(100) {
            0..=69 => next,
            70..=84 => 1,
            85..=94 => random.within(1, next.clamp(1, 100)),
            _ if random.chance(self.noise) => next + 1,
            _ => next,
        };
        let room = u64::from(LAST_NOW).saturating_sub(self.state.now.0) as usize;
        let wanted = match random.chance(80) {
            true => wanted.min(room),
            false => wanted,
        };
        let count = wanted.clamp(1, self.ticks.clamp(1, 65_535));
        self.ticks = self.ticks.saturating_sub(count);
        tick(count as u16)
    }

    /// The ticks up to the first dispatch, due, end or mode change.
    fn ticks_to_next_instant(&self) -> Option<usize> {
        let now = self.state.now.0;
        let up_to_multiple = |period: model::Duration| period.0 - now % period.0;
        let due = |thread| model::due(self.model, &self.state, thread).0;
        let mut waits: Vec<u64> = Vec::new();
        for (number, own) in self.state.threads.iter().enumerate() {
            match own.code {
                WAITING_MODE => {}
                WAITING_DISPATCH => waits.push(up_to_multiple(self.model.threads[number].period)),
                _ => waits.push(due(number).saturating_sub(now)),
            }
            if own.code == EXECUTION {
                waits.push(own.length.0.saturating_sub(own.spent.0));
            }
        }
        let pending = usize::from(self.state.pending);
        if let Some(transition) = self.model.mode_transitions.get(pending) {
            waits.push(up_to_multiple(transition.hyperperiod_old));
            waits.push(up_to_multiple(transition.hyperperiod_common));
        }
        let next = waits.into_iter().filter(|&wait| wait > 0).min();
        next.map(|wait| wait as usize)
    }

    /// An event that is likely to be refused.
    fn noisy_event(&mut self, random: &mut Random) -> Vec<u8> {
        match random.below(10) {
            0 => any_event(random),
            1 => tick(0),
            2 => vec![
                REQUEST,
                random.below(self.model.mode_transitions.len() + 1) as u8,
            ],
            3 | 4 => tick(random.one_of(&[1, 1, 2, 3])),
            _ => self.tempting_event(random),
        }
    }

    /// An event that fits a thread's code or the phase, whatever else may hold
    /// it back.
    fn tempting_event(&self, random: &mut Random) -> Vec<u8> {
        let id = random.below(self.model.threads.len().max(1));
        let code = self.state.threads.get(id).map(|own| own.code);
        let kind = match code {
            Some(0) => random.one_of(&[ACTIVATE, DISPATCH]),
            Some(1) => random.one_of(&[DEACTIVATE, DISPATCH, DISPATCH]),
            Some(2) => random.one_of(&[START, START, MISS, DEACTIVATE]),
            Some(3) => random.one_of(&[COMPLETE, MISS, DEACTIVATE]),
            Some(_) => random.one_of(&[DEADLINE, MISS, DEACTIVATE]),
            None => random.one_of(&[ENTER, LEAVE]),
        };
        if random.chance(15) {
            let transition = random.below(self.model.mode_transitions.len().max(1));
            return vec![random.one_of(&[ENTER, LEAVE]), transition as u8];
        }
        self.event_of(random, kind, id as u8)
    }
}
