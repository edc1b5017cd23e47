//! Long scripts whose events are all taken.

use plain::model::{self, Model, State, EXECUTION, WAITING_DISPATCH, WAITING_MODE};
use plain::script::{
    read_event, ACTIVATE, COMPLETE, DEACTIVATE, DEADLINE, DISPATCH, ENTER, LEAVE, MISS, REQUEST,
    START, TICK,
};

/// A mode change is asked for now and then: each time after so many TICKs.
const TICKS_TO_REQUEST: usize = 100;

/// A script that can be cut after any number of events.
#[derive(Default)]
pub struct Script {
    bytes: Vec<u8>,
    /// Where each event ends.
    ends: Vec<usize>,
    /// How many ticks the events up to each have.
    ticks: Vec<u64>,
}

impl Script {
    /// The first events of a model's run, up to so many events and ticks.
    pub fn of(model: &Model, events: usize, ticks: u64) -> Script {
        let mut writer = Writer {
            model,
            state: model::start_state(model),
            script: Script::default(),
            starts: 0,
            waits: 0,
        };
        while writer.script.events() < events && writer.script.all_ticks() < ticks {
            writer.add_next();
        }
        writer.script
    }

    /// The same with TICKs of 1 only, up to so many events.
    pub fn tick_by_tick(&self, events: usize) -> Script {
        let mut script = Script::default();
        for number in 0..self.events() {
            let event = self.event(number);
            let (times, event) = match event {
                [TICK, low, high] => (u16::from_le_bytes([*low, *high]), &[TICK, 1, 0][..]),
                _ => (1, event),
            };
            for _ in 0..times {
                if script.events() == events {
                    return script;
                }
                script.add(event);
            }
        }
        script
    }

    /// The bytes of the first events.
    pub fn first(&self, events: usize) -> &[u8] {
        &self.bytes[..self.begin(events)]
    }

    pub fn events(&self) -> usize {
        self.ends.len()
    }

    /// How many ticks the first events have.
    pub fn ticks(&self, events: usize) -> u64 {
        events.checked_sub(1).map_or(0, |last| self.ticks[last])
    }

    fn all_ticks(&self) -> u64 {
        self.ticks(self.events())
    }

    fn begin(&self, event: usize) -> usize {
        event.checked_sub(1).map_or(0, |before| self.ends[before])
    }

    fn event(&self, number: usize) -> &[u8] {
        &self.bytes[self.begin(number)..self.ends[number]]
    }

    fn add(&mut self, event: &[u8]) {
        let ticks = match event {
            [TICK, low, high] => u64::from(u16::from_le_bytes([*low, *high])),
            _ => 0,
        };
        self.ticks.push(self.all_ticks() + ticks);
        self.bytes.extend(event);
        self.ends.push(self.bytes.len());
    }
}

struct Writer<'a> {
    model: &'a Model,
    state: State,
    script: Script,
    starts: usize,
    waits: usize,
}

impl Writer<'_> {
    /// Adds an event that the model takes.
    fn add_next(&mut self) {
        let event = self.urgent().unwrap_or_else(|| self.request_or_tick());
        if !self.give(&event) {
            // A START can come to be enabled without an instant of its own.
            assert!(self.give(&tick(1)), "TICK 1 is taken");
        }
    }

    /// Adds an event where the model takes it.
    fn give(&mut self, event: &[u8]) -> bool {
        let (read, _) = read_event(event, 0).expect("an event");
        match model::step(self.model, &self.state, &read) {
            Err(_) => false,
            Ok(next) => {
                self.state = next;
                self.script.add(event);
                true
            }
        }
    }

    /// An enabled event that time waits for.
    fn urgent(&mut self) -> Option<Vec<u8>> {
        let kinds = [
            COMPLETE, DEADLINE, MISS, LEAVE, ENTER, ACTIVATE, DEACTIVATE, DISPATCH, START,
        ];
        let enabled = kinds.into_iter().find_map(|kind| {
            let count = match kind {
                ENTER | LEAVE => self.model.mode_transitions.len(),
                _ => self.model.threads.len(),
            } as u8;
            (0..count)
                .find(|&id| model::enabled(self.model, &self.state, kind, id))
                .map(|id| (kind, id))
        });
        enabled.map(|(kind, id)| match kind {
            START => self.start(id),
            _ => vec![kind, id],
        })
    }

    /// The lengths go from Min to Max in turn.
    fn start(&mut self, id: u8) -> Vec<u8> {
        let thread = &self.model.threads[usize::from(id)];
        let steps = self.starts as u64 % 3;
        self.starts += 1;
        let length = thread.bcet.0 + (thread.wcet.0 - thread.bcet.0) * steps / 2;
        [&[START, id], &(length as u32).to_le_bytes()[..]].concat()
    }

    fn request_or_tick(&mut self) -> Vec<u8> {
        self.waits += 1;
        if self.waits.is_multiple_of(TICKS_TO_REQUEST) {
            let transitions = &self.model.mode_transitions;
            let leaving = transitions
                .iter()
                .position(|transition| transition.from == self.state.mode);
            if let Some(leaving) = leaving {
                return vec![REQUEST, leaving as u8];
            }
        }
        tick(self.ticks_to_next_instant().clamp(1, 65_535) as u16)
    }

    /// The ticks up to the first dispatch, due, end or mode change.
    fn ticks_to_next_instant(&self) -> u64 {
        let now = self.state.now.0;
        let up_to_multiple = |period: model::Duration| period.0 - now % period.0;
        let mut waits: Vec<u64> = Vec::new();
        for (number, own) in self.state.threads.iter().enumerate() {
            match own.code {
                WAITING_MODE => {}
                WAITING_DISPATCH => waits.push(up_to_multiple(self.model.threads[number].period)),
                _ => waits.push(
                    model::due(self.model, &self.state, number)
                        .0
                        .saturating_sub(now),
                ),
            }
            if own.code == EXECUTION {
                waits.push(own.length.0 - own.spent.0);
            }
        }
        let pending = usize::from(self.state.pending);
        if let Some(transition) = self.model.mode_transitions.get(pending) {
            waits.push(up_to_multiple(transition.hyperperiod_old));
            waits.push(up_to_multiple(transition.hyperperiod_common));
        }
        let next = waits.into_iter().filter(|&wait| wait > 0).min();
        next.unwrap_or(u64::MAX)
    }
}

fn tick(count: u16) -> Vec<u8> {
    [&[TICK], &count.to_le_bytes()[..]].concat()
}
