//! All orders of events, breadth first, within bounds.

use std::ops::RangeInclusive;

use futonkestrel::Offer;

mod compact;
pub mod condition;
pub mod event;
pub mod fold;
mod layout;
pub mod parse;
mod progress;
pub mod report;
mod store;
pub mod subject;

use condition::Condition;
use event::Event;
use fold::Fold;
use layout::Layout;
pub use progress::Progress;
pub use store::MOST_STATES;
use store::{Added, Store};
use subject::{Parting, Position, Subject};

use crate::format::{MISS, START};
use crate::machine::MOST_TICKS;
use crate::rules::Rule;

const NOW: usize = 0;
/// No tick passes it.
pub const LAST_CLOCK: i32 = 1_000_000_000;
/// An event is named by a byte.
const IDS: usize = 256;

/// Which lengths a START is given.
#[derive(Clone, Copy, Debug, PartialEq, Eq)]
pub enum Lengths {
    Ends,
    All,
}

/// How much time passes at once.
#[derive(Clone, Copy, Debug, PartialEq, Eq)]
pub enum Ticks {
    /// Up to the next instant at which something can happen.
    Next,
    One,
}

/// Which events are tried, and how far it goes.
#[derive(Clone, Copy, Debug, PartialEq, Eq)]
pub struct Bounds {
    pub lengths: Lengths,
    pub ticks: Ticks,
    /// No tick passes this clock.
    pub clock: i32,
    /// Lists of so many events at most.
    pub depth: usize,
    /// So many states at most.
    pub states: usize,
}

/// Why an exploration stopped.
#[derive(Debug, PartialEq, Eq)]
pub enum End {
    /// Every state was gone on from.
    Closed,
    Depth,
    States,
    /// The condition holds in this state.
    Found(usize),
    /// Model and table part after these events.
    Parted(Vec<Event>, Parting),
}

pub struct Search<'a> {
    subject: &'a Subject<'a>,
    layout: Layout,
    bounds: Bounds,
    until: Option<&'a Condition>,
    pub store: Store,
    /// Lists of so many events were all tried.
    pub depth: usize,
    pub taken: u64,
    /// Events refused since two rules or two updates meet.
    pub conflicts: u64,
    pub clock: i32,
    /// After how many events each thread first misses its deadline.
    pub misses: [Option<usize>; IDS],
    /// Room for the key of a state.
    key: Vec<u8>,
}

impl<'a> Search<'a> {
    pub fn new(
        subject: &'a Subject<'a>,
        rules: &[Rule],
        fold: Option<Fold>,
        bounds: Bounds,
        until: Option<&'a Condition>,
    ) -> Search<'a> {
        Search {
            layout: Layout::new(subject.start(), rules, fold),
            subject,
            bounds,
            until,
            store: Store::new(),
            depth: 0,
            taken: 0,
            conflicts: 0,
            clock: 0,
            misses: [None; IDS],
            key: Vec::new(),
        }
    }

    /// Goes through the states in the order in which they are met.
    pub fn run(&mut self, progress: &mut Progress) -> End {
        self.explore(progress).err().unwrap_or(End::Closed)
    }

    fn explore(&mut self, progress: &mut Progress) -> Result<(), End> {
        let mut at = self.layout.start().clone();
        let mut after = at.clone();
        self.meet(&at, None)?;
        let mut first = 0;
        while first < self.store.len() {
            let last = self.store.len();
            if self.depth == self.bounds.depth {
                return Err(End::Depth);
            }
            for state in first..last {
                self.layout.take(self.store.get(state), &mut at);
                self.go_on_from(state, &at, &mut after)?;
                progress.tell(self);
            }
            self.depth += 1;
            first = last;
        }
        Ok(())
    }

    /// Tries every event that can be taken in a state.
    fn go_on_from(&mut self, state: usize, at: &Position, after: &mut Position) -> Result<(), End> {
        let parted = |parting| End::Parted(self.store.trail(state), parting);
        let enabled = self.subject.enabled(at).map_err(parted)?;
        for offer in enabled.events {
            for number in self.numbers(&offer) {
                let Offer { kind, id, .. } = offer;
                after.become_like(at);
                self.try_event(state, Event { kind, id, number }, after)?;
            }
        }
        match self.ticks(at, enabled.tick) {
            0 => Ok(()),
            ticks => {
                after.become_like(at);
                self.try_event(state, Event::tick(ticks), after)
            }
        }
    }

    /// Gives an event to a copy of a state.
    fn try_event(&mut self, state: usize, event: Event, copy: &mut Position) -> Result<(), End> {
        let from = Some((state, event));
        let answer = self.subject.step(copy, event);
        if answer
            .map_err(|parting| self.parted(from, parting))?
            .is_err()
        {
            self.conflicts += 1;
            return Ok(());
        }
        self.taken += 1;
        if event.kind == MISS {
            self.misses[usize::from(event.id)].get_or_insert(self.depth + 1);
        }
        self.meet(copy, from)
    }

    /// Keeps a state that was not met before.
    fn meet(&mut self, at: &Position, from: Option<(usize, Event)>) -> Result<(), End> {
        let compared = self.subject.compare(at);
        compared.map_err(|parting| self.parted(from, parting))?;
        self.key.clear();
        self.layout.put_key(at, &mut self.key);
        let put_rest = |bytes: &mut Vec<u8>| self.layout.put_rest(at, bytes);
        let most = self.bounds.states;
        match self.store.add(&self.key, put_rest, from, most) {
            Added::Known => return Ok(()),
            Added::Full => return Err(End::States),
            Added::New => {}
        }
        self.clock = self.clock.max(at.variables[NOW]);
        let takes = || self.subject.takes(at);
        match self.until {
            Some(until) if until.holds(&at.variables, &takes) => {
                Err(End::Found(self.store.len() - 1))
            }
            _ => Ok(()),
        }
    }

    /// Model and table part after the events that lead to a state, and one more.
    fn parted(&self, from: Option<(usize, Event)>, parting: Parting) -> End {
        let trail = |(state, event)| [self.store.trail(state), vec![event]].concat();
        End::Parted(from.map(trail).unwrap_or_default(), parting)
    }

    /// The lengths that a START is given; one event of any other kind.
    fn numbers(&self, offer: &Offer) -> impl Iterator<Item = u32> {
        let Offer {
            kind, low, high, ..
        } = *offer;
        let (lengths, last): (RangeInclusive<u32>, Option<u32>) = match self.bounds.lengths {
            _ if kind != START => (0..=0, None),
            Lengths::All => (low..=high, None),
            Lengths::Ends => (low..=low, (low < high).then_some(high)),
        };
        lengths.chain(last)
    }

    /// The clock of a state.
    pub fn clock_of(&self, state: usize) -> i32 {
        let mut at = self.layout.start().clone();
        self.layout.take(self.store.get(state), &mut at);
        at.variables[NOW]
    }

    /// How many ticks pass from a state, where one may.
    fn ticks(&self, at: &Position, may_tick: bool) -> u16 {
        let left = self.bounds.clock.saturating_sub(at.variables[NOW]).max(0);
        let bound = u16::try_from(left).unwrap_or(MOST_TICKS);
        match self.bounds.ticks {
            _ if !may_tick => 0,
            Ticks::One => bound.min(1),
            Ticks::Next => self.subject.ticks_to_next(&at.variables, bound),
        }
    }
}
