//! The steps of a run, and the variables around those that are drawn.

use futonkestrel::{events, Table};

use super::folding::Piece;
use crate::ends::{stopped, with_ends};
use crate::format::TICK;
use crate::look::Look;
use crate::machine::event_words;
use crate::names::Names;
use crate::rules::rules;
use crate::stops::{Stop, Stops};

/// A line of the listing.
#[derive(Clone, Copy, Debug, PartialEq, Eq)]
pub struct Step {
    /// The very number that the listing has.
    pub number: usize,
    /// The clock before it and after it.
    pub before: i64,
    pub after: i64,
    pub kind: u8,
    /// The thread or mode transition; for TICK, how many ticks.
    pub id: i64,
    /// The job that it stops.
    pub stop: Option<Stop>,
}

impl Step {
    pub fn is_tick(&self) -> bool {
        self.kind == TICK
    }
}

/// The steps that a listing has; its last line is none. What they stop, the script
/// tells, run on the table.
pub fn steps(listing: &[u8], table: &Table, script: &[u8]) -> Vec<Step> {
    let mut steps = listed(listing);
    let (mut variables, mut stops) = (table.start(), Stops::default());
    for (step, event) in steps.iter_mut().zip(events(script)) {
        let before = variables;
        let _ = table.step(&mut variables, event);
        step.stop = stops.see(event, &before, &variables);
    }
    steps
}

fn listed(listing: &[u8]) -> Vec<Step> {
    let mut before = 0;
    let lines = listing.split(|byte| *byte == b'\n');
    let step = |line: &[u8]| {
        let mut figures = std::str::from_utf8(line).ok()?.split(' ');
        let mut figure = || figures.next()?.parse::<i64>().ok();
        let (number, after) = (figure()? as usize, figure()?);
        let step = Step {
            number,
            before,
            after,
            kind: figure()? as u8,
            id: figure()?,
            stop: None,
        };
        before = after;
        Some(step)
    };
    lines.map_while(step).collect()
}

/// A piece of the run with the variables around it.
pub struct Moment {
    pub piece: Piece,
    /// The first and the last step of the piece.
    pub first: Step,
    pub last: Step,
    pub before: Look,
    pub after: Look,
    /// The first step's event in words, with the sums that it stops.
    pub words: String,
    /// Whether it is the first step of an instant.
    pub begins_instant: bool,
}

impl Moment {
    /// A step that takes no time and has a column of its own.
    pub fn is_event(&self) -> bool {
        self.piece.is_one() && !self.first.is_tick()
    }

    /// The job that its step stops; what is folded is told elsewhere.
    pub fn stop(&self) -> Option<Stop> {
        self.first.stop.filter(|_| self.is_event())
    }

    /// Time passes and nothing else happens.
    pub fn is_time(&self) -> bool {
        !self.is_event() && self.piece.hidden.is_none()
    }
}

/// Runs the script on the table as far as it is drawn, and looks at it around
/// each piece.
pub fn moments(
    table: &Table,
    script: &[u8],
    steps: &[Step],
    pieces: &[Piece],
    names: &Names,
) -> Vec<Moment> {
    let (rules, mut variables) = (rules(table.bytes()), table.start());
    let mut moments: Vec<Moment> = Vec::new();
    let mut wanted = pieces.iter();
    let mut next = wanted.next();
    for (at, event) in events(script).enumerate() {
        let Some(piece) = next else { break };
        let before = variables;
        let _ = table.step(&mut variables, event);
        if at == piece.first {
            let ends = stopped(&rules, event, &before, &variables);
            moments.push(Moment {
                piece: piece.clone(),
                first: steps[piece.first],
                last: steps[piece.last],
                before: Look::new(before),
                after: Look::new(variables),
                words: with_ends(&event_words(event, names), &ends, names),
                begins_instant: begins_instant(steps, piece.first),
            });
        }
        if at == piece.last {
            if let Some(moment) = moments.last_mut() {
                moment.after = Look::new(variables);
            }
            next = wanted.next();
        }
    }
    moments
}

/// No time has passed since the step before, unless that was a tick.
fn begins_instant(steps: &[Step], at: usize) -> bool {
    let after_event = at > 0 && !steps[at - 1].is_tick();
    !steps[at].is_tick() && !after_event
}
