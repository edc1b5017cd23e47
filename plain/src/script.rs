//! Events as bytes, and runs over a list of them, on either machine.

use crate::bytes::{extent, u16_at, u32_at, u8_at, Extent};
use crate::refusal::{Refusal, EVENT};

pub const ACTIVATE: u8 = 0x01;
pub const DEACTIVATE: u8 = 0x02;
pub const DISPATCH: u8 = 0x03;
pub const START: u8 = 0x04;
pub const COMPLETE: u8 = 0x05;
pub const DEADLINE: u8 = 0x06;
pub const MISS: u8 = 0x07;
pub const REQUEST: u8 = 0x08;
pub const ENTER: u8 = 0x09;
pub const LEAVE: u8 = 0x0A;
pub const TICK: u8 = 0x0B;

/// The clock never passes this figure.
pub const LAST_NOW: u32 = 1_000_000_000;

/// One event. Fields that its kind does not have are 0.
#[derive(Clone, Copy, Debug, PartialEq, Eq)]
pub struct Event {
    pub kind: u8,
    /// The thread of kinds 01 to 07, the mode transition of kinds 08 to 0A.
    pub id: u8,
    /// The length that a START chooses.
    pub length: u32,
    /// The n of a TICK.
    pub ticks: u16,
}

/// The body length of each event kind.
pub fn body_length(kind: u8) -> Option<usize> {
    match kind {
        START => Some(5),
        TICK => Some(2),
        ACTIVATE..=LEAVE => Some(1),
        _ => None,
    }
}

/// The event of a kind with a whole body.
fn event_of(kind: u8, body: &[u8]) -> Event {
    match kind {
        TICK => Event {
            kind,
            id: 0,
            length: 0,
            ticks: u16_at(body, 0),
        },
        START => Event {
            kind,
            id: u8_at(body, 0),
            length: u32_at(body, 1),
            ticks: 0,
        },
        _ => Event {
            kind,
            id: u8_at(body, 0),
            length: 0,
            ticks: 0,
        },
    }
}

/// Reads the event at a position inside the script: the event and its end, or
/// refusal 9 where it is cut, of unknown kind, or a TICK of none. In the
/// first two cases the part goes on up to the script's end.
pub fn read_event(script: &[u8], start: usize) -> Result<(Event, usize), Refusal> {
    let kind = u8_at(script, start);
    let end = match extent(script, start, body_length(kind)) {
        Extent::Whole(end) => end,
        Extent::Cut | Extent::Unknown => {
            return Err(Refusal {
                number: EVENT,
                start,
                end: script.len(),
            })
        }
    };
    let event = event_of(kind, &script[start + 1..end]);
    if kind == TICK && event.ticks == 0 {
        return Err(Refusal {
            number: EVENT,
            start,
            end,
        });
    }
    Ok((event, end))
}

/// What became of one event of a script.
#[derive(Clone, Copy, Debug, PartialEq, Eq)]
pub struct Answer {
    /// The number of the refusal; 0 means that the event was taken.
    pub number: u8,
    /// The event's part of the script.
    pub start: usize,
    pub end: usize,
    /// The event, where it could be read.
    pub event: Option<Event>,
}

/// Reads and runs the event at a position inside the script. A refused event
/// leaves the state as before it. The next event begins at the answer's end.
pub fn answer_one<S>(
    script: &[u8],
    start: usize,
    state: &mut S,
    step: impl Fn(&S, &Event) -> Result<S, u8>,
) -> Answer {
    let (event, end) = match read_event(script, start) {
        Ok(read) => read,
        Err(refusal) => {
            return Answer {
                number: refusal.number,
                start,
                end: refusal.end,
                event: None,
            }
        }
    };
    match step(state, &event) {
        Ok(next) => {
            *state = next;
            Answer {
                number: 0,
                start,
                end,
                event: Some(event),
            }
        }
        Err(number) => Answer {
            number,
            start,
            end,
            event: Some(event),
        },
    }
}

/// Runs a whole script, going on after refused events, and calls `see` with
/// each answer and the state after it. The result is the count of events taken
/// while none had been refused.
pub fn run_on<S>(
    script: &[u8],
    state: &mut S,
    step: impl Fn(&S, &Event) -> Result<S, u8>,
    mut see: impl FnMut(&Answer, &S),
) -> usize {
    let mut taken = 0;
    let mut refused = false;
    let mut position = 0;
    while position < script.len() {
        let answer = answer_one(script, position, state, &step);
        refused = refused || answer.number != 0;
        if !refused {
            taken += 1;
        }
        see(&answer, state);
        position = answer.end;
    }
    taken
}

/// Runs a script up to its end or to its first refusal, and calls `see` with
/// each answer and the state after it. The result is the events taken and the
/// refusal that stopped the run.
pub fn run<S>(
    script: &[u8],
    state: &mut S,
    step: impl Fn(&S, &Event) -> Result<S, u8>,
    mut see: impl FnMut(&Answer, &S),
) -> (usize, Option<Refusal>) {
    let mut taken = 0;
    let mut position = 0;
    while position < script.len() {
        let answer = answer_one(script, position, state, &step);
        see(&answer, state);
        if answer.number != 0 {
            let Answer {
                number, start, end, ..
            } = answer;
            return (taken, Some(Refusal { number, start, end }));
        }
        taken += 1;
        position = answer.end;
    }
    (taken, None)
}
