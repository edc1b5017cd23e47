//! An event of a list, in as little room as it needs.

use std::ops::Deref;

use futonkestrel::Offer;

use crate::format::{START, TICK};

#[derive(Clone, Copy, Debug, PartialEq, Eq)]
pub struct Event {
    pub kind: u8,
    /// The thread or mode transition; 0 for TICK.
    pub id: u8,
    /// START's length, TICK's ticks; else 0.
    pub number: u32,
}

/// The longest event has so many bytes.
const LONGEST: usize = 6;

/// An event as a script has it.
pub struct Bytes {
    bytes: [u8; LONGEST],
    length: usize,
}

impl Deref for Bytes {
    type Target = [u8];

    fn deref(&self) -> &[u8] {
        &self.bytes[..self.length]
    }
}

impl Event {
    /// What is offered, a START with its shortest length.
    pub fn shortest(offer: &Offer) -> Event {
        Event {
            kind: offer.kind,
            id: offer.id,
            number: offer.low,
        }
    }

    pub fn tick(ticks: u16) -> Event {
        Event {
            kind: TICK,
            id: 0,
            number: u32::from(ticks),
        }
    }

    pub fn bytes(self) -> Bytes {
        let Event { kind, id, number } = self;
        let [a, b, c, d] = number.to_le_bytes();
        let (bytes, length) = match kind {
            START => ([kind, id, a, b, c, d], LONGEST),
            TICK => ([kind, a, b, 0, 0, 0], 3),
            _ => ([kind, id, 0, 0, 0, 0], 2),
        };
        Bytes { bytes, length }
    }
}

/// A list of events as a script.
pub fn script(events: &[Event]) -> Vec<u8> {
    events
        .iter()
        .flat_map(|event| event.bytes().to_vec())
        .collect()
}
