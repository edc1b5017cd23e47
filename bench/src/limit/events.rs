//! Events as they are read from a script.

use plain::script::{ACTIVATE, LEAVE, START, TICK};

#[derive(Clone, Copy)]
pub struct Event {
    pub kind: u8,
    pub id: u8,
    /// The length that a START chooses, or the ticks of a TICK.
    pub figure: u32,
}

/// The event at a place of a script and its end; nothing where there is none.
#[inline(always)]
pub fn read(script: &[u8], at: usize) -> Option<(Event, usize)> {
    let kind = script[at];
    match kind {
        START => {
            let &[_, id, a, b, c, d] = script.get(at..at + 6)? else {
                return None;
            };
            let figure = u32::from_le_bytes([a, b, c, d]);
            Some((Event { kind, id, figure }, at + 6))
        }
        TICK => {
            let &[_, low, high] = script.get(at..at + 3)? else {
                return None;
            };
            let figure = u32::from(u16::from_le_bytes([low, high]));
            let id = 0;
            (figure > 0).then_some((Event { kind, id, figure }, at + 3))
        }
        ACTIVATE..=LEAVE => {
            let (id, figure) = (*script.get(at + 1)?, 0);
            Some((Event { kind, id, figure }, at + 2))
        }
        _ => None,
    }
}
