//! The causes of refusal by their numbers, and what is handed back.

/// A record without all the bytes of its body.
pub const CUT: u8 = 1;
/// A kind that nobody knows, or that may not stand here; a missing head.
pub const ORDER: u8 = 2;
/// More items than allowed, or more bytes of table.
pub const TOO_MANY: u8 = 3;
/// Any other field that may not be so.
pub const RANGE: u8 = 4;
/// A transition that touches what its thread does not own.
pub const OWNER: u8 = 5;
/// A second connection into a port, a second assignment to a target.
pub const TWICE: u8 = 6;
/// A hyperperiod longer than the clock can run.
pub const HYPERPERIOD: u8 = 7;
/// Too little room for the table.
pub const ROOM: u8 = 8;
/// Bytes that are no event.
pub const EVENT: u8 = 9;
/// An event that may not happen now.
pub const NOT_ENABLED: u8 = 10;
/// A TICK when the clock stands at its end.
pub const LAST_CLOCK: u8 = 11;
/// Mutual exclusion violated: more than one rule could run.
pub const CONFLICTING_RULES: u8 = 12;
/// An inconsistent update set: a variable would be written more than once.
pub const INCONSISTENT_UPDATES: u8 = 13;
/// A number that no item, mode or variable has. Though its number is a late one,
/// it is told right before FAULTY_TIME, and that right before RANGE.
pub const NAMES_NOTHING: u8 = 14;
/// A Period, Deadline, Min or Max that may not be.
pub const FAULTY_TIME: u8 = 15;

/// A refusal: the number of its cause, and the part of the input that it
/// returns, from the offset `start` up to but not with `end`.
#[derive(Clone, Copy, Debug, PartialEq, Eq)]
pub struct Refusal {
    pub number: u8,
    pub start: usize,
    pub end: usize,
}
