//! What either side says of an input, in one form, so that it can be compared.

use std::fmt::{self, Display, Formatter};

pub use futonkestrel::{Variables, VARIABLES};

use crate::lending::Lending;
use crate::starts::Asked;

/// A refusal's number, 0 for none, and its part.
#[derive(Clone, Copy, Debug, Default, PartialEq, Eq)]
pub struct Told {
    pub number: u32,
    pub start: usize,
    pub end: usize,
}

impl Told {
    /// What is told of a model of so many bytes where there is too little room for
    /// it: its own refusal, else 8 at its end.
    pub fn into_too_little(self, bytes: usize) -> Told {
        if self.number != 0 {
            return self;
        }
        Told {
            number: 8,
            start: bytes,
            end: bytes,
        }
    }
}

/// All that is said of a model or a table, and of a script run on it.
pub struct Said {
    pub read: Told,
    /// The state before any event.
    pub start: After,
    /// Some or all events of the script, run going on after refusals; none
    /// where the model or table is refused.
    pub steps: Vec<Step>,
    pub run: Run,
    /// The same listing into outputs of several lengths.
    pub listings: Vec<Listing>,
    /// What is enabled at the start and after each step.
    pub offers: Vec<Offers>,
    /// The variables as a lent state of a model shows them, there too.
    pub shown: Vec<Variables>,
    /// What a model's test for START is asked for there.
    pub asked: Vec<Vec<Asked>>,
}

/// What is enabled: kind, id, shortest and longest length of each event; and
/// whether a TICK may pass.
#[derive(Clone, Debug, PartialEq, Eq)]
pub struct Offers {
    pub events: Vec<[u32; 4]>,
    pub tick: bool,
}

/// The same as the library lists it: into no room, perhaps into one place too
/// few, and into more than enough, each with what is told and a place behind.
#[derive(Clone, Debug, PartialEq, Eq)]
pub struct Listed {
    pub rooms: Vec<(Lending<u32>, [usize; 3])>,
}

impl Listed {
    /// The list in the last room, as far as it goes.
    pub fn events(&self) -> Vec<[u32; 4]> {
        let (whole, [count, ..]) = self.rooms.last().expect("there is a room");
        let numbers = whole.after.chunks_exact(4).take(*count);
        numbers
            .map(|numbers| numbers.try_into().expect("four"))
            .collect()
    }
}

/// One event of a script.
#[derive(Clone, Debug, PartialEq, Eq)]
pub struct Step {
    /// Its place among the events.
    pub number: usize,
    /// Its part of the script.
    pub start: usize,
    pub end: usize,
    pub after: After,
}

impl Display for Step {
    fn fmt(&self, formatter: &mut Formatter) -> fmt::Result {
        let Step {
            number, start, end, ..
        } = self;
        write!(formatter, "event {number} at bytes {start}..{end}")
    }
}

/// What a call leaves that variables were lent to.
#[derive(Clone, Debug, PartialEq, Eq)]
pub struct After {
    pub answer: u32,
    pub variables: Variables,
    /// What stands behind the variables.
    pub behind: [i32; BEHIND],
}

/// A run up to the first refused event.
#[derive(Clone, Copy, Debug, Default, PartialEq, Eq)]
pub struct Run {
    pub told: Told,
    pub taken: usize,
    pub clock: usize,
}

/// A listing into an output that was filled with [`BYTE`] before.
#[derive(Clone, Debug, PartialEq, Eq)]
pub struct Listing {
    /// The length told for the whole listing.
    pub length: usize,
    pub output: Vec<u8>,
}

/// A translation into an output that was filled with [`BYTE`] before.
#[derive(Clone, Debug, PartialEq, Eq)]
pub struct Translation {
    pub told: Told,
    /// The length told for the table.
    pub length: usize,
    pub output: Vec<u8>,
}

/// What is told of the size of a model's table.
#[derive(Clone, Copy, Debug, Default, PartialEq, Eq)]
pub struct Size {
    pub told: Told,
    pub bytes: usize,
    /// Rules, clauses, atoms and updates.
    pub records: [usize; 4],
}

/// How many places a size takes: start and end of the part refused, bytes, and
/// records of four kinds.
pub const SIZE_PLACES: usize = 7;

impl Size {
    /// A size as it is told into that many places or more.
    pub fn of(told: &Lending<usize>) -> Size {
        let places: [usize; SIZE_PLACES] = told.after[..SIZE_PLACES].try_into().expect("as many");
        let [start, end, bytes, records @ ..] = places;
        Size {
            told: Told {
                number: told.answer,
                start,
                end,
            },
            bytes,
            records,
        }
    }
}

/// What stands in bytes, and in variables, that a call has not written.
pub const BYTE: u8 = 0xA5;
pub const FIGURE: i32 = 0x5A5A_5A5A;

/// How many more variables are lent than the library needs.
pub const BEHIND: usize = 3;

/// Numbers of variables; those of threads are followed by those of the next
/// threads.
pub const NOW: usize = 0;
pub const STATE: usize = 32;
pub const DISPATCH_TIME: usize = 48;
pub const DUE: usize = 64;
pub const END: usize = 80;
pub const BEHAVIOR_STATE: usize = 96;
pub const MISSED: usize = 112;
/// Input ports, buffers, output ports and locals from here on.
pub const FIRST_VALUE: usize = 160;
pub const THREADS: usize = 16;
