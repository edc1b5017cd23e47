//! Timing models and rule tables: safe functions over the verified library.
//!
//! A model, a table and a script (a list of events) are bytes, laid out as
//! documents 01 and 02 say. Reading is total: any bytes are accepted, or refused
//! with a number and the part of the input that it concerns.
//!
//! * [`read_model`], [`read_table`]: is this an accepted model or table?
//! * [`translate`], [`translate_to_vec`]: the table made from a model
//! * [`table_size`]: how long that table is, before it is made
//! * [`run_model`], [`run_table`]: a script up to its first refused event
//! * [`model_listing`], [`table_listing`]: the lines of such a run
//! * [`start_test`]: whether START is taken after a script, or the first [`StartStep`]
//!   that fails
//! * [`Model`], [`Table`]: one event after another on a [`State`] or [`Variables`]
//!   of one's own, in any order, and what is [`Enabled`] there
//! * [`refusals`]: what each refusal means, in words
//! * [`raw`]: the same functions with outputs of any length
//!
//! A checker keeps the states that it has met, goes back to any of them and tries
//! what is enabled there. Model and table offer the same events and take them
//! alike, which is proved; here they are walked side by side:
//!
//! ```
//! use futonkestrel::{translate_to_vec, Model, Table};
//!
//! # let bytes = [1, 1, 0, 2, 5, 0, 0, 0, 4, 0, 0, 0, 1, 0, 0, 0, 5, 0, 0, 0, 1, 0, 0];
//! let made = translate_to_vec(&bytes)?;
//! let (model, table) = (Model::read(&bytes)?, Table::read(&made)?);
//! let (mut state, mut variables) = (model.start(), table.start());
//! for _ in 0..3 {
//!     let enabled = model.enabled(&state);
//!     assert_eq!(enabled, table.enabled(&variables));
//!     let event = enabled.events[0].shortest();
//!     assert_eq!(model.step(&mut state, &event), Ok(()));
//!     assert_eq!(table.step(&mut variables, &event), Ok(()));
//! }
//! // The one thread was activated and dispatched, and runs: time may pass.
//! assert!(model.enabled(&state).tick);
//! assert_eq!(model.variables(&state), variables);
//! # Ok::<(), futonkestrel::Refusal>(())
//! ```

use std::error::Error;
use std::fmt;

pub mod raw;
pub mod refusals;
mod start_step;
mod stepping;

use refusals::Holder;
pub use start_step::StartStep;
pub use stepping::{Enabled, Model, Offer, State, Table, MODEL_WORDS, STATE_WORDS};

/// A refusal by its number in documents 01 and 02, and the part that it returns,
/// from offset `start` up to but not with `end`, in what [`Refusal::holder`] names.
/// Printed, it tells the cause and what to do.
#[derive(Clone, Copy, Debug, PartialEq, Eq)]
pub struct Refusal {
    pub number: u32,
    pub start: usize,
    pub end: usize,
}

impl Refusal {
    /// `Err` where a number was told, else `Ok`.
    fn unless_zero(number: u32, start: usize, end: usize) -> Result<(), Refusal> {
        match number {
            0 => Ok(()),
            _ => Err(Refusal { number, start, end }),
        }
    }

    /// What holds the part.
    pub fn holder(&self) -> Holder {
        refusals::meaning_of(self.number).map_or(Holder::Model, |found| found.holder)
    }

    /// Why it was refused, in words.
    pub fn cause(&self) -> &'static str {
        refusals::meaning_of(self.number).map_or("a refusal without a name", |found| found.cause)
    }

    /// What to do about it, in words.
    pub fn remedy(&self) -> &'static str {
        refusals::meaning_of(self.number).map_or("look at the part refused", |found| found.remedy)
    }
}

impl fmt::Display for Refusal {
    fn fmt(&self, f: &mut fmt::Formatter) -> fmt::Result {
        let Refusal { number, start, end } = self;
        let (cause, remedy) = (self.cause(), self.remedy());
        write!(
            f,
            "refused {number} at bytes {start} to {end}: {cause} ({remedy})"
        )
    }
}

impl Error for Refusal {}

/// A run up to its end or to its first refusal.
#[derive(Clone, Copy, Debug, PartialEq, Eq)]
pub struct Run {
    /// What stopped the run. A refused model or table takes no event.
    pub refusal: Option<Refusal>,
    /// The events taken before the refused one, or all.
    pub taken: usize,
    /// The clock at the end.
    pub clock: u32,
}

impl Run {
    fn told(number: u32, told: [usize; 4]) -> Run {
        let [start, end, taken, clock] = told;
        Run {
            refusal: Refusal::unless_zero(number, start, end).err(),
            taken,
            clock: u32::try_from(clock).expect("no clock passes 1,000,000,000"),
        }
    }
}

/// How many variables a table has.
pub const VARIABLES: usize = 288;

/// The state of a table. Variable 0 is the clock. Sums and differences that a step works
/// out, in a model too, stop at the ends of 32 bits.
pub type Variables = [i32; VARIABLES];

/// Room that suffices for the table of every accepted model; some tables take all
/// of it.
pub const ROOM_FOR_TABLE: usize = 174_485;

/// A place for a step before the call: 0 would say that START is taken.
const NOT_TOLD: usize = usize::MAX;

/// The size of a table: its bytes, and its records of each kind but start
/// records, which are in the bytes alone.
#[derive(Clone, Copy, Debug, PartialEq, Eq)]
pub struct Size {
    pub bytes: usize,
    pub rules: usize,
    pub clauses: usize,
    pub atoms: usize,
    pub updates: usize,
}

/// Reads a model.
pub fn read_model(model: &[u8]) -> Result<(), Refusal> {
    let mut told = [0; 2];
    let number = raw::read_model(model, &mut told);
    Refusal::unless_zero(number, told[0], told[1])
}

/// Reads a table. The empty table is accepted.
pub fn read_table(table: &[u8]) -> Result<(), Refusal> {
    let mut told = [0; 2];
    let number = raw::read_table(table, &mut told);
    Refusal::unless_zero(number, told[0], told[1])
}

/// Writes the table made from a model to the start of `output`, and gives its
/// length. Refusal 8 means that `output` is too short. A refusal leaves `output`
/// as it was.
pub fn translate(model: &[u8], output: &mut [u8]) -> Result<usize, Refusal> {
    let mut told = [0; 3];
    let number = raw::translate(model, output, &mut told);
    let [start, end, length] = told;
    Refusal::unless_zero(number, start, end).map(|()| length)
}

/// The size of the table made from a model, without making it. A model is refused
/// as [`translate`] refuses it, and of the others 8 is given there just where
/// `output` is shorter than `bytes`: that is proved.
pub fn table_size(model: &[u8]) -> Result<Size, Refusal> {
    let mut told = [0; 7];
    let number = raw::table_size(model, &mut told);
    let [start, end, bytes, rules, clauses, atoms, updates] = told;
    Refusal::unless_zero(number, start, end).map(|()| Size {
        bytes,
        rules,
        clauses,
        atoms,
        updates,
    })
}

/// The table made from a model.
pub fn translate_to_vec(model: &[u8]) -> Result<Vec<u8>, Refusal> {
    let mut table = vec![0; table_size(model)?.bytes];
    translate(model, &mut table)?;
    Ok(table)
}

/// The lines of a model's run: one for each event taken, then the last one. A
/// refused model has the last line alone.
pub fn model_listing(model: &[u8], script: &[u8]) -> Vec<u8> {
    whole_listing(|output| raw::model_listing(model, script, output))
}

/// As much of [`model_listing`] as `output` has room for. The result is the
/// length of the whole listing.
pub fn model_listing_into(model: &[u8], script: &[u8], output: &mut [u8]) -> usize {
    raw::model_listing(model, script, output)
}

/// The lines of a table's run, as [`model_listing`].
pub fn table_listing(table: &[u8], script: &[u8]) -> Vec<u8> {
    whole_listing(|output| raw::table_listing(table, script, output))
}

/// As much of [`table_listing`] as `output` has room for. The result is the
/// length of the whole listing.
pub fn table_listing_into(table: &[u8], script: &[u8], output: &mut [u8]) -> usize {
    raw::table_listing(table, script, output)
}

/// Asks for the length of a listing, then for all of it.
fn whole_listing(list: impl Fn(&mut [u8]) -> usize) -> Vec<u8> {
    let mut listing = vec![0; list(&mut [])];
    list(&mut listing);
    listing
}

/// Runs a script on a model up to the first refused event.
pub fn run_model(model: &[u8], script: &[u8]) -> Run {
    let mut told = [0; 4];
    let number = raw::run_model(model, script, &mut told);
    Run::told(number, told)
}

/// Runs a script on a table up to the first refused event.
pub fn run_table(table: &[u8], script: &[u8]) -> Run {
    let mut told = [0; 4];
    let number = raw::run_table(table, script, &mut told);
    Run::told(number, told)
}

/// Runs a script on a model from its start, going on after refused events, then
/// gives `event` to the state left: the number of a refused model, with the
/// variables as they were, or the answer to the event. The variables then hold
/// what each of the table's variables stands for afterwards; Due and End are 0
/// there. An empty event is refused with 9 and so shows the state after the
/// script.
pub fn model_after(model: &[u8], script: &[u8], event: &[u8], variables: &mut Variables) -> u32 {
    raw::model_after(model, script, event, variables)
}

/// Runs a script on a model from its start, going on after refused events, and
/// tests START of this thread and length in the state left.
pub fn start_test(
    model: &[u8],
    script: &[u8],
    thread: u32,
    length: u32,
) -> Result<StartStep, Refusal> {
    let mut told = [0, 0, NOT_TOLD];
    let number = raw::start_test(model, script, thread, length, &mut told);
    let [start, end, step] = told;
    Refusal::unless_zero(number, start, end).map(|()| StartStep::told(step))
}

/// The length of the part at the start of a script: a whole event, or the rest
/// of the script where it is cut or of unknown kind; 0 for an empty script.
pub fn event_length(script: &[u8]) -> usize {
    raw::event_length(script)
}

/// The parts of a script, one for each event. Together they are the script.
pub fn events(script: &[u8]) -> Events<'_> {
    Events { rest: script }
}

/// See [`events`].
#[derive(Clone, Debug)]
pub struct Events<'a> {
    rest: &'a [u8],
}

impl<'a> Iterator for Events<'a> {
    type Item = &'a [u8];

    fn next(&mut self) -> Option<&'a [u8]> {
        let (event, rest) = self.rest.split_at(event_length(self.rest));
        self.rest = rest;
        (!event.is_empty()).then_some(event)
    }
}
