//! A plain implementation of document 01, "Pad timing models and their rule
//! tables", with the changes W1 to W6 of document 02.
//!
//! It reads a timing model from bytes, runs event lists on it, translates it
//! into a rule table, reads rule tables from bytes and runs event lists on
//! them. It is written from the documents alone, sentence by sentence, and seeks
//! neither speed nor elegance: each function does what one sentence says, and
//! its comment names that sentence in other words. Another implementation can
//! be tested against it, since the two share no line.
//!
//! * [`bytes`]: readers of integers, least byte first, and the extent of a record
//! * [`refusal`]: the numbers of the causes, with two for names and times (W3),
//!   and the part handed back
//! * [`sums`]: add and subtract, for values and updates alike, up to the ends (W6)
//! * [`script`]: reading events, and runs that stop at or go on after refusals
//! * [`model`]: reading a model, with written starts of input ports (W2), and the
//!   model's machine, which stops threads that leave (W5)
//! * [`table`]: reading and writing a table, and the table's machine
//! * [`translate`]: the table made from a model
//! * [`size`]: the size of that table, told without making it (W1)
//! * [`listing`]: the lines that the programs `steps` and `rules` print
//! * [`start_test`]: what START fails at in the state that a script leaves (W4)
//! * [`show`]: a state of the model written as the table's variables
//! * [`offers`]: what is enabled, of a model and of a table
//!
//! Reading is total: any bytes at all give either an accepted model, table or
//! event, or a refusal.

pub mod bytes;
pub mod listing;
pub mod model;
pub mod offers;
pub mod refusal;
pub mod script;
pub mod show;
pub mod size;
pub mod start_test;
pub mod sums;
pub mod table;
pub mod translate;
