//! Random cases that compare the verified library with the plain model.
//!
//! * [`random`], [`records`]: random numbers, records as bytes
//! * [`models`], [`large`], [`scripts`], [`tables`], [`damage`]: random inputs
//! * [`case`]: the inputs of one case
//! * [`answers`]: what either side says of an input, in one form
//! * [`wanted`], [`found`]: what the plain model says, what the library says
//! * [`loose`]: what is promised of tables and indexes of any content
//! * [`lending`], [`stepped`]: numbers lent to a call; what the library says event
//!   by event on a lent state or by an index, and what is enabled
//! * [`starts`]: what the test for START is asked for, and what it meets
//! * [`stops`]: what the threads that leave meet
//! * [`ends`]: sums and differences that stop at the ends of their range
//! * [`compare`]: the comparisons
//! * [`check`], [`runner`]: one case, many cases
//! * [`tally`], [`reach`], [`refused`]: what they came to, by number, and by kind
//!   of record

pub mod answers;
pub mod case;
pub mod check;
pub mod compare;
pub mod damage;
pub mod ends;
pub mod found;
pub mod large;
pub mod lending;
pub mod loose;
pub mod models;
pub mod random;
pub mod reach;
pub mod records;
pub mod refused;
pub mod runner;
pub mod scripts;
pub mod starts;
pub mod stepped;
pub mod stops;
pub mod tables;
pub mod tally;
pub mod wanted;
