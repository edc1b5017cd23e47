//! The limit: the fastest interpreters of models and tables that we know how to
//! write without a proof, to tell how much room is left.
//!
//! Models and tables are decoded once and indexed by kind and id. State is changed
//! in place; a step copies no state and allocates nothing. Time leaps to the next
//! instant at which something can be enabled, and that instant is kept until an
//! event changes the state.
//!
//! Reading is the plain model's: what is measured here begins with an accepted
//! model or table.

mod atoms;
mod events;
mod listing;
mod model;
mod model_machine;
mod switches;
mod table;
mod table_machine;
#[cfg(test)]
mod tests;

pub use events::{read, Event};
pub use listing::Lines;
pub use model::Model;
pub use model_machine::State;
pub use table::Table;
pub use table_machine::{Machine, Scratch};

/// The answers of a step; 0 means that the event was taken.
pub const TAKEN: u8 = 0;

/// Runs a script up to its first refused event: the events taken, and the answer
/// to the next.
pub fn run(
    script: &[u8],
    mut step: impl FnMut(&Event) -> u8,
    mut see: impl FnMut(&Event),
) -> (usize, u8) {
    let (mut at, mut taken) = (0, 0);
    while at < script.len() {
        let Some((event, end)) = read(script, at) else {
            return (taken, plain::refusal::EVENT);
        };
        let answer = step(&event);
        if answer != TAKEN {
            return (taken, answer);
        }
        see(&event);
        taken += 1;
        at = end;
    }
    (taken, TAKEN)
}
