//! The test for START in the state that a script leaves.

use crate::model::{self, State};
use crate::refusal::Refusal;
use crate::script::{run_on, Event};

/// Runs a script on a model, going on after refused events, and tells the first
/// step of the test for START that fails then, or 0. A thread is any number.
pub fn start_test(
    model_bytes: &[u8],
    script: &[u8],
    thread: u32,
    length: u32,
) -> Result<u8, Refusal> {
    let model = model::read(model_bytes)?;
    let mut state = model::start_state(&model);
    let step = |state: &State, event: &Event| model::step(&model, state, event);
    run_on(script, &mut state, step, |_, _| {});
    Ok(model::start_test(&model, &state, thread, length))
}
