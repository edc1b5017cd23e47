//! What a list of events that are all taken leads to, as several tests need it.

use crate::common::simulation;
use plain::model;
use plain::script::run_on;
use plain::show::show;
use plain::table::Variables;

/// The variables after a script. All its events are taken, and model and table
/// agree.
pub fn variables_after(model_bytes: &[u8], script: &[u8]) -> Variables {
    let answers = simulation(model_bytes, script).expect("model and table agree");
    assert!(
        answers.iter().all(|answer| answer.number == 0),
        "{answers:?}"
    );
    let model = model::read(model_bytes).expect("an accepted model");
    let mut state = model::start_state(&model);
    let step = |state: &_, event: &_| model::step(&model, state, event);
    run_on(script, &mut state, step, |_, _| {});
    show(&model, &state)
}
