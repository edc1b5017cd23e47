//! The two machines run side by side, as several tests need them.

use plain::model::{self, Model, State};
use plain::offers;
use plain::script::{answer_one, run, Answer, Event, TICK};
use plain::show::first_difference;
use plain::table::{self, Table, Variables, LONGEST_TABLE};
use plain::translate::translate;

/// The accepted model and the table read back from the bytes made of it.
pub fn model_and_table(model_bytes: &[u8]) -> Result<(Model, Table), String> {
    let model = model::read(model_bytes).map_err(|refusal| format!("model: {refusal:?}"))?;
    let bytes = translate(model_bytes, LONGEST_TABLE)
        .map_err(|refusal| format!("translation: {refusal:?}"))?;
    let table = table::read(&bytes).map_err(|refusal| format!("table: {refusal:?}"))?;
    Ok((model, table))
}

/// Runs a script on a model and on its table, going on after refused events.
/// Answers, parts, variables and what is enabled must agree at the start and
/// after each event, and so must the runs that stop at the first refusal. Gives all the answers.
pub fn simulation(model_bytes: &[u8], script: &[u8]) -> Result<Vec<Answer>, String> {
    let (model, table) = model_and_table(model_bytes)?;
    let mut state = model::start_state(&model);
    let mut variables = table::start_state(&table);
    if let Some(variable) = first_difference(&model, &state, &variables) {
        return Err(format!("at the start: variable {variable}"));
    }
    offers_agree(&model, &state, &table, &variables)?;
    let mut answers = Vec::new();
    let mut position = 0;
    while position < script.len() {
        let of_model = answer_one(script, position, &mut state, |state, event| {
            model::step(&model, state, event)
        });
        let of_table = answer_one(script, position, &mut variables, |variables, event| {
            table::step(&table, variables, event)
        });
        if of_model != of_table {
            return Err(format!(
                "event at {position}: {of_model:?} but {of_table:?}"
            ));
        }
        if let Some(variable) = first_difference(&model, &state, &variables) {
            return Err(format!(
                "after the event at {position}: variable {variable}"
            ));
        }
        offers_agree(&model, &state, &table, &variables)?;
        answers.push(of_model);
        position = of_model.end;
    }
    stopping_runs_agree(&model, &table, script, &answers)?;
    Ok(answers)
}

/// The same events are enabled in both, and a TICK where it is said to be.
fn offers_agree(
    model: &Model,
    state: &State,
    table: &Table,
    variables: &Variables,
) -> Result<(), String> {
    let of_model = offers::of_model(model, state);
    let of_table = offers::of_table(table, variables);
    if of_model != of_table {
        return Err(format!("enabled: {of_model:?} but {of_table:?}"));
    }
    let tick = Event {
        kind: TICK,
        id: 0,
        length: 0,
        ticks: 1,
    };
    if of_model.tick != model::step(model, state, &tick).is_ok() {
        return Err(format!("TICK 1 is not answered as told by {of_model:?}"));
    }
    Ok(())
}

/// Both runs that stop at the first refusal end where the answers say.
fn stopping_runs_agree(
    model: &Model,
    table: &Table,
    script: &[u8],
    answers: &[Answer],
) -> Result<(), String> {
    let mut state = model::start_state(model);
    let of_model = run(
        script,
        &mut state,
        |state, event| model::step(model, state, event),
        |_, _| {},
    );
    let mut variables = table::start_state(table);
    let of_table = run(
        script,
        &mut variables,
        |variables, event| table::step(table, variables, event),
        |_, _| {},
    );
    let taken = answers
        .iter()
        .take_while(|answer| answer.number == 0)
        .count();
    if of_model != of_table || of_model.0 != taken {
        return Err(format!(
            "stopping runs: {of_model:?}, {of_table:?}, taken {taken}"
        ));
    }
    match first_difference(model, &state, &variables) {
        Some(variable) => Err(format!("after the stopping runs: variable {variable}")),
        None => Ok(()),
    }
}
