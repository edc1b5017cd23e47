//! The lines that the programs `steps` and `rules` print.

use std::fs::File;
use std::io::{Read, Result as IoResult};

use crate::script::{run, Answer, Event, TICK};
use crate::table::variable::NOW;
use crate::{model, table, translate};

/// The programs read this much of each file, and `rules` has as much room for
/// its table.
pub const LIMIT: usize = 65_536;

/// The first bytes of a file, up to the limit.
pub fn read_first(file_name: &str) -> IoResult<Vec<u8>> {
    let mut bytes = Vec::new();
    File::open(file_name)?
        .take(LIMIT as u64)
        .read_to_end(&mut bytes)?;
    Ok(bytes)
}

/// What `steps` prints: the run of the model.
pub fn steps(model_bytes: &[u8], script: &[u8]) -> String {
    match model::read(model_bytes) {
        Err(refusal) => last_line(0, refusal.number, 0),
        Ok(model) => run_lines(
            script,
            model::start_state(&model),
            |state, event| model::step(&model, state, event),
            |state| state.now.0,
        ),
    }
}

/// What `rules` prints: the run of the table made from the model, read back
/// from its bytes.
pub fn rules(model_bytes: &[u8], script: &[u8], room: usize) -> String {
    match translate::translate(model_bytes, room) {
        Err(refusal) => last_line(0, refusal.number, 0),
        Ok(table_bytes) => of_table(&table_bytes, script),
    }
}

/// The same lines for any table, made or not.
pub fn of_table(table_bytes: &[u8], script: &[u8]) -> String {
    match table::read(table_bytes) {
        Err(refusal) => last_line(0, refusal.number, 0),
        Ok(table) => run_lines(
            script,
            table::start_state(&table),
            |variables, event| table::step(&table, variables, event),
            |variables| variables[NOW] as u64,
        ),
    }
}

/// A line for each event taken, up to the first refusal, then the last line.
fn run_lines<S>(
    script: &[u8],
    mut state: S,
    step: impl Fn(&S, &Event) -> Result<S, u8>,
    clock: impl Fn(&S) -> u64,
) -> String {
    let mut lines = String::new();
    let mut count = 0;
    let (taken, refusal) = run(script, &mut state, step, |answer, state| {
        if let Answer {
            number: 0,
            event: Some(event),
            ..
        } = answer
        {
            count += 1;
            lines.push_str(&event_line(count, clock(state), event));
        }
    });
    let number = refusal.map_or(0, |refusal| refusal.number);
    lines.push_str(&last_line(taken, number, clock(&state)));
    lines
}

/// The step, the clock after it, the kind, and the id or the n.
fn event_line(step: usize, clock: u64, event: &Event) -> String {
    let id_or_n = if event.kind == TICK {
        event.ticks
    } else {
        u16::from(event.id)
    };
    format!("{step} {clock} {} {id_or_n}\n", event.kind)
}

/// The events taken, the refusal or 0, and the clock.
fn last_line(taken: usize, number: u8, clock: u64) -> String {
    format!("end {taken} {number} {clock}\n")
}
