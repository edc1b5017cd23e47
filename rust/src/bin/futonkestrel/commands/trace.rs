//! `trace`: answer and variables after every event, going on after refusals.

use futonkestrel::{events, read_table, translate_to_vec, Refusal, Table, Variables};

use super::tell_file;
use crate::files::{self, Input};
use crate::format::{MODEL, TABLE};
use crate::machine::Machine;
use crate::options::Call;
use crate::variables::is_of_table_only;
use crate::{Failure, Status};

/// Lines are printed in pieces of about so many bytes.
const PIECE: usize = 1 << 16;

pub fn trace(call: &Call) -> Result<Status, Failure> {
    let (file, script) = files::read_two(&call.operands[0], &call.operands[1])?;
    let of_model = !call.has("--table");
    match table_of(&file, of_model) {
        Ok(bytes) => {
            let table = Table::read(&bytes).expect("it was accepted");
            print_trace(Machine::new(table, of_model), &script.bytes, of_model)?;
            Ok(Status::Done)
        }
        Err(refusal) => {
            let format = if of_model { &MODEL } else { &TABLE };
            Ok(tell_file(format, &file, &file.bytes, &refusal))
        }
    }
}

/// An accepted table, or that of an accepted model: it answers as the model
/// does and has the model's values, which is proved.
fn table_of(file: &Input, of_model: bool) -> Result<Vec<u8>, Refusal> {
    if of_model {
        return translate_to_vec(&file.bytes);
    }
    read_table(&file.bytes).map(|()| file.bytes.clone())
}

fn print_trace(mut machine: Machine, script: &[u8], of_model: bool) -> Result<(), Failure> {
    let mut text = format!("- 0 0{}\n", values(&machine.variables, of_model));
    let (mut start, mut taken, mut stopped) = (0, 0, false);
    for event in events(script) {
        let answer = machine.step(event);
        stopped |= answer != 0;
        taken += usize::from(!stopped);
        let end = start + event.len();
        text += &format!(
            "{answer} {start} {end}{}\n",
            values(&machine.variables, of_model)
        );
        start = end;
        if text.len() >= PIECE && !files::print(std::mem::take(&mut text).as_bytes())? {
            return Ok(());
        }
    }
    text += &format!("taken {taken}\n");
    files::print(text.as_bytes())?;
    Ok(())
}

/// Every variable that is not 0. A model has no Due and End.
fn values(variables: &Variables, of_model: bool) -> String {
    let shown = variables.iter().enumerate().filter(|(variable, value)| {
        let hidden = of_model && is_of_table_only(*variable as i64);
        **value != 0 && !hidden
    });
    shown
        .map(|(variable, value)| format!(" {variable}={value}"))
        .collect()
}
