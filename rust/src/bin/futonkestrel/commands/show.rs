//! `show` and `pack`: bytes as text, and back.

use futonkestrel::{read_model, read_table, Refusal};

use crate::explain::explain;
use crate::format::{Format, FORMATS, MODEL, SCRIPT, TABLE};
use crate::options::Call;
use crate::text::{hexadecimal, text, Note};
use crate::{files, record, Failure, Status};

pub fn show(call: &Call) -> Result<Status, Failure> {
    let asked = FORMATS
        .iter()
        .copied()
        .filter(|format| call.has(&format!("--{}", format.name)));
    let asked: Vec<&Format> = asked.collect();
    if asked.len() > 1 {
        return Err(Failure::Usage(
            "show: a file is one of model, table and script".to_string(),
        ));
    }
    let file = files::read(&call.operands[0])?;
    let shown = match asked.first().copied().or_else(|| told(&file.bytes)) {
        Some(format) => text(format, &file.bytes, remark(format, &file.bytes).as_ref()),
        None if file.bytes.is_empty() => "# an empty file\n".to_string(),
        None => format!(
            "# neither model, table nor script\n{}",
            hexadecimal(&file.bytes)
        ),
    };
    files::print(shown.as_bytes())?;
    Ok(Status::Done)
}

pub fn pack(call: &Call) -> Result<Status, Failure> {
    let file = files::read(&call.operands[0])?;
    let bytes = crate::pack::pack(file.text()?).map_err(|fault| fault.in_file(&file.name))?;
    files::write(&call.operands[1], &bytes, &[&file])?;
    Ok(Status::Done)
}

/// Which sort of file it is, by the first byte. 01 begins models and scripts.
fn told(bytes: &[u8]) -> Option<&'static Format> {
    let first = *bytes.first()?;
    if first == MODEL.kinds[0].byte {
        return Some(model_or_script(bytes));
    }
    [&TABLE, &SCRIPT]
        .into_iter()
        .find(|format| format.kind(first).is_some())
}

/// The one that more of the file fits.
fn model_or_script(bytes: &[u8]) -> &'static Format {
    let (model, script) = (record::told(&MODEL, bytes), record::told(&SCRIPT, bytes));
    let is_model = read_model(bytes).is_ok() || (script < bytes.len() && model >= script);
    if is_model {
        &MODEL
    } else {
        &SCRIPT
    }
}

/// Where a model or a table is refused, and why.
fn remark(format: &Format, bytes: &[u8]) -> Option<Note> {
    let answer = match format.name {
        "model" => read_model(bytes),
        "table" => read_table(bytes),
        _ => Ok(()),
    };
    let refusal: Refusal = answer.err()?;
    let explained = explain(format, bytes, &refusal);
    let faults = explained
        .into_iter()
        .filter(|line| line.starts_with("at fault"));
    let first = format!("refused {}: {}", refusal.number, refusal.cause());
    Some(Note {
        start: refusal.start,
        lines: [first].into_iter().chain(faults).collect(),
    })
}
