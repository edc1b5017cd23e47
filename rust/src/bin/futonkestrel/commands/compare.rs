//! `compare`: is this the table of that model, and where do they first part?

use futonkestrel::{read_table, translate_to_vec};

use super::tell_file;
use crate::files::{self, Input};
use crate::format::{Item, MODEL, TABLE};
use crate::options::Call;
use crate::record::{records, Record};
use crate::text::record_in_words;
use crate::{Failure, Status};

pub fn compare(call: &Call) -> Result<Status, Failure> {
    let (model, table) = files::read_two(&call.operands[0], &call.operands[1])?;
    let made = match translate_to_vec(&model.bytes) {
        Ok(made) => made,
        Err(refusal) => return Ok(tell_file(&MODEL, &model, &model.bytes, &refusal)),
    };
    if made == table.bytes {
        files::print(format!("{} is the table of {}\n", table.name, model.name).as_bytes())?;
        return Ok(Status::Done);
    }
    files::print(difference(&model, &made, &table).as_bytes())?;
    Ok(Status::Refused)
}

/// The first record in which they differ; up to it they have the same ones.
fn difference(model: &Input, made: &[u8], table: &Input) -> String {
    let (ours, theirs) = (records(&TABLE, made), records(&TABLE, &table.bytes));
    let alike = ours
        .iter()
        .zip(&theirs)
        .take_while(|(our, their)| our.bytes == their.bytes)
        .count();
    let place = made
        .iter()
        .zip(&table.bytes)
        .take_while(|(our, their)| our == their)
        .count();
    let rule = ours[..alike]
        .iter()
        .rev()
        .find(|record| record.is(Item::Rule));
    let mut text = format!(
        "{} is not the table of {}: they part at byte {place}, in record {}\n",
        table.name,
        model.name,
        alike + 1
    );
    if let Some(rule) = rule {
        text += &format!("  behind         {}\n", record_in_words(rule));
    }
    text += &format!("  of the model   {}\n", shown(ours.get(alike)));
    text += &format!("  in the table   {}\n", shown(theirs.get(alike)));
    if let Err(refusal) = read_table(&table.bytes) {
        text += &format!("the table is {refusal}\n");
    }
    text
}

fn shown(record: Option<&Record>) -> String {
    record.map_or_else(|| "(ends here)".to_string(), record_in_words)
}
