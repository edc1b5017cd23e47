//! `timeline`: a model's run as a picture.

use std::path::Path;

use futonkestrel::Table;

use super::listing::{self, Job};
use crate::files::{self, Input};
use crate::items::Items;
use crate::names::Names;
use crate::options::Call;
use crate::timeline::{draw, moments, pieces, range, steps, Subject};
use crate::{Failure, Status};

pub fn timeline(call: &Call) -> Result<Status, Failure> {
    let from = range::End::read("--from", call.value("--from"))?;
    let to = range::End::read("--to", call.value("--to"))?;
    let names = listing::names(call)?;
    let (model, script) = files::read_two(&call.operands[0], &call.operands[1])?;
    let job = Job::of_model(call, &model, &script);
    if let Some(table) = &job.table {
        let table = Table::read(table).expect("it was accepted");
        let steps = steps(&job.listing, &table, &script.bytes);
        let range = range::chosen(&steps, from, to)?;
        let pieces = pieces(&steps, range.clone());
        let moments = moments(&table, &script.bytes, &steps, &pieces, &names);
        let is_whole = range.end == steps.len();
        let subject = Subject {
            items: &Items::of(&model.bytes, &names),
            title: format!("{}, {}", file_name(&model), file_name(&script)),
            steps: &steps[range],
            refused: refused(&job, &names).filter(|_| is_whole),
        };
        let picture = draw(&subject, &moments);
        let inputs = [Some(&model), Some(&script), names.file.as_ref()];
        let inputs: Vec<&Input> = inputs.into_iter().flatten().collect();
        files::write(&call.operands[2], picture.as_bytes(), &inputs)?;
    }
    Ok(match &job.refusal {
        None => Status::Done,
        Some(refusal) => job.tell_refusal(refusal, &names),
    })
}

/// The event that was refused, in words.
fn refused(job: &Job, names: &Names) -> Option<String> {
    let lines = job.refused_event(job.refusal.as_ref()?, names)?;
    lines.into_iter().next()
}

/// A file's name without its folder.
fn file_name(file: &Input) -> String {
    let name = Path::new(&file.name).file_name();
    name.map_or_else(
        || file.name.clone(),
        |name| name.to_string_lossy().into_owned(),
    )
}
