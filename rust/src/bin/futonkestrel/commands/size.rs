//! `size`: how long the table of a model is, without making it.

use futonkestrel::{table_size, Size};

use super::tell_file;
use crate::format::MODEL;
use crate::options::Call;
use crate::{files, Failure, Status};

pub fn size(call: &Call) -> Result<Status, Failure> {
    let model = files::read(&call.operands[0])?;
    match table_size(&model.bytes) {
        Ok(size) => {
            files::print(line(&size).as_bytes())?;
            Ok(Status::Done)
        }
        Err(refusal) => Ok(tell_file(&MODEL, &model, &model.bytes, &refusal)),
    }
}

fn line(size: &Size) -> String {
    let Size {
        bytes,
        rules,
        clauses,
        atoms,
        updates,
    } = size;
    format!("bytes {bytes} rules {rules} clauses {clauses} atoms {atoms} updates {updates}\n")
}
