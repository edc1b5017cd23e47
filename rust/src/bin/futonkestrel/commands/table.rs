//! `table`: the table made from a model.

use futonkestrel::translate_to_vec;

use super::tell_file;
use crate::format::MODEL;
use crate::options::Call;
use crate::{files, Failure, Status};

pub fn table(call: &Call) -> Result<Status, Failure> {
    let model = files::read(&call.operands[0])?;
    match translate_to_vec(&model.bytes) {
        Ok(table) => {
            files::write(&call.operands[1], &table, &[&model])?;
            Ok(Status::Done)
        }
        Err(refusal) => Ok(tell_file(&MODEL, &model, &model.bytes, &refusal)),
    }
}
