//! `check`: is this an accepted model or table?

use futonkestrel::{read_model, read_table};

use super::tell_file;
use crate::format::{MODEL, TABLE};
use crate::options::Call;
use crate::{files, Failure, Status};

pub fn check(call: &Call) -> Result<Status, Failure> {
    let file = files::read(&call.operands[0])?;
    let (format, answer) = if call.has("--table") {
        (&TABLE, read_table(&file.bytes))
    } else {
        (&MODEL, read_model(&file.bytes))
    };
    match answer {
        Ok(()) => {
            files::print(format!("{}: accepted\n", file.name).as_bytes())?;
            Ok(Status::Done)
        }
        Err(refusal) => Ok(tell_file(format, &file, &file.bytes, &refusal)),
    }
}
