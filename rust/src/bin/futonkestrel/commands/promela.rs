//! `promela`: a table as a model for the checker SPIN.

use futonkestrel::read_table;

use super::tell_file;
use crate::format::TABLE;
use crate::options::Call;
use crate::{files, Failure, Status};

pub fn promela(call: &Call) -> Result<Status, Failure> {
    let table = files::read(&call.operands[0])?;
    match read_table(&table.bytes) {
        Ok(()) => {
            let text = crate::promela::promela(&table.bytes, &table.name);
            files::write(&call.operands[1], text.as_bytes(), &[&table])?;
            Ok(Status::Done)
        }
        Err(refusal) => Ok(tell_file(&TABLE, &table, &table.bytes, &refusal)),
    }
}
