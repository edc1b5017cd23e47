//! The commands, and how a refusal is told.

use futonkestrel::Refusal;

use crate::explain::explain;
use crate::files::Input;
use crate::format::Format;
use crate::{complain, Status};

pub mod check;
pub mod compare;
pub mod explore;
pub mod listing;
pub mod promela;
pub mod show;
pub mod size;
pub mod start;
pub mod table;
pub mod timeline;
pub mod trace;

/// Tells a refusal: a first line for programs, then words for people.
fn tell(refusal: &Refusal, file: &Input, lines: &[String]) -> Status {
    let Refusal { number, start, end } = refusal;
    let mut text = format!("refused {number} {start} {end} {}\n", file.name);
    for line in lines {
        text += &format!("  {line}\n");
    }
    complain(&text);
    Status::Refused
}

/// Tells that a model or a table is refused. `bytes` are what was read of it.
fn tell_file(format: &Format, file: &Input, bytes: &[u8], refusal: &Refusal) -> Status {
    tell(refusal, file, &explain(format, bytes, refusal))
}
