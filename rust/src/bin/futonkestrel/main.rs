//! Futonkestrel's command line: timing models, their rule tables and runs of
//! both, for people. What is decided, the verified library decides; this
//! program reads and writes files and puts answers into words.

use std::env;
use std::io::Write;
use std::process::ExitCode;

mod commands;
mod ends;
mod explain;
mod explore;
mod figures;
mod files;
mod format;
mod items;
mod look;
mod machine;
mod names;
mod options;
mod pack;
mod promela;
mod record;
mod rules;
mod start_words;
mod stops;
mod text;
mod timeline;
mod variables;
mod words;

/// The exit status.
#[derive(Clone, Copy, Debug, PartialEq, Eq)]
pub enum Status {
    Done = 0,
    Refused = 1,
    Usage = 2,
    File = 3,
}

/// Why a command did not do its work.
#[derive(Debug)]
pub enum Failure {
    /// It was called in a wrong way, and did nothing.
    Usage(String),
    /// A file cannot be read or written.
    File { name: String, reason: String },
    /// A text says something that cannot be understood.
    Text(String),
}

impl Failure {
    fn tell(self) -> Status {
        match self {
            Failure::Usage(text) => {
                complain(&format!("futonkestrel: {text}\n"));
                Status::Usage
            }
            Failure::File { name, reason } => {
                complain(&format!("futonkestrel: {name}: {reason}\n"));
                Status::File
            }
            Failure::Text(text) => {
                complain(&format!("{text}\n"));
                Status::Refused
            }
        }
    }
}

/// Writes to standard error. Where that fails there is nobody to tell.
pub fn complain(text: &str) {
    let _ = std::io::stderr().write_all(text.as_bytes());
}

fn main() -> ExitCode {
    let words: Vec<_> = env::args_os().skip(1).collect();
    let status = options::run(&words).unwrap_or_else(Failure::tell);
    ExitCode::from(status as u8)
}
