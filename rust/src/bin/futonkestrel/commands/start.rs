//! `start`: would START be taken after a script, and if not, at which step does its
//! test fail first?

use std::ffi::OsStr;

use futonkestrel::{events, start_test, Model, State};

use super::{listing, tell_file};
use crate::files::{self, Input};
use crate::format::{Item, MODEL, SCRIPT};
use crate::items::Items;
use crate::look::Look;
use crate::machine::{broken, event_words};
use crate::names::Names;
use crate::options::Call;
use crate::record::records;
use crate::start_words::Asked;
use crate::{complain, Failure, Status};

pub fn start(call: &Call) -> Result<Status, Failure> {
    let [_, _, thread, length] = &call.operands[..] else {
        unreachable!("a call has as many operands as its command wants");
    };
    let length = number(length).ok_or_else(|| wanted(call, "LENGTH", length, ""))?;
    let names = listing::names(call)?;
    let thread = thread_number(call, thread, &names)?;
    let (model, script) = files::read_two(&call.operands[0], &call.operands[1])?;
    let step = match start_test(&model.bytes, &script.bytes, thread, length) {
        Ok(step) => step,
        Err(refusal) => return Ok(tell_file(&MODEL, &model, &model.bytes, &refusal)),
    };
    let read = Model::read(&model.bytes).expect("it was accepted");
    let (state, passed) = after(&read, &script.bytes);
    let asked = Asked {
        items: &Items::of(&model.bytes, &names),
        names: &names,
        look: &Look::new(read.variables(&state)),
        thread,
        length,
    };
    files::print(format!("{}\n", asked.words(step)).as_bytes())?;
    complain(&passed.notes(&script.name, &names));
    Ok(Status::Done)
}

/// A number of 32 bits.
fn number(word: &OsStr) -> Option<u32> {
    let text = word.to_str()?;
    let plain = text.bytes().all(|byte| byte.is_ascii_digit());
    text.parse().ok().filter(|_| plain)
}

/// A number, or a name where names are given.
fn thread_number(call: &Call, word: &OsStr, names: &Names) -> Result<u32, Failure> {
    let by_name = || names.number(Item::Thread, word.to_str()?)?.try_into().ok();
    let or_name = |file: &Input| format!(", or a thread's name in {}", file.name);
    let or_name = names.file.as_ref().map_or(String::new(), or_name);
    let thread = number(word).or_else(by_name);
    thread.ok_or_else(|| wanted(call, "THREAD", word, &or_name))
}

fn wanted(call: &Call, operand: &str, word: &OsStr, or_name: &str) -> Failure {
    let (word, most) = (word.to_string_lossy(), u32::MAX);
    call.wrong(&format!(
        "{operand} wants a number from 0 to {most}{or_name}, not '{word}'"
    ))
}

/// An event that the model refused.
struct Refused<'a> {
    number: u32,
    /// Which one it is in the script, from 1.
    event: usize,
    bytes: &'a [u8],
}

/// What of a script has no part in the state that it leaves.
#[derive(Default)]
struct PassedOver<'a> {
    /// How many whole events are refused, and the first of them.
    count: usize,
    first: Option<Refused<'a>>,
    /// Where a cut or unknown event ends the script, and what is wrong with it.
    end: Option<(usize, String)>,
}

/// The state that a script leaves, and what it passes over.
fn after<'a>(model: &Model, script: &'a [u8]) -> (State, PassedOver<'a>) {
    let (mut state, mut passed, mut start) = (model.start(), PassedOver::default(), 0);
    for (at, bytes) in events(script).enumerate() {
        if let Err(number) = model.step(&mut state, bytes) {
            let refused = Refused {
                number,
                event: at + 1,
                bytes,
            };
            passed.add(refused, start);
        }
        start += bytes.len();
    }
    (state, passed)
}

impl<'a> PassedOver<'a> {
    fn add(&mut self, refused: Refused<'a>, start: usize) {
        let part = &records(&SCRIPT, refused.bytes)[0];
        if part.whole().is_none() {
            self.end = Some((start, broken(part)));
            return;
        }
        self.count += 1;
        self.first.get_or_insert(refused);
    }

    /// A line for each sort of it.
    fn notes(&self, script: &str, names: &Names) -> String {
        let mut text = String::new();
        if let Some(first) = &self.first {
            text += &format!("note: {}\n", self.refused(first, script, names));
        }
        if let Some((start, fault)) = &self.end {
            text += &format!("note: {script} is read up to byte {start} only: {fault}\n");
        }
        text
    }

    fn refused(&self, first: &Refused, script: &str, names: &Names) -> String {
        let Refused { number, event, .. } = first;
        let words = event_words(first.bytes, names);
        let why = format!("({number}; 'steps' says why)");
        match self.count {
            1 => format!("event {event} of {script}, {words}, is refused {why} and passed over"),
            count => format!(
                "{count} events of {script} are refused and passed over, the first of them \
                 event {event}, {words} {why}"
            ),
        }
    }
}
