//! Jobs that are stopped: DEACTIVATE of a thread that has one in hand. Whether it
//! has, the variables around the event tell; how far it ran, the STARTs before it.

use std::collections::BTreeMap;

use futonkestrel::Variables;

use crate::format::{DEACTIVATE, SCRIPT, START};
use crate::items::Items;
use crate::look::Look;
use crate::record::{records, Record};
use crate::variables::{
    self, CODES, COMPLETED, EXECUTION, IN_HAND, WAITING_EXECUTION, WAITING_MODE,
};

#[cfg(test)]
mod tests;

const NOW: usize = 0;

/// How far a job had come when it was stopped.
#[derive(Clone, Copy, Debug, PartialEq, Eq)]
pub enum Stop {
    Waiting,
    /// It had run for a part of the length that START chose.
    Running {
        ran: i64,
        length: i64,
    },
    Done,
}

impl Stop {
    /// `after 1 of 3`.
    pub fn how(self) -> String {
        match self {
            Stop::Waiting => "before it ran".to_string(),
            Stop::Running { ran, length } => format!("after {ran} of {length}"),
            Stop::Done => "after it was done".to_string(),
        }
    }
}

/// `DEACTIVATE 3, stopped after 1 of 3`: an event with what it stops.
pub fn with_stop(event: &str, stop: Option<Stop>) -> String {
    match stop {
        Some(stop) => format!("{event}, stopped {}", stop.how()),
        None => event.to_string(),
    }
}

/// What a START said.
struct Run {
    clock: i64,
    length: i64,
}

/// Sees the events that are taken, one after another.
#[derive(Default)]
pub struct Stops {
    /// The last run of each thread.
    runs: BTreeMap<i64, Run>,
}

impl Stops {
    /// What this event stops, by the variables before and after it.
    pub fn see(&mut self, event: &[u8], before: &Variables, after: &Variables) -> Option<Stop> {
        let parts = records(&SCRIPT, event);
        let (kind, values) = parts.first().and_then(Record::whole)?;
        let (thread, clock) = (values[0], i64::from(before[NOW]));
        match kind.byte {
            START => {
                let length = values[1];
                self.runs.insert(thread, Run { clock, length });
                None
            }
            DEACTIVATE if code(after, thread)? == WAITING_MODE => {
                self.stopped(thread, clock, code(before, thread)?)
            }
            _ => None,
        }
    }

    /// A table from elsewhere may let a thread run without a START: of that nothing
    /// is told.
    fn stopped(&self, thread: i64, clock: i64, code: usize) -> Option<Stop> {
        match code {
            WAITING_EXECUTION => Some(Stop::Waiting),
            EXECUTION => self.runs.get(&thread).map(|run| Stop::Running {
                ran: clock - run.clock,
                length: run.length,
            }),
            COMPLETED => Some(Stop::Done),
            _ => None,
        }
    }
}

/// The code of a thread, if it is one: a table from elsewhere may have any number
/// there, and events of threads that have no variables.
fn code(variables: &Variables, thread: i64) -> Option<usize> {
    let variable = variables::number("State", Some(thread))?;
    usize::try_from(variables[variable as usize]).ok()
}

/// Why a thread of a model is not stopped although its mode is over: critical ones
/// finish what they have in hand.
pub fn finishes(items: &Items, look: &Look, number: usize) -> Option<String> {
    let thread = items.threads.get(number)?;
    let code = look.code(number);
    let goes_on = thread.critical && !look.is_active(number) && IN_HAND.contains(&code);
    let (name, due) = (&thread.name, look.due(number));
    goes_on.then(|| {
        let word = CODES[code];
        format!("{name} is critical: its job in hand (code {code}, {word}) goes on to its deadline, clock {due}")
    })
}

/// The threads of a model that a tick waits for, where there are any: their mode is
/// over, and they have jobs that are not finished.
pub fn awaited(items: &Items, look: &Look) -> Option<String> {
    let numbered = items.threads.iter().enumerate();
    let leaving = numbered.filter(|(number, thread)| {
        let has_job = IN_HAND.contains(&look.code(*number));
        has_job && !thread.critical && !look.is_active(*number)
    });
    let names: Vec<&str> = leaving.map(|(_, thread)| thread.name.as_str()).collect();
    let (last, others) = names.split_last()?;
    let (threads, jobs) = match others {
        [] => (last.to_string(), "its job"),
        _ => (format!("{} and {last}", others.join(", ")), "their jobs"),
    };
    Some(format!(
        "the mode of {threads} is over: DEACTIVATE stops {jobs} before time goes on"
    ))
}
