//! The test for START in words. The library tells the step that fails first; what
//! fails there, the words find out for themselves from the state's variables and
//! the model's records, and where they find nothing they name nothing.

use futonkestrel::StartStep;

use crate::explain::only;
use crate::format::{Item, NONE};
use crate::items::{Items, Thread};
use crate::look::Look;
use crate::names::Names;
use crate::variables::{CODES, EXECUTION, WAITING_EXECUTION};

#[cfg(test)]
mod tests;

/// A START that is asked for, and the state that it is asked for in.
pub struct Asked<'a> {
    pub items: &'a Items,
    pub names: &'a Names,
    pub look: &'a Look,
    pub thread: u32,
    pub length: u32,
}

impl Asked<'_> {
    /// The step by number and word, and what fails there.
    pub fn words(&self, step: StartStep) -> String {
        let (number, word) = (step.number(), step.word());
        if step.is_taken() {
            return format!("{number} {word} fails: {}", self.taken());
        }
        let causes = self.causes(step);
        if causes.is_empty() {
            return format!("{number} {word}: what fails there was not found");
        }
        format!("{number} {word}: {}", causes.join("; "))
    }

    fn taken(&self) -> String {
        let thread = self.names.or_number(Item::Thread, i64::from(self.thread));
        let (length, clock) = (self.length, self.look.clock());
        format!("START of {thread} for {length} would be taken at clock {clock}")
    }

    /// All that fails at a step.
    fn causes(&self, step: StartStep) -> Vec<String> {
        let number = self.thread as usize;
        let Some(thread) = self.items.threads.get(number) else {
            return self.no_such_thread(step);
        };
        match step {
            StartStep::None => Vec::new(),
            StartStep::State => self.of_state(number, thread),
            StartStep::Processor => self.of_processor(),
            StartStep::Connections => self.of_connections(number),
            StartStep::Length => self.of_length(thread),
        }
    }

    /// A thread that is not there fails at the first step, and at no other.
    fn no_such_thread(&self, step: StartStep) -> Vec<String> {
        let there = only(Item::Thread, self.items.threads.len() as i64);
        let cause = format!("START names thread {}, {there}", self.thread);
        let is_cause = step == StartStep::State;
        is_cause.then_some(cause).into_iter().collect()
    }

    /// The deadline counts while a job is in hand.
    fn of_state(&self, number: usize, Thread { name, .. }: &Thread) -> Vec<String> {
        let (code, due) = (self.look.code(number), self.look.due(number));
        let mut causes = Vec::new();
        if code != WAITING_EXECUTION {
            let (own, wanted) = (CODES[code], CODES[WAITING_EXECUTION]);
            causes.push(format!(
                "{name} has code {code}, {own}, where START wants {WAITING_EXECUTION}, {wanted}"
            ));
        }
        if code >= WAITING_EXECUTION && due == self.look.clock() {
            causes.push(format!("the deadline of {name}, clock {due}, is now"));
        }
        causes
    }

    fn of_processor(&self) -> Vec<String> {
        let (holder, clock) = (self.look.processor() as i64, self.look.clock());
        let name = self.names.or_number(Item::Thread, holder);
        let is_held = holder != NONE;
        let cause = format!("{name} holds it at clock {clock}");
        is_held.then_some(cause).into_iter().collect()
    }

    /// The live immediate connections into the thread whose sources hold it back.
    fn of_connections(&self, target: usize) -> Vec<String> {
        let numbered = self.items.connections.iter().enumerate();
        let waits = numbered.filter_map(|(number, connection)| {
            let leads_here = !connection.delayed && connection.target == target;
            let source = connection.source;
            let why = (leads_here && self.look.is_live(number))
                .then(|| self.holds_back(source, target))
                .flatten()?;
            let own = self.names.or_number(Item::Connection, number as i64);
            let itself = if source == target { " itself" } else { "" };
            let name = &self.items.threads[source].name;
            Some(format!("{own} waits for {name}{itself}, {why}"))
        });
        waits.collect()
    }

    /// Why the source of such a connection holds its target back, where it does.
    fn holds_back(&self, source: usize, target: usize) -> Option<String> {
        let (look, clock) = (self.look, self.look.clock());
        let dispatched = look.dispatched(target);
        let is_undone = matches!(look.code(source), WAITING_EXECUTION | EXECUTION);
        if is_undone && look.dispatched(source) == dispatched {
            return Some(format!(
                "which was dispatched at the same clock, {dispatched}, and is not done"
            ));
        }
        let begins = clock % self.items.threads[source].period == 0;
        let is_awaited = look.is_active(source) && look.code(source) < WAITING_EXECUTION && begins;
        (dispatched == clock && is_awaited)
            .then(|| format!("which is still to be dispatched at this clock, {clock}"))
    }

    fn of_length(&self, Thread { name, min, max, .. }: &Thread) -> Vec<String> {
        let length = i64::from(self.length);
        let allowed = if min == max {
            format!("{min} only")
        } else {
            format!("{min} to {max}")
        };
        let is_outside = !(*min..=*max).contains(&length);
        let cause = format!("{name} may run for {allowed}, not for {length}");
        is_outside.then_some(cause).into_iter().collect()
    }
}
