//! Threads that leave: the stops that were taken, what waited for them, and what
//! was refused to critical threads and to active ones.

use std::fmt::{self, Display, Formatter};

use plain::model::{self, Model, State, Timing, COMPLETED, EXECUTION, NONE, WAITING_EXECUTION};
use plain::offers::{self, Offer};
use plain::refusal::NOT_ENABLED;
use plain::script::{Event, COMPLETE, DEACTIVATE, DEADLINE, MISS, REQUEST, TICK};

use crate::reach::add_each;

/// How many codes a thread can have.
const CODES: usize = 5;

/// Counts by the code of the thread; codes without a job are never met.
#[derive(Clone, Debug, Default)]
pub struct Stops {
    /// DEACTIVATEs of threads with a job: those that were taken, and those that were
    /// refused because the thread is critical, or is active.
    pub taken: [u64; CODES],
    pub critical: [u64; CODES],
    pub active: [u64; CODES],
    /// TICKs refused where nothing is enabled but stops, and TICKs taken while a
    /// critical thread that has left has a job.
    pub awaited: [u64; CODES],
    pub not_awaited: [u64; CODES],
    /// The stops by thread.
    pub by_thread: [u64; 16],
    pub places: StopPlaces,
}

/// What the stops met.
#[derive(Clone, Copy, Debug, Default)]
pub struct StopPlaces {
    /// Another event could have ended the job as well.
    pub beside_complete: u64,
    pub beside_deadline: u64,
    pub beside_miss: u64,
    /// Another thread runs, and goes on.
    pub beside_another_job: u64,
    /// A live connection out of the thread would have changed its buffer.
    pub unsent_at_once: u64,
    pub unsent_later: u64,
}

impl Stops {
    /// An event, the state before it, and what came of it.
    pub fn note(&mut self, model: &Model, before: &State, event: &Event, came: &Result<State, u8>) {
        let thread = usize::from(event.id);
        match (event.kind, came) {
            (DEACTIVATE, _) if code_with_job(before, thread).is_some() => {
                self.note_answer(model, before, thread, came.is_ok());
            }
            (TICK, Err(NOT_ENABLED)) => {
                if let Some(code) = only_stops(model, before) {
                    self.awaited[code] += 1;
                }
            }
            (TICK, Ok(_)) => {
                for (own, thread) in before.threads.iter().zip(&model.threads) {
                    let goes_on = thread.critical && !own.active && has_job(own.code);
                    self.not_awaited[usize::from(own.code)] += u64::from(goes_on);
                }
            }
            _ => {}
        }
    }

    fn note_answer(&mut self, model: &Model, before: &State, thread: usize, taken: bool) {
        let own = &before.threads[thread];
        let code = usize::from(own.code);
        if taken {
            self.taken[code] += 1;
            self.by_thread[thread] += 1;
            self.places.note(model, before, thread);
        } else if own.active {
            self.active[code] += 1;
        } else {
            self.critical[code] += 1;
        }
    }

    /// These and those of other cases together.
    pub fn add(&mut self, other: &Stops) {
        add_each(&mut self.taken, &other.taken);
        add_each(&mut self.critical, &other.critical);
        add_each(&mut self.active, &other.active);
        add_each(&mut self.awaited, &other.awaited);
        add_each(&mut self.not_awaited, &other.not_awaited);
        add_each(&mut self.by_thread, &other.by_thread);
        let (places, others) = (&mut self.places, &other.places);
        places.beside_complete += others.beside_complete;
        places.beside_deadline += others.beside_deadline;
        places.beside_miss += others.beside_miss;
        places.beside_another_job += others.beside_another_job;
        places.unsent_at_once += others.unsent_at_once;
        places.unsent_later += others.unsent_later;
    }

    /// What was counted by code, by name.
    pub fn by_code(&self) -> [(&'static str, &[u64; CODES]); 5] {
        [
            ("stops", &self.taken),
            ("stops refused to critical threads", &self.critical),
            ("stops refused to active threads", &self.active),
            ("TICKs that waited for stops alone", &self.awaited),
            (
                "TICKs beside a critical thread that left",
                &self.not_awaited,
            ),
        ]
    }
}

impl StopPlaces {
    fn note(&mut self, model: &Model, before: &State, thread: usize) {
        let rival = |kind| u64::from(model::enabled(model, before, kind, thread as u8));
        self.beside_complete += rival(COMPLETE);
        self.beside_deadline += rival(DEADLINE);
        self.beside_miss += rival(MISS);
        let others = before.cpu != NONE && usize::from(before.cpu) != thread;
        self.beside_another_job += u64::from(others);
        self.unsent_at_once += u64::from(would_change(model, before, thread, Timing::Immediate));
        self.unsent_later += u64::from(would_change(model, before, thread, Timing::Delayed));
    }

    /// The counts, by name.
    pub fn met(&self) -> [(&'static str, u64); 6] {
        [
            ("beside COMPLETE", self.beside_complete),
            ("beside DEADLINE", self.beside_deadline),
            ("beside MISS", self.beside_miss),
            ("beside another's job", self.beside_another_job),
            ("with an unlike immediate buffer", self.unsent_at_once),
            ("with an unlike delayed buffer", self.unsent_later),
        ]
    }
}

impl Display for Stops {
    fn fmt(&self, formatter: &mut Formatter) -> fmt::Result {
        let joined = |counts: &[u64]| {
            let counts: Vec<String> = counts.iter().map(u64::to_string).collect();
            counts.join(" ")
        };
        for (what, counts) in self.by_code() {
            let of_jobs = joined(&counts[usize::from(WAITING_EXECUTION)..]);
            writeln!(formatter, "{what}, by code from 2 on: {of_jobs}")?;
        }
        writeln!(formatter, "stops by thread: {}", joined(&self.by_thread))?;
        let met = self.places.met();
        let met = met.map(|(what, count)| format!("{what} {count}"));
        writeln!(formatter, "of the stops: {}", met.join(", "))
    }
}

fn has_job(code: u8) -> bool {
    matches!(code, WAITING_EXECUTION | EXECUTION | COMPLETED)
}

/// The code of a thread that has a job in hand.
fn code_with_job(state: &State, thread: usize) -> Option<usize> {
    let own = state.threads.get(thread)?;
    has_job(own.code).then_some(own.code.into())
}

/// Where stops and requests alone are enabled: the code of the first to be stopped.
fn only_stops(model: &Model, state: &State) -> Option<usize> {
    let mut events = offers::of_model(model, state).events;
    events.retain(|offer| offer.kind != REQUEST);
    let code = |offer: &Offer| match offer.kind {
        DEACTIVATE => code_with_job(state, offer.id.into()),
        _ => None,
    };
    let codes: Option<Vec<usize>> = events.iter().map(code).collect();
    codes?.first().copied()
}

/// Whether some live connection of a type has an output unlike its buffer.
fn would_change(model: &Model, state: &State, thread: usize, timing: Timing) -> bool {
    model.connections_out_of(thread, timing).any(|number| {
        let connection = &model.connections[number];
        let output = state.output_ports[connection.output_port];
        state.connection_active[number] && state.port_buffers[connection.input_port] != output
    })
}
