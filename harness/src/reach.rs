//! What the events of models did, by number: which threads, mode transitions,
//! modes, connections and behaviour transitions had their part, and how often
//! the thin places of the rules were met.

use std::fmt::{self, Display, Formatter};

use plain::model::{self, Model, State, Timing};
use plain::script::{
    Event, ACTIVATE, COMPLETE, DEADLINE, DISPATCH, ENTER, LAST_NOW, LEAVE, MISS, REQUEST, START,
    TICK,
};

use crate::ends::ModelEnds;
use crate::starts::Starts;
use crate::stops::Stops;

/// Clocks above this one are late.
pub const LATE: u64 = 70_000;

/// Counts by the number of an item.
#[derive(Clone, Debug)]
pub struct Reach {
    /// Events taken by kind, and then by thread or mode transition; of REQUEST
    /// those that were heeded.
    pub taken: [[u64; 16]; 11],
    /// ENTERs and LEAVEs by the mode that they lead to.
    pub entered: [u64; 8],
    pub left: [u64; 8],
    /// Input ports with a written start that is not 0, by number; and how often
    /// they took it from their buffers again.
    pub started: [u64; 32],
    pub kept: [u64; 32],
    /// Sends that changed a buffer, by connection.
    pub sent: [u64; 32],
    /// Behaviour transitions taken that have a guard, and those that gave some
    /// local or output port another value.
    pub guarded: [u64; 64],
    pub assigned: [u64; 64],
    /// The same, without number.
    pub places: Places,
    /// What the test for START was asked for in the states before and after.
    pub starts: Starts,
    /// What became of threads that left with a job.
    pub stops: Stops,
    /// Sums and differences that stopped.
    pub ends: ModelEnds,
    /// Events taken at late clocks, by kind.
    pub late: [u64; 12],
}

/// Places that few cases reach.
#[derive(Clone, Copy, Debug, Default)]
pub struct Places {
    /// COMPLETEs without a transition that changed a buffer.
    pub default_sends: u64,
    /// Transitions taken whose guard has four atoms.
    pub four_atoms: u64,
    /// TICKs refused with 11 while some thread is active, and with 10 where an
    /// event is due at the last clock.
    pub past_the_last_clock: u64,
    pub held_at_the_last_clock: u64,
}

impl Default for Reach {
    fn default() -> Reach {
        Reach {
            taken: [[0; 16]; 11],
            entered: [0; 8],
            left: [0; 8],
            started: [0; 32],
            kept: [0; 32],
            sent: [0; 32],
            guarded: [0; 64],
            assigned: [0; 64],
            places: Places::default(),
            starts: Starts::default(),
            stops: Stops::default(),
            ends: ModelEnds::default(),
            late: [0; 12],
        }
    }
}

impl Reach {
    /// The start of a model.
    pub fn note_start(&mut self, model: &Model) {
        for (count, port) in self.started.iter_mut().zip(&model.input_ports) {
            *count += u64::from(port.start.0 != 0);
        }
    }

    /// An event, the state before it, and what came of it.
    pub fn note(&mut self, model: &Model, before: &State, event: &Event, came: &Result<State, u8>) {
        self.stops.note(model, before, event, came);
        match came {
            Err(number) => self.note_refusal(before, event, *number),
            Ok(after) => self.note_taken(model, before, event, after),
        }
    }

    fn note_refusal(&mut self, before: &State, event: &Event, number: u8) {
        if event.kind != TICK || !before.threads.iter().any(|own| own.active) {
            return;
        }
        match number {
            11 => self.places.past_the_last_clock += 1,
            10 if before.now.0 == u64::from(LAST_NOW) => self.places.held_at_the_last_clock += 1,
            _ => {}
        }
    }

    fn note_taken(&mut self, model: &Model, before: &State, event: &Event, after: &State) {
        let (kind, number) = (usize::from(event.kind), usize::from(event.id));
        self.late[kind] += u64::from(before.now.0 > LATE);
        if event.kind == TICK || (event.kind == REQUEST && before == after) {
            return;
        }
        self.taken[kind][number] += 1;
        match event.kind {
            DISPATCH | START => self.note_kept(model, before, event),
            COMPLETE => {
                self.note_transition(model, before, number, after);
                self.note_sends(model, before, number, Timing::Immediate, after);
            }
            DEADLINE => self.note_sends(model, before, number, Timing::Delayed, after),
            ENTER => self.entered[usize::from(model.mode_transitions[number].to)] += 1,
            LEAVE => self.left[usize::from(after.mode)] += 1,
            _ => {}
        }
    }

    /// At START the ports that a live immediate connection feeds take their
    /// buffers, at DISPATCH the others.
    fn note_kept(&mut self, model: &Model, before: &State, event: &Event) {
        for port in model.input_ports_of(usize::from(event.id)) {
            let feeding = model.immediate_feeding(port);
            let at_start = feeding.is_some_and(|number| before.connection_active[number]);
            let start = model.input_ports[port].start;
            let kept = start.0 != 0 && before.port_buffers[port] == start;
            if let Some(count) = self.kept.get_mut(port) {
                *count += u64::from(kept && at_start == (event.kind == START));
            }
        }
    }

    fn note_transition(&mut self, model: &Model, before: &State, thread: usize, after: &State) {
        let Some(taken) = model::first_enabled(model, before, thread) else {
            self.places.default_sends += u64::from(before.port_buffers != after.port_buffers);
            return;
        };
        let mut all = model.behavior_transitions.iter();
        let number = all.position(|transition| std::ptr::eq(transition, taken));
        let number = number.expect("it is one of the model's");
        self.guarded[number] += u64::from(!taken.guard.is_empty());
        let values = |state: &State| (state.locals.clone(), state.output_ports.clone());
        self.assigned[number] += u64::from(values(before) != values(after));
        self.places.four_atoms += u64::from(taken.guard.len() == 4);
        self.ends.note(model, before, taken);
    }

    fn note_sends(
        &mut self,
        model: &Model,
        before: &State,
        thread: usize,
        timing: Timing,
        after: &State,
    ) {
        for number in model.connections_out_of(thread, timing) {
            let port = model.connections[number].input_port;
            let changed = before.port_buffers[port] != after.port_buffers[port];
            self.sent[number] += u64::from(changed);
        }
    }

    /// This and that of other cases together.
    pub fn add(&mut self, other: &Reach) {
        for (counts, others) in self.taken.iter_mut().zip(&other.taken) {
            add_each(counts, others);
        }
        add_each(&mut self.entered, &other.entered);
        add_each(&mut self.left, &other.left);
        add_each(&mut self.started, &other.started);
        add_each(&mut self.kept, &other.kept);
        add_each(&mut self.sent, &other.sent);
        add_each(&mut self.guarded, &other.guarded);
        add_each(&mut self.assigned, &other.assigned);
        add_each(&mut self.late, &other.late);
        self.starts.add(&other.starts);
        self.stops.add(&other.stops);
        self.ends.add(&other.ends);
        let (places, others) = (&mut self.places, &other.places);
        places.default_sends += others.default_sends;
        places.four_atoms += others.four_atoms;
        places.past_the_last_clock += others.past_the_last_clock;
        places.held_at_the_last_clock += others.held_at_the_last_clock;
    }
}

pub fn add_each(counts: &mut [u64], others: &[u64]) {
    for (count, other) in counts.iter_mut().zip(others) {
        *count += other;
    }
}

/// The names of the kinds of events, from 1 on.
pub const KINDS: [&str; 11] = [
    "ACTIVATE",
    "DEACTIVATE",
    "DISPATCH",
    "START",
    "COMPLETE",
    "DEADLINE",
    "MISS",
    "REQUEST",
    "ENTER",
    "LEAVE",
    "TICK",
];

impl Display for Reach {
    fn fmt(&self, formatter: &mut Formatter) -> fmt::Result {
        for kind in usize::from(ACTIVATE)..=usize::from(LEAVE) {
            let item = if kind <= usize::from(MISS) {
                "thread"
            } else {
                "mode transition"
            };
            let what = format!("{} by {item}", KINDS[kind - 1]);
            write_counts(formatter, &what, &self.taken[kind])?;
        }
        write_counts(formatter, "ENTER by new mode", &self.entered)?;
        write_counts(formatter, "LEAVE by new mode", &self.left)?;
        for (what, counts) in [
            ("written starts not 0, by input port", &self.started),
            ("taken again from the buffer, by input port", &self.kept),
            ("sends that changed a buffer, by connection", &self.sent),
        ] {
            write_counts(formatter, what, counts)?;
        }
        write_counts(formatter, "guards that held, by transition", &self.guarded)?;
        write_counts(
            formatter,
            "assignments of other values, by transition",
            &self.assigned,
        )?;
        writeln!(formatter, "{}", self.places)?;
        write!(formatter, "{}", self.stops)?;
        writeln!(formatter, "{}", self.ends)
    }
}

impl Display for Places {
    fn fmt(&self, formatter: &mut Formatter) -> fmt::Result {
        let Places {
            default_sends,
            four_atoms,
            past_the_last_clock,
            held_at_the_last_clock,
        } = *self;
        write!(
            formatter,
            "COMPLETE without transition that changed a buffer: {default_sends}; guards of four \
             atoms that held: {four_atoms}; with active threads, TICK past the last clock: \
             {past_the_last_clock}; TICK held at the last clock: {held_at_the_last_clock}"
        )
    }
}

/// The counts in the order of the numbers.
fn write_counts(formatter: &mut Formatter, what: &str, counts: &[u64]) -> fmt::Result {
    let counts: Vec<String> = counts.iter().map(u64::to_string).collect();
    writeln!(formatter, "{what}: {}", counts.join(" "))
}
