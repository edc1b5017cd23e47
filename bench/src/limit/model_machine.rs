//! The model's machine on a state that is changed in place. Threads are bits of
//! masks, one mask for each code.

use plain::model::{COMPLETED, EXECUTION, NONE, WAITING_DISPATCH, WAITING_EXECUTION, WAITING_MODE};
use plain::refusal::{LAST_CLOCK, NOT_ENABLED};
use plain::script::{
    ACTIVATE, COMPLETE, DEACTIVATE, DEADLINE, DISPATCH, ENTER, LAST_NOW, LEAVE, MISS, REQUEST,
    START, TICK,
};
use plain::table::variable;
use plain::table::Variables;

use super::model::{
    Assignment, Atom, Change, Model, Part, Thread, Value, BUFFERS, INPUTS, LOCALS, OUTPUTS, PLACES,
};
use super::{Event, TAKEN};

/// The phases.
const STEADY: u8 = 0;
const REQUEST_PENDING: u8 = 1;
const IN_TRANSITION: u8 = 2;

/// As many assignments as a transition has at most.
const ASSIGNMENTS: usize = 4;

#[derive(Clone)]
pub struct State {
    pub now: u32,
    /// Nothing can be enabled before this instant; 0 where that is not known.
    quiet_until: u32,
    mode: u8,
    phase: u8,
    pending: u8,
    cpu: u8,
    entered_at: u32,
    active: u16,
    flags: u32,
    /// The threads with each code.
    with: [u16; 5],
    codes: [u8; 16],
    behavior_states: [u8; 16],
    dispatched_at: [u32; 16],
    due: [u32; 16],
    /// When the running job ends.
    end: [u32; 16],
    /// Of threads that wait for dispatch: the next instant of their period.
    next_period: [u32; 16],
    missed: [u32; 16],
    values: [i32; PLACES],
}

impl State {
    pub fn start(model: &Model) -> State {
        let mut state = State {
            now: 0,
            quiet_until: 0,
            mode: model.mode,
            phase: STEADY,
            pending: NONE,
            cpu: NONE,
            entered_at: 0,
            active: model.active,
            flags: model.flags,
            with: [0; 5],
            codes: [WAITING_MODE; 16],
            behavior_states: [0; 16],
            dispatched_at: [0; 16],
            due: [0; 16],
            end: [0; 16],
            next_period: [0; 16],
            missed: [0; 16],
            values: [0; PLACES],
        };
        let threads = model.threads.len();
        state.with[usize::from(WAITING_MODE)] = ((1_u32 << threads) - 1) as u16;
        state.behavior_states[..threads].copy_from_slice(&model.behavior_states);
        for (place, starts) in [
            (INPUTS, &model.port_starts),
            (BUFFERS, &model.port_starts),
            (LOCALS, &model.locals),
        ] {
            state.values[place..][..starts.len()].copy_from_slice(starts);
        }
        state
    }

    /// The answer to an event. A refused one changes nothing.
    #[inline]
    pub fn step(&mut self, model: &Model, event: &Event) -> u8 {
        if event.kind == TICK {
            return self.ticks(model, event.figure);
        }
        let id = usize::from(event.id);
        let taken = match event.kind {
            REQUEST..=LEAVE => match model.changes.get(id) {
                Some(change) => self.change(event.kind, event.id, change),
                None => false,
            },
            _ => match model.threads.get(id) {
                Some(thread) => self.thread_event(model, event, id, thread),
                None => false,
            },
        };
        if !taken {
            return NOT_ENABLED;
        }
        self.quiet_until = 0;
        TAKEN
    }

    #[inline(always)]
    fn thread_event(&mut self, model: &Model, event: &Event, id: usize, thread: &Thread) -> bool {
        match event.kind {
            ACTIVATE => self.activate(id, thread),
            DEACTIVATE => self.deactivate(model, id),
            DISPATCH => self.dispatch(model, id, thread),
            START => self.start_job(model, id, thread, event.figure),
            COMPLETE => self.complete(model, id, thread),
            DEADLINE => self.deadline(model, id, thread),
            MISS => self.miss(id, thread),
            _ => false,
        }
    }

    fn is_active(&self, thread: usize) -> bool {
        self.active >> thread & 1 == 1
    }

    fn set_code(&mut self, thread: usize, code: u8) {
        let bit = 1 << thread;
        self.with[usize::from(self.codes[thread])] &= !bit;
        self.with[usize::from(code)] |= bit;
        self.codes[thread] = code;
    }

    /// Waiting for dispatch from now on.
    fn await_dispatch(&mut self, id: usize, thread: &Thread) {
        self.set_code(id, WAITING_DISPATCH);
        self.next_period[id] = self.now.next_multiple_of(thread.period);
    }

    fn activate(&mut self, id: usize, thread: &Thread) -> bool {
        let enabled = self.codes[id] == WAITING_MODE && self.is_active(id);
        if enabled {
            self.await_dispatch(id, thread);
        }
        enabled
    }

    /// A job in hand is stopped, and frees the processor if it runs.
    fn deactivate(&mut self, model: &Model, id: usize) -> bool {
        let enabled = self.leaving(model) >> id & 1 == 1;
        if enabled {
            if self.codes[id] == EXECUTION {
                self.cpu = NONE;
            }
            self.set_code(id, WAITING_MODE);
        }
        enabled
    }

    /// The threads that are to be deactivated: with no job, or with one that is
    /// stopped.
    fn leaving(&self, model: &Model) -> u16 {
        let [_, at_rest, waiting, running, completed] = self.with;
        (at_rest | (waiting | running | completed) & model.stopped) & !self.active
    }

    fn dispatch(&mut self, model: &Model, id: usize, thread: &Thread) -> bool {
        let ready = self.codes[id] == WAITING_DISPATCH
            && self.is_active(id)
            && self.next_period[id] == self.now;
        if !ready || self.awaits_value(model, thread) {
            return false;
        }
        self.set_code(id, WAITING_EXECUTION);
        self.dispatched_at[id] = self.now;
        self.due[id] = self.now + thread.deadline;
        self.freeze(model, thread, |live| !live);
        true
    }

    /// Whether a thread that feeds it later has a job that is due now.
    fn awaits_value(&self, model: &Model, thread: &Thread) -> bool {
        part(&model.feeds, &thread.fed_later).iter().any(|feed| {
            let source = usize::from(feed.source);
            self.flags & feed.flag != 0
                && self.codes[source] >= WAITING_EXECUTION
                && self.due[source] == self.now
        })
    }

    /// Input ports take their buffers, by whether a live immediate connection
    /// feeds them.
    #[inline(always)]
    fn freeze(&mut self, model: &Model, thread: &Thread, takes: impl Fn(bool) -> bool) {
        for input in part(&model.inputs, &thread.inputs) {
            if takes(self.flags & input.immediate != 0) {
                let port = usize::from(input.port);
                self.values[INPUTS + port] = self.values[BUFFERS + port];
            }
        }
    }

    fn start_job(&mut self, model: &Model, id: usize, thread: &Thread, length: u32) -> bool {
        if !self.may_start(model, id, thread) || !(thread.bcet..=thread.wcet).contains(&length) {
            return false;
        }
        self.set_code(id, EXECUTION);
        self.cpu = id as u8;
        self.end[id] = self.now + length;
        self.freeze(model, thread, |live| live);
        true
    }

    fn may_start(&self, model: &Model, id: usize, thread: &Thread) -> bool {
        self.codes[id] == WAITING_EXECUTION
            && self.cpu == NONE
            && self.due[id] != self.now
            && !part(&model.feeds, &thread.fed_at_once).iter().any(|feed| {
                self.flags & feed.flag != 0 && self.is_held_by(model, id, usize::from(feed.source))
            })
    }

    /// Whether an immediate source is still to complete for this job.
    fn is_held_by(&self, model: &Model, id: usize, source: usize) -> bool {
        let dispatched_at = self.dispatched_at[id];
        match self.codes[source] {
            WAITING_EXECUTION | EXECUTION => self.dispatched_at[source] == dispatched_at,
            COMPLETED => false,
            _ => {
                dispatched_at == self.now
                    && self.is_active(source)
                    && self.now.is_multiple_of(model.threads[source].period)
            }
        }
    }

    fn complete(&mut self, model: &Model, id: usize, thread: &Thread) -> bool {
        if self.codes[id] != EXECUTION || self.end[id] != self.now {
            return false;
        }
        let from = usize::from(self.behavior_states[id]);
        let leaving = part(&model.transitions, &thread.transitions[from]);
        let holds = |guard: &Part| {
            let atoms = part(&model.atoms, guard);
            atoms.iter().all(|atom| self.holds(atom))
        };
        if let Some(transition) = leaving.iter().find(|one| holds(&one.guard)) {
            self.assign(part(&model.assignments, &transition.assignments));
            self.behavior_states[id] = transition.to;
        }
        self.send(model, &thread.sends_at_once);
        self.set_code(id, COMPLETED);
        self.cpu = NONE;
        true
    }

    fn value(&self, value: Value) -> i32 {
        match value {
            Value::Constant(value) => value,
            Value::Place(place) => self.values[usize::from(place)],
        }
    }

    fn holds(&self, atom: &Atom) -> bool {
        let (left, right) = (self.value(atom.left), self.value(atom.right));
        match atom.op {
            0 => left == right,
            1 => left != right,
            2 => left < right,
            3 => left >= right,
            4 => left > right,
            _ => left <= right,
        }
    }

    /// All assignments read the values before.
    fn assign(&mut self, assignments: &[Assignment]) {
        let mut new = [0; ASSIGNMENTS];
        for (new, assignment) in new.iter_mut().zip(assignments) {
            let (first, second) = (self.value(assignment.first), self.value(assignment.second));
            *new = match assignment.op {
                0 => first,
                1 => first.saturating_add(second),
                _ => first.saturating_sub(second),
            };
        }
        for (new, assignment) in new.iter().zip(assignments) {
            self.values[usize::from(assignment.target)] = *new;
        }
    }

    fn send(&mut self, model: &Model, sends: &Part) {
        for send in part(&model.sends, sends) {
            if self.flags & send.flag != 0 {
                self.values[usize::from(send.input)] = self.values[usize::from(send.output)];
            }
        }
    }

    fn deadline(&mut self, model: &Model, id: usize, thread: &Thread) -> bool {
        if self.codes[id] != COMPLETED || self.due[id] != self.now {
            return false;
        }
        self.send(model, &thread.sends_later);
        self.end_job(id, thread);
        true
    }

    fn end_job(&mut self, id: usize, thread: &Thread) {
        match self.is_active(id) {
            true => self.await_dispatch(id, thread),
            false => self.set_code(id, WAITING_MODE),
        }
    }

    fn miss(&mut self, id: usize, thread: &Thread) -> bool {
        let runs = self.codes[id] == EXECUTION;
        let in_work = match runs {
            true => self.end[id] != self.now,
            false => self.codes[id] == WAITING_EXECUTION,
        };
        if !in_work || self.due[id] != self.now {
            return false;
        }
        self.missed[id] += 1;
        if runs {
            self.cpu = NONE;
        }
        self.end_job(id, thread);
        true
    }

    fn change(&mut self, kind: u8, id: u8, change: &Change) -> bool {
        match kind {
            REQUEST => {
                if self.phase == STEADY && self.mode == change.from {
                    (self.phase, self.pending) = (REQUEST_PENDING, id);
                }
                true
            }
            ENTER => self.enter(id, change),
            _ => self.leave(id, change),
        }
    }

    fn enter(&mut self, id: u8, change: &Change) -> bool {
        let asked = self.phase == REQUEST_PENDING && self.pending == id;
        if !asked || !self.now.is_multiple_of(change.hyperperiod_old) {
            return false;
        }
        self.phase = IN_TRANSITION;
        self.entered_at = self.now;
        self.active = change.active;
        self.flags = change.flags_between;
        true
    }

    fn leave(&mut self, id: u8, change: &Change) -> bool {
        let entered = self.phase == IN_TRANSITION && self.pending == id;
        if !entered
            || self.now == self.entered_at
            || !self.now.is_multiple_of(change.hyperperiod_common)
        {
            return false;
        }
        (self.phase, self.pending) = (STEADY, NONE);
        self.mode = change.to;
        self.flags = change.flags_after;
        true
    }

    /// Time passes up to where something is enabled.
    #[inline]
    fn ticks(&mut self, model: &Model, ticks: u32) -> u8 {
        if self.quiet_until == 0 {
            self.quiet_until = match self.is_urgent(model) {
                true => self.now,
                false => self.next_instant(model),
            };
        }
        let end = self.now + ticks;
        if end > self.quiet_until && self.quiet_until <= LAST_NOW {
            return NOT_ENABLED;
        }
        if end > LAST_NOW {
            return LAST_CLOCK;
        }
        self.now = end;
        TAKEN
    }

    /// Whether any event but REQUEST and TICK is enabled. A dispatch that is held
    /// back is so by a job that is due, and then that job's event is enabled.
    fn is_urgent(&self, model: &Model) -> bool {
        let now = self.now;
        let [in_no_mode, at_rest, waiting, running, completed] = self.with;
        in_no_mode & self.active != 0
            || self.leaving(model) != 0
            || bits(at_rest).any(|id| self.next_period[id] == now)
            || bits(waiting | running | completed).any(|id| self.due[id] == now)
            || bits(running).any(|id| self.end[id] == now)
            || self.next_change(model) == now
            || (self.cpu == NONE
                && bits(waiting).any(|id| self.may_start(model, id, &model.threads[id])))
    }

    /// The next instant at which something is enabled, where nothing is now.
    fn next_instant(&self, model: &Model) -> u32 {
        let [_, at_rest, waiting, running, completed] = self.with;
        let periods = bits(at_rest).map(|id| self.next_period[id]);
        let jobs = bits(waiting | running | completed).map(|id| self.due[id]);
        let ends = bits(running).map(|id| self.end[id]);
        let next = periods.chain(jobs).chain(ends).min();
        next.unwrap_or(u32::MAX).min(self.next_change(model))
    }

    /// When ENTER or LEAVE is enabled, now or later.
    fn next_change(&self, model: &Model) -> u32 {
        let Some(change) = model.changes.get(usize::from(self.pending)) else {
            return u32::MAX;
        };
        match self.phase {
            REQUEST_PENDING => self.now.next_multiple_of(change.hyperperiod_old),
            IN_TRANSITION => {
                let first = self.now.max(self.entered_at + 1);
                first.next_multiple_of(change.hyperperiod_common)
            }
            _ => u32::MAX,
        }
    }

    /// What the table's variables stand for.
    pub fn show(&self, model: &Model) -> Variables {
        let mut shown = [0; variable::COUNT];
        shown[variable::NOW] = self.now as i32;
        shown[variable::MODE] = i32::from(self.mode);
        shown[variable::PHASE] = i32::from(self.phase);
        shown[variable::PENDING] = i32::from(self.pending);
        shown[variable::ENTERED_AT] = self.entered_at as i32;
        shown[variable::CPU] = i32::from(self.cpu);
        for thread in 0..model.threads.len() {
            shown[variable::active(thread)] = i32::from(self.is_active(thread));
            shown[variable::state(thread)] = i32::from(self.codes[thread]);
            shown[variable::dispatch_time(thread)] = self.dispatched_at[thread] as i32;
            shown[variable::due(thread)] = self.due[thread] as i32;
            shown[variable::behavior_state(thread)] = i32::from(self.behavior_states[thread]);
            shown[variable::missed(thread)] = self.missed[thread] as i32;
            if self.codes[thread] == EXECUTION {
                shown[variable::end(thread)] = self.end[thread] as i32;
            }
        }
        for connection in 0..32 {
            let live = self.flags >> connection & 1;
            shown[variable::connection_active(connection)] = live as i32;
        }
        let places = [
            (INPUTS, variable::input_port(0)),
            (BUFFERS, variable::port_buffer(0)),
            (OUTPUTS, variable::output_port(0)),
            (LOCALS, variable::local(0)),
        ];
        for (place, variable) in places {
            shown[variable..variable + 32].copy_from_slice(&self.values[place..place + 32]);
        }
        shown
    }
}

/// The items of a part of a list.
#[inline(always)]
fn part<'a, T>(list: &'a [T], part: &Part) -> &'a [T] {
    &list[usize::from(part.start)..usize::from(part.end)]
}

/// The numbers of the bits that are set.
#[inline(always)]
fn bits(mut mask: u16) -> impl Iterator<Item = usize> {
    std::iter::from_fn(move || {
        let first = mask.trailing_zeros() as usize;
        mask &= mask.wrapping_sub(1);
        (first < 16).then_some(first)
    })
}
