//! The test for START: what is asked for in the states of a run and over bytes,
//! what is told, and what the questions met.

use std::fmt::{self, Display, Formatter};

use plain::model::{
    self, Model, State, Timing, CONNECTIONS_STEP, EXECUTION, NONE, PROCESSOR_STEP, STATE_STEP,
    WAITING_EXECUTION,
};

use crate::answers::{Said, Told};
use crate::lending::Lending;
use crate::random::Random;
use crate::reach::add_each;
use crate::scripts;

/// How many steps there are, and that none fails.
pub const STEPS: usize = 5;

/// How many places a test over bytes takes: start and end of the part refused, and
/// the step.
pub const START_PLACES: usize = 3;

/// A thread number, which no thread need have, and a length.
#[derive(Clone, Copy, Debug, PartialEq, Eq)]
pub struct Question {
    pub thread: u32,
    pub length: u32,
}

impl Display for Question {
    fn fmt(&self, formatter: &mut Formatter) -> fmt::Result {
        let Question { thread, length } = self;
        write!(formatter, "START of {thread} with length {length}")
    }
}

impl Question {
    /// The event, where a byte has the number.
    pub fn event(&self) -> Option<Vec<u8>> {
        let id = u8::try_from(self.thread).ok()?;
        Some(scripts::start(id, self.length))
    }
}

/// A question in a state, and the step that the plain model tells.
#[derive(Clone, Copy, Debug, PartialEq, Eq)]
pub struct Asked {
    pub question: Question,
    pub step: u8,
}

/// What the library tells of it in a lent state.
#[derive(Clone, Copy, Debug, PartialEq, Eq)]
pub struct Answered {
    pub answer: u32,
    /// The step, and a place behind.
    pub told: [usize; 2],
    /// The answer to that START on a copy of the state, if it is an event.
    pub start: Option<u32>,
}

/// What is told over bytes. A refused model leaves the step's place.
#[derive(Clone, Copy, Debug, PartialEq, Eq)]
pub struct StartTold {
    pub told: Told,
    pub step: usize,
}

impl StartTold {
    /// As it is told into that many places or more.
    pub fn of(lending: &Lending<usize>) -> StartTold {
        let [start, end, step] = lending.after[..START_PLACES].try_into().expect("as many");
        StartTold {
            told: Told {
                number: lending.answer,
                start,
                end,
            },
            step,
        }
    }
}

/// Every thread and the number behind the last, the threads that wait for
/// execution twice; now and then a number far behind.
pub fn questions(random: &mut Random, model: &Model, state: &State) -> Vec<Question> {
    let count = model.threads.len() as u32;
    let waits = |&thread: &u32| state.threads[thread as usize].code == WAITING_EXECUTION;
    let waiting: Vec<u32> = (0..count).filter(waits).collect();
    let mut threads: Vec<u32> = (0..=count).collect();
    threads.extend(&waiting);
    if random.chance(20) {
        // A byte of it may be the number of a thread that could start.
        let low = waiting.first().copied().unwrap_or(0);
        let far = [15, 16, 255, 256 + low, (1 << 16) + low, (1 << 31) + low];
        threads.push(random.one_of(&far));
        threads.push(random.one_of(&[256, u32::MAX]));
    }
    let question = |thread| Question {
        thread,
        length: length(random, model, thread),
    };
    threads.into_iter().map(question).collect()
}

/// Half of the lengths are allowed.
fn length(random: &mut Random, model: &Model, thread: u32) -> u32 {
    let Some(thread) = model.threads.get(thread as usize) else {
        return random.one_of(&[0, 1, 1, 2, u32::MAX]);
    };
    let (min, max) = (thread.bcet.0 as u32, thread.wcet.0 as u32);
    random.one_of(&[min, min, max, max, min - 1, max + 1, 0, u32::MAX])
}

/// What is asked for over bytes: so many bytes of the script, and a question. The
/// whole script, and a part that leads to one of the steps if some part does, with
/// a cut event at its end or none.
pub fn over_bytes(turn: usize, script: &[u8], said: &Said) -> Vec<(usize, Question)> {
    let Some(last) = said.asked.last() else {
        let (thread, length) = (turn as u32 % 3, 1);
        return vec![(script.len(), Question { thread, length })];
    };
    let mut asks = vec![(script.len(), last[turn % last.len()].question)];
    let states = said.asked.len();
    let part = (0..states).find_map(|number| {
        let state = (turn + number) % states;
        let mut asked = said.asked[state].iter();
        let fits = asked.find(|asked| usize::from(asked.step) == turn % STEPS)?;
        Some((cut_behind(turn, said, state), fits.question))
    });
    asks.extend(part);
    asks
}

/// The bytes up to a state, and perhaps some of the event behind it, not all.
fn cut_behind(turn: usize, said: &Said, state: usize) -> usize {
    let end = match state {
        0 => 0,
        _ => said.steps[state - 1].end,
    };
    let next = said.steps.get(state);
    end + next.map_or(0, |step| turn % (step.end - step.start))
}

/// Questions for numbers of any content: a few threads, numbers of none, and the
/// STARTs that are offered, just inside and outside.
pub fn any_questions(offered: &[[u32; 4]]) -> Vec<Question> {
    let few = [
        (0, 1),
        (1, 2),
        (2, 1),
        (15, 1),
        (16, 1),
        (255, 0),
        (256, 1),
        (u32::MAX, u32::MAX),
    ];
    let starts = offered.iter().filter(|offer| offer[0] == 0x04);
    let ends = starts.flat_map(|&[_, id, low, high]| {
        let outside = [(id, low.wrapping_sub(1)), (id, high.wrapping_add(1))];
        [(id, low), (id, high), (id.wrapping_add(256), low)]
            .into_iter()
            .chain(outside)
    });
    few.into_iter()
        .chain(ends)
        .map(|(thread, length)| Question { thread, length })
        .collect()
}

/// How often each step was told, and what else would have failed there.
#[derive(Clone, Debug, Default)]
pub struct Starts {
    pub steps: [u64; STEPS],
    /// The causes of 1: no such thread, another code, Due is now.
    pub no_thread: u64,
    pub other_code: u64,
    pub due_now: u64,
    /// 1 beside a held processor, and that where Due is now; 2 beside a source
    /// with a job; 2 and 3 beside a wrong length.
    pub state_and_processor: u64,
    pub due_and_processor: u64,
    pub processor_and_connections: u64,
    pub processor_and_length: u64,
    pub connections_and_length: u64,
    /// 3 by a source with a job, and by one that is yet to be dispatched alone.
    pub source_at_work: u64,
    pub source_to_come: u64,
}

impl Starts {
    /// A question in a state, and the step told.
    pub fn note(&mut self, model: &Model, state: &State, asked: &Asked) {
        self.steps[usize::from(asked.step)] += 1;
        let thread = asked.question.thread as usize;
        match asked.step {
            STATE_STEP => self.note_state(model, state, thread),
            PROCESSOR_STEP => {
                self.processor_and_length += wrong_length(model, asked);
                let at_work = source_at_work(model, state, thread);
                self.processor_and_connections += u64::from(at_work);
            }
            CONNECTIONS_STEP => {
                self.connections_and_length += wrong_length(model, asked);
                let at_work = source_at_work(model, state, thread);
                self.source_at_work += u64::from(at_work);
                self.source_to_come += u64::from(!at_work);
            }
            _ => {}
        }
    }

    fn note_state(&mut self, model: &Model, state: &State, thread: usize) {
        let held = u64::from(state.cpu != NONE);
        self.state_and_processor += held;
        match state.threads.get(thread) {
            None => self.no_thread += 1,
            Some(own) if own.code != WAITING_EXECUTION => self.other_code += 1,
            Some(_) if model::due(model, state, thread) == state.now => {
                self.due_now += 1;
                self.due_and_processor += held;
            }
            Some(_) => {}
        }
    }

    /// What the questions met, with their counts.
    pub fn met(&self) -> [(&'static str, u64); 10] {
        [
            ("no such thread", self.no_thread),
            ("another code", self.other_code),
            ("Due is now", self.due_now),
            ("1 beside a held processor", self.state_and_processor),
            ("Due is now beside it", self.due_and_processor),
            (
                "2 beside a source with a job",
                self.processor_and_connections,
            ),
            ("2 beside a wrong length", self.processor_and_length),
            ("3 beside a wrong length", self.connections_and_length),
            ("3 by a source with a job", self.source_at_work),
            ("3 by a source to come", self.source_to_come),
        ]
    }

    /// These and those of other cases together.
    pub fn add(&mut self, other: &Starts) {
        add_each(&mut self.steps, &other.steps);
        self.no_thread += other.no_thread;
        self.other_code += other.other_code;
        self.due_now += other.due_now;
        self.state_and_processor += other.state_and_processor;
        self.due_and_processor += other.due_and_processor;
        self.processor_and_connections += other.processor_and_connections;
        self.processor_and_length += other.processor_and_length;
        self.connections_and_length += other.connections_and_length;
        self.source_at_work += other.source_at_work;
        self.source_to_come += other.source_to_come;
    }
}

/// Whether there is such a thread, with other lengths.
fn wrong_length(model: &Model, asked: &Asked) -> u64 {
    let thread = model.threads.get(asked.question.thread as usize);
    let wrong = thread.is_some_and(|thread| {
        let allowed = thread.bcet.0..=thread.wcet.0;
        !allowed.contains(&asked.question.length.into())
    });
    u64::from(wrong)
}

/// Whether a source has a job that was dispatched in the same instant.
fn source_at_work(model: &Model, state: &State, thread: usize) -> bool {
    let mut live = model
        .connections_into(thread, Timing::Immediate)
        .filter(|&connection| state.connection_active[connection]);
    live.any(|connection| {
        let source = &state.threads[model.source(connection)];
        matches!(source.code, WAITING_EXECUTION | EXECUTION)
            && source.dispatch_time == state.threads[thread].dispatch_time
    })
}
