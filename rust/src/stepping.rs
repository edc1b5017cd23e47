//! Models and tables stepped event by event, on states that the caller keeps.

use crate::{
    raw, read_table, run_table, table_listing, Refusal, Run, StartStep, Variables, NOT_TOLD,
    VARIABLES,
};

/// How many numbers a model takes once it is read.
pub const MODEL_WORDS: usize = 3_865;

/// How many numbers the state of a model takes.
pub const STATE_WORDS: usize = 278;

/// The kind of event that chooses a length.
const START: u8 = 0x04;

/// The numbers that the library lists for one event.
const PER_EVENT: usize = 4;

/// Room for what is enabled at first: more than most states need.
const USUAL_EVENTS: usize = 32;

/// An accepted table, to be run event by event on variables that the caller
/// keeps. So a checker can go back to any state and try another order of events.
/// It has an index of its rules, made once, so that no step walks the bytes.
#[derive(Clone, Debug)]
pub struct Table<'a> {
    bytes: &'a [u8],
    index: Vec<usize>,
}

impl<'a> Table<'a> {
    /// Reads a table.
    pub fn read(bytes: &'a [u8]) -> Result<Table<'a>, Refusal> {
        read_table(bytes)?;
        let mut index = vec![0; raw::table_index(bytes, &mut [])];
        raw::table_index(bytes, &mut index);
        Ok(Table { bytes, index })
    }

    /// The bytes that were read.
    pub fn bytes(&self) -> &'a [u8] {
        self.bytes
    }

    /// The variables before any event.
    pub fn start(&self) -> Variables {
        let mut variables = [0; VARIABLES];
        raw::table_start(self.bytes, &mut variables);
        variables
    }

    /// Gives one event to the table. A refused event, told by its number from 9
    /// to 13, leaves the variables as they were.
    pub fn step(&self, variables: &mut Variables, event: &[u8]) -> Result<(), u32> {
        answered(raw::table_step(self.bytes, &self.index, variables, event))
    }

    /// What is enabled. A table that no model made may offer a kind and id more
    /// than once; such an event is refused with 12.
    pub fn enabled(&self, variables: &Variables) -> Enabled {
        Enabled::listed(|output, told| {
            raw::table_enabled(self.bytes, &self.index, variables, output, told)
        })
    }

    /// Runs a script from the start up to the first refused event.
    pub fn run(&self, script: &[u8]) -> Run {
        run_table(self.bytes, script)
    }

    /// The lines of such a run.
    pub fn listing(&self, script: &[u8]) -> Vec<u8> {
        table_listing(self.bytes, script)
    }
}

/// An accepted model, to be run event by event on states that the caller keeps.
#[derive(Clone, Debug)]
pub struct Model {
    words: Box<[u32]>,
}

impl Model {
    /// Reads a model.
    pub fn read(bytes: &[u8]) -> Result<Model, Refusal> {
        let mut words = vec![0; MODEL_WORDS].into_boxed_slice();
        let mut told = [0; 2];
        let number = raw::model_read(bytes, &mut words, &mut told);
        Refusal::unless_zero(number, told[0], told[1]).map(|()| Model { words })
    }

    /// The state before any event.
    pub fn start(&self) -> State {
        let mut state = State {
            words: [0; STATE_WORDS],
        };
        raw::model_start(&self.words, &mut state.words);
        state
    }

    /// Gives one event to the model. A refused event, told by its number from 9
    /// to 11, leaves the state as it was.
    pub fn step(&self, state: &mut State, event: &[u8]) -> Result<(), u32> {
        answered(raw::model_step(&self.words, &mut state.words, event))
    }

    /// What the variables of the model's table stand for in a state. Due is
    /// shown of threads with a job in hand and End of those that run; elsewhere
    /// they are 0, where a table may have kept what they were.
    pub fn variables(&self, state: &State) -> Variables {
        let mut variables = [0; VARIABLES];
        raw::model_variables(&self.words, &state.words, &mut variables);
        variables
    }

    /// What is enabled; the model's table offers the same.
    pub fn enabled(&self, state: &State) -> Enabled {
        Enabled::listed(|output, told| raw::model_enabled(&self.words, &state.words, output, told))
    }

    /// Tests START of this thread and length in a state. A thread may have any
    /// number: one that is not there fails at the first step.
    pub fn start_test(&self, state: &State, thread: u32, length: u32) -> StartStep {
        let mut told = [NOT_TOLD];
        raw::model_start_test(&self.words, &state.words, thread, length, &mut told);
        StartStep::told(told[0])
    }
}

/// The state of a model. Equal states have taken equal turns: they can be kept
/// in sets, and left and gone back to at will. [`Model::variables`] shows what
/// it holds.
#[derive(Clone, Debug, PartialEq, Eq, Hash)]
pub struct State {
    words: [u32; STATE_WORDS],
}

impl State {
    /// The numbers that the library keeps a state in, for one who stores them.
    pub fn words(&self) -> &[u32; STATE_WORDS] {
        &self.words
    }

    /// The state that such numbers hold; any numbers stand for one.
    pub fn of_words(words: [u32; STATE_WORDS]) -> State {
        State { words }
    }
}

/// What can happen next.
#[derive(Clone, Debug, PartialEq, Eq)]
pub struct Enabled {
    /// The enabled events by kind, then by id.
    pub events: Vec<Offer>,
    /// Whether a TICK may pass: no event but REQUEST is enabled, and the clock
    /// is below its last figure.
    pub tick: bool,
}

impl Enabled {
    /// Asks with room for the usual, and again where more is told.
    fn listed(list: impl Fn(&mut [u32], &mut [usize]) -> u32) -> Enabled {
        let mut usual = [0; USUAL_EVENTS * PER_EVENT];
        let mut told = [0; 2];
        if list(&mut usual, &mut told) == 0 {
            return Enabled::told(&usual, told);
        }
        let mut output = vec![0; told[0] * PER_EVENT];
        list(&mut output, &mut told);
        Enabled::told(&output, told)
    }

    fn told(output: &[u32], [count, tick]: [usize; 2]) -> Enabled {
        let numbers = output.chunks_exact(PER_EVENT).take(count);
        Enabled {
            events: numbers.map(Offer::listed).collect(),
            tick: tick == 1,
        }
    }
}

/// An enabled event.
#[derive(Clone, Copy, Debug, PartialEq, Eq, Hash)]
pub struct Offer {
    pub kind: u8,
    /// The thread, or the mode transition of the kinds from 8 on.
    pub id: u8,
    /// The shortest and the longest length of a START; 0 for other kinds.
    pub low: u32,
    pub high: u32,
}

impl Offer {
    fn listed(numbers: &[u32]) -> Offer {
        Offer {
            // Kinds and ids are bytes of records.
            kind: numbers[0] as u8,
            id: numbers[1] as u8,
            low: numbers[2],
            high: numbers[3],
        }
    }

    /// The event, a START with this length.
    pub fn event(&self, length: u32) -> Vec<u8> {
        let mut event = vec![self.kind, self.id];
        if self.kind == START {
            event.extend(length.to_le_bytes());
        }
        event
    }

    /// The event, a START with its shortest length.
    pub fn shortest(&self) -> Vec<u8> {
        self.event(self.low)
    }

    /// The event, a START with its longest length.
    pub fn longest(&self) -> Vec<u8> {
        self.event(self.high)
    }
}

/// `Err` where a number was answered, else `Ok`.
fn answered(number: u32) -> Result<(), u32> {
    match number {
        0 => Ok(()),
        _ => Err(number),
    }
}
