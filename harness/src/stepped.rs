//! What the library says event by event: of a model on a state that is lent, of
//! a table by an index, and what is enabled along the way.

use futonkestrel::{events, raw, MODEL_WORDS, STATE_WORDS};

use crate::answers::{After, Listed, Step, Told, Variables, BEHIND, FIGURE, VARIABLES};
use crate::case::Spoil;
use crate::found::{lend_variables, steps};
use crate::lending::{lend, lend_marks, Lending, Number};
use crate::starts::{any_questions, Answered, Asked, Question};

/// A model that is read into numbers, and a script on a state that is lent.
#[derive(Default)]
pub struct StateWalk {
    pub read: Told,
    /// The same into one number too few.
    pub short_read: Told,
    /// None of the following where the model is refused.
    pub words: Vec<u32>,
    /// The state at the end.
    pub state: Vec<u32>,
    pub steps: Vec<Step>,
    /// The state as it is shown at the start and after each event.
    pub shown: Vec<After>,
    pub offers: Vec<Listed>,
    /// What START's test tells there.
    pub starts: Vec<Vec<Answered>>,
    /// The same at the end into several places; on too few numbers.
    pub start_places: Vec<Lending<usize>>,
    pub start_short: Vec<Lending<usize>>,
    /// The calls that changed the state, or were to leave it.
    pub lendings: Vec<Lending<u32>>,
    /// Calls with too few numbers.
    pub short: Vec<Lending<u32>>,
}

/// Where the clock stands among the numbers of a state.
const CLOCK_PLACE: usize = 0;

/// START's test is asked for at the start and after each event, as far as there are
/// questions.
pub fn on_state(model: &[u8], script: &[u8], asked: &[Vec<Asked>], more_rooms: bool) -> StateWalk {
    on_late_state(model, 0, script, asked, more_rooms)
}

/// The walk starts at that clock.
pub fn on_late_state(
    model: &[u8],
    clock: u32,
    script: &[u8],
    asked: &[Vec<Asked>],
    more_rooms: bool,
) -> StateWalk {
    let mut walk = StateWalk::default();
    walk.read(model);
    if walk.read.number != 0 {
        return walk;
    }
    let words = walk.words.clone();
    walk.change(|state| raw::model_start(&words, state));
    walk.state[CLOCK_PLACE] = clock;
    let last = asked.last().and_then(|asked| asked.last());
    let mut asked = asked.iter();
    walk.look(more_rooms, asked.next());
    for (number, start, event) in steps(script) {
        let answer = walk.change(|state| raw::model_step(&words, state, event));
        let after = walk.look(more_rooms, asked.next());
        walk.steps.push(Step {
            number,
            start,
            end: start + event.len(),
            after: After { answer, ..after },
        });
    }
    walk.try_short(events(script).next().unwrap_or_default());
    if let Some(asked) = last {
        walk.try_places(asked.question);
    }
    walk
}

impl StateWalk {
    /// Into enough numbers, and into one too few.
    fn read(&mut self, model: &[u8]) {
        let mut told = [usize::MAX; 2];
        let read = lend(&vec![u32::MARK; MODEL_WORDS], |words| {
            raw::model_read(model, words, &mut told)
        });
        self.read = told_of(&read, told);
        let mut told = [usize::MAX; 2];
        let short = lend_marks(MODEL_WORDS - 1, |words| {
            raw::model_read(model, words, &mut told)
        });
        self.short_read = told_of(&short, told);
        self.words.clone_from(&read.after);
        self.lendings.extend([read, short]);
        self.state = vec![u32::MARK; STATE_WORDS];
    }

    fn change(&mut self, call: impl FnOnce(&mut [u32]) -> u32) -> u32 {
        let lending = lend(&self.state, call);
        let answer = lending.answer;
        self.state.clone_from(&lending.after);
        self.lendings.push(lending);
        answer
    }

    /// Shows the state, and what is enabled in it, and asks START's test.
    fn look(&mut self, more_rooms: bool, asked: Option<&Vec<Asked>>) -> After {
        let shown = lend_variables(&[FIGURE; VARIABLES], |variables| {
            raw::model_variables(&self.words, &self.state, variables)
        });
        self.shown.push(shown.clone());
        let (words, state) = (&self.words, &self.state);
        self.offers.push(listed(more_rooms, |output, told| {
            raw::model_enabled(words, state, output, told)
        }));
        self.starts.extend(asked.map(|asked| {
            let answers = asked.iter().map(|asked| ask(words, state, asked.question));
            answers.collect()
        }));
        shown
    }

    /// START's test in the last state, also with numbers behind it or with too few.
    fn try_places(&mut self, Question { thread, length }: Question) {
        let test = |state: &[u32], places| {
            lend_marks(places, |told| {
                raw::model_start_test(&self.words, state, thread, length, told)
            })
        };
        let (state, mut longer) = (&self.state, self.state.clone());
        longer.resize(STATE_WORDS + BEHIND, u32::MARK);
        let told = [test(state, 1 + BEHIND), test(state, 0), test(&longer, 1)];
        let short = [test(&state[1..], 1 + BEHIND), test(&[], 1)];
        self.start_places.extend(told);
        self.start_short.extend(short);
    }

    fn try_short(&mut self, event: &[u8]) {
        let (words, state) = (&self.words, &self.state);
        let few = STATE_WORDS - 1;
        self.short.extend([
            lend_marks(few, |state| raw::model_start(words, state)),
            lend_marks(few, |state| raw::model_step(words, state, event)),
            lend_marks(4 * 64, |output| {
                raw::model_enabled(words, &state[..few], output, &mut [])
            }),
        ]);
    }
}

/// What START's test tells in a state, and the answer to that START on a copy.
fn ask(words: &[u32], state: &[u32], question: Question) -> Answered {
    let Question { thread, length } = question;
    let mut told = [usize::MARK; 2];
    let answer = raw::model_start_test(words, state, thread, length, &mut told);
    let step = |event: Vec<u8>| raw::model_step(words, &mut state.to_vec(), &event);
    Answered {
        answer,
        told,
        start: question.event().map(step),
    }
}

fn told_of(lending: &Lending<u32>, [start, end]: [usize; 2]) -> Told {
    Told {
        number: lending.answer,
        start,
        end,
    }
}

/// The enabled events as they are listed into several rooms.
pub fn listed(more_rooms: bool, list: impl Fn(&mut [u32], &mut [usize]) -> u32) -> Listed {
    let into = |room: usize| {
        let mut told = [usize::MAX; 3];
        let lending = lend_marks(room, |output| list(output, &mut told));
        (lending, told)
    };
    let none = into(0);
    // A count that cannot be is found by the comparison.
    let needed = none.1[0].saturating_mul(4).min(1 << 24);
    let mut rooms = vec![none];
    if more_rooms && needed > 0 {
        rooms.push(into(needed - 1));
    }
    rooms.push(into(needed + 3));
    Listed { rooms }
}

/// The index of a table, made into so much room.
pub fn index_into(table: &[u8], room: usize) -> Vec<usize> {
    let mut index = vec![usize::MARK; room];
    raw::table_index(table, &mut index);
    index
}

/// How many numbers list all rules.
pub fn index_size(table: &[u8]) -> usize {
    raw::table_index(table, &mut [])
}

/// Indexes made into several rooms, each with the count that was told.
pub fn indexes(table: &[u8], rooms: &[usize]) -> Vec<(usize, Vec<usize>)> {
    let into = |&room: &usize| {
        let mut index = vec![usize::MARK; room];
        let count = raw::table_index(table, &mut index);
        (count, index)
    };
    rooms.iter().map(into).collect()
}

/// What a table offers with some variables.
pub fn table_offers(
    table: &[u8],
    index: &[usize],
    variables: &Variables,
    more_rooms: bool,
) -> Listed {
    listed(more_rooms, |output, told| {
        raw::table_enabled(table, index, variables, output, told)
    })
}

/// What came of numbers of any content that stand for a model and a state.
pub struct AnyState {
    pub lendings: Vec<Lending<u32>>,
    pub shown: After,
    pub offers: Listed,
    /// The answers to the events offered, each on the same state, and to TICK 1.
    pub taken: Vec<u32>,
    pub tick: u32,
    /// What START's test tells, of threads that need not be there.
    pub starts: Vec<Answered>,
}

/// Some numbers of a model and its state are others.
pub fn any_state(walk: &StateWalk, spoils: &[Spoil], event: &[u8]) -> AnyState {
    let (mut words, mut state) = (walk.words.clone(), walk.state.clone());
    for spoil in spoils {
        let numbers = if spoil.of_model {
            &mut words
        } else {
            &mut state
        };
        let place = spoil.place % numbers.len();
        numbers[place] = spoil.number;
    }
    let step = |event: &[u8]| lend(&state, |state| raw::model_step(&words, state, event));
    let offers = listed(false, |output, told| {
        raw::model_enabled(&words, &state, output, told)
    });
    let offered = offers.events();
    let taken = offered.iter().map(|&offer| step(&event_of(offer)).answer);
    AnyState {
        starts: any_starts(&words, &state, &offered, spoils),
        lendings: vec![
            step(event),
            lend(&state, |state| raw::model_start(&words, state)),
        ],
        shown: lend_variables(&[FIGURE; VARIABLES], |variables| {
            raw::model_variables(&words, &state, variables)
        }),
        taken: taken.collect(),
        tick: step(&[0x0B, 1, 0]).answer,
        offers,
    }
}

/// What START's test tells of numbers of any content; the model is cut too.
fn any_starts(
    words: &[u32],
    state: &[u32],
    offered: &[[u32; 4]],
    spoils: &[Spoil],
) -> Vec<Answered> {
    let cut = spoils.first().map_or(0, |spoil| spoil.place % words.len());
    let questions = any_questions(offered).into_iter();
    questions
        .flat_map(|question| [words, &words[..cut]].map(|words| ask(words, state, question)))
        .collect()
}

/// The event that is offered, a START of the shortest length.
fn event_of([kind, id, low, _]: [u32; 4]) -> Vec<u8> {
    let mut event = vec![kind as u8, id as u8];
    if kind == 0x04 {
        event.extend(low.to_le_bytes());
    }
    event
}
