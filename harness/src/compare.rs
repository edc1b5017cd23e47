//! The comparisons. Each takes what is wanted and what was found, and gives the
//! first difference in words.

use std::fmt::{Debug, Display};

use plain::script::{DISPATCH, START};

use crate::answers::{
    After, Listed, Listing, Offers, Run, Said, Size, Step, Told, Translation, Variables, BEHIND,
    BYTE, DUE, END, FIGURE, NOW, SIZE_PLACES, STATE, THREADS, VARIABLES,
};
use crate::lending::{Lending, Number};
use crate::records::table_records;
use crate::starts::{Answered, Asked, StartTold, START_PLACES, STEPS};
use crate::stepped::AnyState;

pub type Check = Result<(), String>;

/// The number and the part of a refused model or table, or none.
pub fn reading(wanted: &Told, found: &Told) -> Check {
    equal("number and part of the reading", wanted, found)
}

/// The state before any event.
pub fn start(wanted: &After, found: &After) -> Check {
    equal("answer for the start", &wanted.answer, &found.answer)?;
    same_variables("at the start", wanted, found)
}

/// The parts that a script falls into.
pub fn event_parts(wanted: &[Step], found: &[usize]) -> Check {
    let wanted: Vec<usize> = wanted.iter().map(|step| step.end - step.start).collect();
    equal("lengths of the parts of the script", &wanted[..], found)
}

/// The answers to the events of a script.
pub fn answers(wanted: &[Step], found: &[Step]) -> Check {
    pairs(wanted, found)?.try_for_each(|(wanted, found)| {
        let what = format_args!("answer to {found}");
        equal(what, &wanted.after.answer, &found.after.answer)
    })
}

/// The states after the events of a script; what stands behind the variables
/// stays.
pub fn variables(wanted: &[Step], found: &[Step]) -> Check {
    pairs(wanted, found)?.try_for_each(|(wanted, found)| {
        same_variables(format_args!("after {found}"), &wanted.after, &found.after)
    })
}

/// Single steps on variables that were lent.
pub fn lent_steps(wanted: &[After], found: &[After]) -> Check {
    equal("count of single steps", &wanted.len(), &found.len())?;
    for (number, (wanted, found)) in wanted.iter().zip(found).enumerate() {
        let what = format_args!("answer to single step {number}");
        equal(what, &wanted.answer, &found.answer)?;
        same_variables(format_args!("after single step {number}"), wanted, found)?;
    }
    Ok(())
}

/// The states of a model as they are shown, at the start and after each event.
pub fn shown(wanted: &[Variables], found: &[After]) -> Check {
    equal("count of states shown", &wanted.len(), &found.len())?;
    for (number, (wanted, found)) in wanted.iter().zip(found).enumerate() {
        let wanted = After {
            answer: 0,
            variables: *wanted,
            behind: [FIGURE; BEHIND],
        };
        let what = format_args!("answer when state {number} is shown");
        equal(what, &wanted.answer, &found.answer)?;
        same_variables(format_args!("of state {number}"), &wanted, found)?;
    }
    Ok(())
}

/// A call that is refused leaves the numbers that it was lent; no call writes
/// behind those that it has to do with.
pub fn lendings<T: Number>(found: &[Lending<T>]) -> Check {
    found.iter().enumerate().try_for_each(|(number, found)| {
        if found.answer != 0 {
            let what = format_args!("numbers after call {number}, refused");
            equal(what, &found.before, &found.after)?;
        }
        let marked = found.behind.iter().all(|number| *number == T::MARK);
        let what = format_args!("numbers behind those of call {number} are as they were");
        equal(what, &true, &marked)
    })
}

/// Too few numbers are refused with 8 and left.
pub fn short<T: Number>(found: &[Lending<T>]) -> Check {
    found.iter().enumerate().try_for_each(|(number, found)| {
        let what = format_args!("answer to call {number} with too few numbers");
        equal(what, &8, &found.answer)
    })?;
    lendings(found)
}

/// What is enabled at the start and after each event.
pub fn enabled(wanted: &[Offers], found: &[Listed]) -> Check {
    equal("count of lists", &wanted.len(), &found.len())?;
    for (number, (wanted, found)) in wanted.iter().zip(found).enumerate() {
        let (_, [count, tick, _]) = found.rooms.last().expect("there is a room");
        let told = [wanted.events.len(), usize::from(wanted.tick)];
        let what = format_args!("events counted and TICK in state {number}");
        equal(what, &told, &[*count, *tick])?;
        let what = format_args!("enabled in state {number}");
        equal(what, &wanted.events, &found.events())?;
    }
    Ok(())
}

/// A list is written where there is room for all of it, and nothing else; what is
/// told is the same in any room.
pub fn enabled_room(found: &[Listed]) -> Check {
    found.iter().try_for_each(|found| {
        let told = found.rooms[0].1;
        for (lending, other) in &found.rooms {
            equal("told of a list into other rooms", &told, other)?;
            equal("place behind those told", &usize::MAX, &other[2])?;
            let needed = told[0].saturating_mul(4);
            let room = lending.after.len();
            let what = format_args!("answer to a list of {needed} numbers into {room}");
            let answer = if room < needed { 8 } else { 0 };
            equal(what, &answer, &lending.answer)?;
            let written = if answer == 0 { needed } else { 0 };
            let behind = &lending.after[written..];
            let what = format_args!("places of {room} behind {written} are as they were");
            equal(what, &true, &behind.iter().all(|word| *word == u32::MARK))?;
        }
        Ok(())
    })
}

/// A model and its table list the same, on the library alone.
pub fn enabled_alike(of_model: &[Listed], of_table: &[Listed]) -> Check {
    equal("count of lists", &of_model.len(), &of_table.len())?;
    for (number, (model, table)) in of_model.iter().zip(of_table).enumerate() {
        let list = |listed: &Listed| (listed.rooms[0].1, listed.events());
        let what = format_args!("enabled in state {number} by model and table");
        equal(what, &list(model), &list(table))?;
    }
    Ok(())
}

/// An index is written as far as it has room and no further, and its whole length
/// is told whatever the room.
pub fn index_room(found: &[(usize, Vec<usize>)]) -> Check {
    found.iter().try_for_each(|(count, index)| {
        let room = index.len();
        equal("length told of an index", &found[0].0, count)?;
        let behind = &index[room.min(*count)..];
        let marked = behind.iter().all(|number| *number == usize::MARK);
        let what = format_args!("places of {room} behind an index are as they were");
        equal(what, &true, &marked)
    })
}

/// Numbers of any content: there are answers, refusals leave the numbers, and
/// what is offered is taken.
pub fn any_state(found: &AnyState) -> Check {
    lendings(&found.lendings)?;
    let answer = found.lendings[0].answer;
    if !matches!(answer, 0 | 9..=11) {
        return Err(format!("a step was answered {answer}"));
    }
    equal("answer when any state is shown", &0, &found.shown.answer)?;
    let behind = &[FIGURE; BEHIND];
    equal("figures behind the variables", behind, &found.shown.behind)?;
    enabled_room(std::slice::from_ref(&found.offers))?;
    let refused = found.taken.iter().position(|&answer| answer != 0);
    equal("place of an event offered and refused", &None, &refused)?;
    let told = found.offers.rooms[0].1[1];
    let passes = usize::from(found.tick == 0);
    equal("TICK told and answered in any state", &told, &passes)?;
    for start in &found.starts {
        let [step, behind] = start.told;
        let found = (start.answer, step < STEPS, behind);
        let what = format_args!("answer, that {step} is a step, place behind in any state");
        equal(what, &(0, true, usize::MARK), &found)?;
        taken_at_0(start)?;
    }
    Ok(())
}

/// The step that START's test tells in each state for each thread and length.
pub fn start_step(wanted: &[Vec<Asked>], found: &[Vec<Answered>]) -> Check {
    equal("count of states asked", &wanted.len(), &found.len())?;
    for (number, (wanted, found)) in wanted.iter().zip(found).enumerate() {
        equal("count of questions", &wanted.len(), &found.len())?;
        for (asked, found) in wanted.iter().zip(found) {
            let (question, step) = (asked.question, usize::from(asked.step));
            let what = format_args!("answer, step, place behind: {question} in state {number}");
            let found = (found.answer, found.told);
            equal(what, &(0, [step, usize::MARK]), &found)?;
        }
    }
    Ok(())
}

/// On the library alone: START is taken exactly where no step fails.
pub fn start_taken(found: &[Vec<Answered>]) -> Check {
    found.iter().flatten().try_for_each(taken_at_0)
}

fn taken_at_0(found: &Answered) -> Check {
    let step = found.told[0];
    let answer = if step == 0 { 0 } else { 10 };
    let what = format_args!("answer to START where step {step} is told");
    found
        .start
        .map_or(Ok(()), |start| equal(what, &answer, &start))
}

/// What START's test tells over bytes: number, part, step.
pub fn start_told(wanted: &StartTold, found: &StartTold) -> Check {
    equal("number and part of START's test", &wanted.told, &found.told)?;
    equal("step of START's test", &wanted.step, &found.step)
}

/// What START's test tells over bytes into several places; of a refused model no
/// step.
pub fn start_places(found: &[Lending<usize>]) -> Check {
    let told = match found[0].answer {
        0 => START_PLACES,
        _ => START_PLACES - 1,
    };
    first_places(found, told)
}

/// The same in a lent state, the step alone; too few numbers have none.
pub fn state_start_places(found: &[Lending<usize>], too_few: &[Lending<usize>]) -> Check {
    first_places(found, 1)?;
    short(too_few)
}

/// A run up to the first refusal: number, part, events taken, clock.
pub fn run(wanted: &Run, found: &Run) -> Check {
    equal("run up to the first refusal", wanted, found)
}

/// The length told for a listing, and its lines as far as there is room.
pub fn listing(wanted: &[Listing], found: &[Listing]) -> Check {
    wanted.iter().zip(found).try_for_each(|(wanted, found)| {
        equal("length of the listing", &wanted.length, &found.length)?;
        let room = wanted.output.len().min(found.output.len());
        let length = wanted.length.min(room);
        let text = |output: &[u8]| String::from_utf8_lossy(&output[..length]).into_owned();
        equal("listing", &text(&wanted.output), &text(&found.output))
    })
}

/// Nothing is written behind a listing.
pub fn listing_room(found: &[Listing]) -> Check {
    found
        .iter()
        .try_for_each(|found| untouched_behind("listing", &found.output, found.length))
}

/// What a translation tells: number, part, length of the table.
pub fn translation_told(wanted: &[Translation], found: &[Translation]) -> Check {
    wanted.iter().zip(found).try_for_each(|(wanted, found)| {
        let room = found.output.len();
        let what = format_args!("number and part of the translation into {room} bytes");
        equal(what, &wanted.told, &found.told)?;
        let what = format_args!("length told by the translation into {room} bytes");
        equal(what, &wanted.length, &found.length)
    })
}

/// The bytes of the made table.
pub fn translation_bytes(wanted: &[Translation], found: &[Translation]) -> Check {
    wanted.iter().zip(found).try_for_each(|(wanted, found)| {
        let length = wanted.length.min(found.output.len());
        let (wanted, found) = (&wanted.output[..length], &found.output[..length]);
        match (0..length).find(|&at| wanted[at] != found[at]) {
            None => Ok(()),
            Some(at) => equal(
                format_args!("made table from byte {at} on"),
                &wanted[at..length.min(at + 40)],
                &found[at..length.min(at + 40)],
            ),
        }
    })
}

/// Nothing is written behind a made table, nor at all where it is refused.
pub fn translation_room(found: &[Translation]) -> Check {
    found
        .iter()
        .try_for_each(|found| untouched_behind("translation", &found.output, found.length))
}

/// What is told of a table's size: number, part, bytes, records of each kind.
pub fn size_told(wanted: &Size, found: &Size) -> Check {
    equal("number and part of the size", &wanted.told, &found.told)?;
    equal("bytes told of the table", &wanted.bytes, &found.bytes)?;
    let what = "rules, clauses, atoms and updates told";
    equal(what, &wanted.records, &found.records)
}

/// What is told of a size into several places.
pub fn size_places(found: &[Lending<usize>]) -> Check {
    first_places(found, SIZE_PLACES)
}

/// However many places are lent, the number is the same, the places are the first
/// of all that is told, and those behind stay as they were.
fn first_places(found: &[Lending<usize>], all_told: usize) -> Check {
    let all = found.first().ok_or("nothing is told")?;
    found.iter().try_for_each(|found| {
        let places = found.after.len();
        let what = format_args!("number told with {places} places");
        equal(what, &all.answer, &found.answer)?;
        let (told, behind) = found.after.split_at(places.min(all_told));
        let what = format_args!("told into {places} places");
        equal(what, &all.after[..told.len()], told)?;
        let marked = behind.iter().all(|number| *number == usize::MARK);
        let what = format_args!("of {places} places those behind are as they were");
        equal(what, &true, &marked)
    })
}

/// The size told fits the translations, on the library alone: an output of just as
/// many bytes is enough, with one byte less it is refused and left; and the table
/// has as many records.
pub fn size_made(size: &Size, made: &[Translation]) -> Check {
    let rooms: Vec<usize> = made.iter().map(|made| made.output.len()).collect();
    for needed in [size.bytes, size.bytes.wrapping_sub(1)] {
        let what = format_args!("there is a translation into {needed} bytes among {rooms:?}");
        let tried = size.told.number != 0 || rooms.contains(&needed);
        equal(what, &true, &tried)?;
    }
    made.iter().try_for_each(|made| made_as_told(size, made))?;
    translation_room(made)
}

fn made_as_told(size: &Size, made: &Translation) -> Check {
    let room = made.output.len();
    let (number, length) = match size.told.number {
        0 if room < size.bytes => (8, 0),
        0 => (0, size.bytes),
        number => (number, 0),
    };
    let found = (made.told.number, made.length);
    let what = format_args!("answer and length for {room} bytes, by the size told");
    equal(what, &(number, length), &found)?;
    if number != 0 {
        return Ok(());
    }
    let records = table_records(&made.output[..length]);
    let what = "rules, clauses, atoms and updates in the table, by the size told";
    equal(what, &size.records, &records)
}

/// Demand 3 on the library alone: a model and its table agree on every event,
/// on the run and on the listing.
pub fn demand_three(model: &[u8], script: &[u8], of_model: &Said, of_table: &Said) -> Check {
    let starts = (&of_model.start.variables, &of_table.start.variables);
    lockstep(model, script, starts, (&of_model.steps, &of_table.steps))?;
    equal("run of model and table", &of_model.run, &of_table.run)?;
    listing(&of_model.listings, &of_table.listings)
}

/// The stages of a model and its table one by one, from any start.
pub fn lockstep(
    model: &[u8],
    script: &[u8],
    starts: (&Variables, &Variables),
    steps: (&[Step], &[Step]),
) -> Check {
    let mut times = Times::default();
    times.states_agree("at the start", starts.0, starts.1)?;
    for (step, other) in pairs(steps.0, steps.1)? {
        times.note(model, &script[other.start..other.end], &other.after);
        let part = |step: &Step| (step.start, step.end, step.after.answer);
        let what = format_args!("part of and answer to {step} by model and table");
        equal(what, &part(step), &part(other))?;
        let states = (&step.after.variables, &other.after.variables);
        times.states_agree(format_args!("after {step}"), states.0, states.1)?;
    }
    Ok(())
}

/// The figures that a table keeps and a shown state of the model does not: Due
/// since a dispatch, End since a start.
#[derive(Default)]
struct Times {
    due: [Option<i32>; THREADS],
    end: [Option<i32>; THREADS],
}

impl Times {
    /// Looks at an event and its answer.
    fn note(&mut self, model: &[u8], event: &[u8], after: &After) {
        let now = after.variables[NOW];
        let (times, id, wait) = match *event {
            [DISPATCH, id] => (&mut self.due, id, deadline(model, id)),
            [START, id, a, b, c, d] => (&mut self.end, id, i32::from_le_bytes([a, b, c, d])),
            _ => return,
        };
        if let (0, Some(time)) = (after.answer, times.get_mut(usize::from(id))) {
            *time = Some(now.saturating_add(wait));
        }
    }

    /// Every variable but Due and End; Due once dispatched, End in code 3.
    fn states_agree(
        &self,
        place: impl Display,
        of_model: &Variables,
        of_table: &Variables,
    ) -> Check {
        let mut wanted = *of_model;
        for thread in 0..THREADS {
            let (due, end) = (DUE + thread, END + thread);
            wanted[due] = self.due[thread].unwrap_or(of_table[due]);
            wanted[end] = match self.end[thread] {
                Some(time) if wanted[STATE + thread] == 3 => time,
                _ => of_table[end],
            };
        }
        first_difference(&wanted, of_table).map_or(Ok(()), |at| {
            let (wanted, found) = (wanted[at], of_table[at]);
            Err(format!(
                "variable {at} {place}: {wanted} by the model, {found} by its table"
            ))
        })
    }
}

/// The Deadline of a thread of an accepted model, where threads follow the head;
/// 0 where there is no such thread.
fn deadline(model: &[u8], thread: u8) -> i32 {
    let at = 3 + 20 * usize::from(thread) + 5;
    let figure = model
        .get(at..at + 4)
        .and_then(|bytes| bytes.try_into().ok());
    figure.map_or(0, i32::from_le_bytes)
}

fn equal<T: PartialEq + Debug + ?Sized>(what: impl Display, wanted: &T, found: &T) -> Check {
    if wanted == found {
        Ok(())
    } else {
        Err(format!("{what}: wanted {wanted:?}, found {found:?}"))
    }
}

/// Each step wanted, with the one found in its place.
fn pairs<'a>(
    wanted: &'a [Step],
    found: &'a [Step],
) -> Result<impl Iterator<Item = (&'a Step, &'a Step)>, String> {
    equal("count of events", &wanted.len(), &found.len())?;
    Ok(wanted.iter().zip(found))
}

fn same_variables(place: impl Display, wanted: &After, found: &After) -> Check {
    if let Some(at) = first_difference(&wanted.variables, &found.variables) {
        let what = format_args!("variable {at} {place}");
        return equal(what, &wanted.variables[at], &found.variables[at]);
    }
    let what = format_args!("figures behind the variables {place}");
    equal(what, &wanted.behind, &found.behind)
}

fn first_difference(wanted: &Variables, found: &Variables) -> Option<usize> {
    if wanted == found {
        return None;
    }
    (0..VARIABLES).find(|&variable| wanted[variable] != found[variable])
}

fn untouched_behind(what: &str, output: &[u8], length: usize) -> Check {
    let behind = &output[length.min(output.len())..];
    match behind.iter().position(|&byte| byte != BYTE) {
        None => Ok(()),
        Some(at) => Err(format!("{what}: byte {at} behind its end is written")),
    }
}
