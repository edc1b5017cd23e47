//! What is explored: a table, and beside it the model that it stands for. Both
//! are given the same events; where they part, that is a defect.

use std::ops::Range;

use futonkestrel::{Enabled, Model, Offer, State, Table, Variables};

use super::condition::Takes;
use super::event::Event;
use crate::format::{MULTIPLE, REQUEST};
use crate::machine::{most_ticks, offer_words};
use crate::names::Names;
use crate::rules::Rule;
use crate::variables::{is_of_table_only, name};

const NOW: usize = 0;
/// Due and End of all threads.
const INSTANTS: Range<usize> = 64..96;

/// A state of what is explored.
#[derive(Clone)]
pub struct Position {
    pub variables: Variables,
    pub model: Option<Box<State>>,
}

impl Position {
    /// Becomes another state of the same subject.
    pub fn become_like(&mut self, other: &Position) {
        self.variables = other.variables;
        if let (Some(own), Some(other)) = (&mut self.model, &other.model) {
            own.clone_from(other);
        }
    }
}

pub struct Subject<'a> {
    table: Table<'a>,
    model: Option<Model>,
    /// The REQUESTs that there are rules for.
    requests: Vec<Event>,
    /// What rules ask the clock to be a multiple of.
    periods: Vec<i32>,
}

/// How model and table part, in words.
#[derive(Debug, PartialEq, Eq)]
pub struct Parting(pub String);

impl<'a> Subject<'a> {
    pub fn new(table: Table<'a>, model: Option<Model>, rules: &[Rule]) -> Subject<'a> {
        let requests = rules.iter().filter(|rule| rule.event == REQUEST);
        let event = |rule: &Rule| Event {
            kind: REQUEST,
            id: rule.id,
            number: 0,
        };
        let mut requests: Vec<Event> = requests.map(event).collect();
        requests.dedup();
        Subject {
            table,
            model,
            requests,
            periods: periods(rules),
        }
    }

    /// The state before any event.
    pub fn start(&self) -> Position {
        let start = |model: &Model| Box::new(model.start());
        Position {
            variables: self.table.start(),
            model: self.model.as_ref().map(start),
        }
    }

    /// What is enabled, as table and model tell it.
    pub fn enabled(&self, at: &Position) -> Result<Enabled, Parting> {
        let enabled = self.table.enabled(&at.variables);
        if let (Some(model), Some(state)) = (&self.model, &at.model) {
            same_offers(&model.enabled(state), &enabled)?;
        }
        Ok(enabled)
    }

    /// Takes an event, or tells the number of its refusal.
    pub fn step(&self, at: &mut Position, event: Event) -> Result<Result<(), u32>, Parting> {
        let bytes = event.bytes();
        let answer = self.table.step(&mut at.variables, &bytes);
        if let (Some(model), Some(state)) = (&self.model, &mut at.model) {
            same_answers(model.step(state, &bytes), answer)?;
        }
        Ok(answer)
    }

    /// Whether the model has the values of the table.
    pub fn compare(&self, at: &Position) -> Result<(), Parting> {
        match (&self.model, &at.model) {
            (Some(model), Some(state)) => same_values(&model.variables(state), &at.variables),
            _ => Ok(()),
        }
    }

    /// What can be taken.
    pub fn takes(&self, at: &Position) -> Takes {
        let enabled = self.table.enabled(&at.variables);
        let mut others = enabled.events.iter().filter(|offer| offer.kind != REQUEST);
        let takes = |offer: &Offer| {
            let event = Event::shortest(offer).bytes();
            self.table.step(&mut at.variables.clone(), &event).is_ok()
        };
        Takes {
            event: others.any(takes),
            tick: enabled.tick,
        }
    }

    /// How many ticks, of a bound, lead to the next instant at which an event is
    /// enabled, or would be if a REQUEST had come on the way. In a model a
    /// REQUEST does not look at the clock, so that it may as well come there.
    pub fn ticks_to_next(&self, variables: &Variables, bound: u16) -> u16 {
        let most = most_ticks(&self.table, variables, self.next_instant(variables), bound);
        if most <= 1 {
            return most;
        }
        let mut later = *variables;
        let _ = self.table.step(&mut later, &Event::tick(1).bytes());
        self.requests.iter().fold(most, |least, request| {
            let mut asked = later;
            let _ = self.table.step(&mut asked, &request.bytes());
            match asked == later {
                true => least,
                false => 1 + most_ticks(&self.table, &asked, least - 1, least - 1),
            }
        })
    }

    /// Ticks to the first instant that rules may look at: a guess, which spares
    /// most of the search for the true one.
    fn next_instant(&self, variables: &Variables) -> u16 {
        let now = variables[NOW];
        let multiples = self.periods.iter().map(|period| period - now % period);
        let instants = variables[INSTANTS]
            .iter()
            .map(|instant| instant.saturating_sub(now));
        let later = multiples.chain(instants).filter(|ticks| *ticks > 0);
        later
            .min()
            .and_then(|ticks| ticks.try_into().ok())
            .unwrap_or(1)
    }
}

/// The constants that rules ask the clock to be a multiple of.
fn periods(rules: &[Rule]) -> Vec<i32> {
    let clauses = rules.iter().flat_map(|rule| &rule.clauses);
    let atoms = clauses.flatten();
    let asked = atoms.filter(|[op, variable, ..]| *op == MULTIPLE && *variable == NOW as i64);
    let mut periods: Vec<i32> = asked.map(|[.., period]| *period as i32).collect();
    periods.sort_unstable();
    periods.dedup();
    periods
}

fn same_offers(of_model: &Enabled, of_table: &Enabled) -> Result<(), Parting> {
    let (ours, theirs) = (&of_model.events, &of_table.events);
    if ours != theirs {
        let both = ours.iter().zip(theirs);
        let alike = both.take_while(|(ours, theirs)| ours == theirs).count();
        return Err(Parting(format!(
            "the model offers {}, the table {}",
            offered(ours.get(alike)),
            offered(theirs.get(alike))
        )));
    }
    let may = |enabled: &Enabled| if enabled.tick { "may" } else { "may not" };
    match of_model.tick == of_table.tick {
        true => Ok(()),
        false => Err(Parting(format!(
            "a tick {} pass in the model, and {} in the table",
            may(of_model),
            may(of_table)
        ))),
    }
}

fn offered(offer: Option<&Offer>) -> String {
    let words = |offer| offer_words(offer, &Names::default());
    offer.map_or_else(|| "nothing more".to_string(), words)
}

fn same_answers(of_model: Result<(), u32>, of_table: Result<(), u32>) -> Result<(), Parting> {
    let told = |answer: Result<(), u32>| match answer {
        Ok(()) => "takes it".to_string(),
        Err(number) => format!("refuses it with {number}"),
    };
    match of_model == of_table {
        true => Ok(()),
        false => Err(Parting(format!(
            "the model {}, the table {}",
            told(of_model),
            told(of_table)
        ))),
    }
}

fn same_values(of_model: &Variables, of_table: &Variables) -> Result<(), Parting> {
    if of_model == of_table {
        return Ok(());
    }
    let both = of_model.iter().zip(of_table).zip(0..);
    // A model shows Due and End, which are never 0, where a job is in hand.
    let shown = |value: i32, variable| value != 0 || !is_of_table_only(variable);
    let mut other = both.filter(|((of_model, of_table), variable)| {
        of_model != of_table && shown(**of_model, *variable)
    });
    match other.next() {
        None => Ok(()),
        Some(((of_model, of_table), variable)) => {
            let name = name(variable);
            Err(Parting(format!(
                "{name} is {of_model} in the model, {of_table} in the table"
            )))
        }
    }
}
