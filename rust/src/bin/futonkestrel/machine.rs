//! A table with its variables: what can happen next, and why something cannot.
//! A model is looked at by its table, which takes the same events: that is
//! proved.

use std::collections::{BTreeMap, HashSet};

use futonkestrel::{Offer, Table, Variables};

use crate::figures::counted;
use crate::format::{Item, MULTIPLE, NO_MULTIPLE, REQUEST, SCRIPT, START, TICK};
use crate::names::Names;
use crate::record::{records, Record};
use crate::rules::{rules, Atom, Rule};
use crate::text;
use crate::variables;

/// The most ticks that one event has.
pub const MOST_TICKS: u16 = u16::MAX;
/// How many such events are tried to find what comes next: longer than any period.
const TRIES: usize = 16;
/// So many events, and so many clauses, are told by name, and only the number of further
/// ones.
const TOLD: usize = 16;

pub struct Machine<'a> {
    table: Table<'a>,
    pub rules: Vec<Rule>,
    /// Whether it is the table made from a model.
    of_model: bool,
    pub variables: Variables,
}

impl<'a> Machine<'a> {
    /// The table at its start.
    pub fn new(table: Table<'a>, of_model: bool) -> Machine<'a> {
        Machine {
            of_model,
            rules: rules(table.bytes()),
            variables: table.start(),
            table,
        }
    }

    /// Gives one event; 0, or the number of its refusal, which changes nothing.
    pub fn step(&mut self, event: &[u8]) -> u32 {
        self.table
            .step(&mut self.variables, event)
            .err()
            .unwrap_or(0)
    }

    fn clock(&self) -> i32 {
        self.variables[0]
    }

    /// The events whose rules hold, REQUEST and TICK aside: so many in words, and
    /// how many there are.
    fn enabled(&self, variables: &Variables, names: &Names) -> (Vec<String>, usize) {
        let mut events: BTreeMap<(u8, u8), &Rule> = BTreeMap::new();
        for rule in self.rules.iter().filter(|rule| rule.event != REQUEST) {
            if !events.contains_key(&rule.key()) && failing(rule, variables).is_empty() {
                events.insert(rule.key(), rule);
            }
        }
        let told = events.values().take(TOLD);
        let words = told.map(|rule| self.enabled_words(rule, variables, names));
        (words.collect(), events.len())
    }

    /// An event that a rule holds for; the library knows whether it is taken.
    fn enabled_words(&self, rule: &Rule, variables: &Variables, names: &Names) -> String {
        let words = rule.words(names);
        match self.table.step(&mut variables.clone(), &rule.shortest()) {
            Err(12) => format!("{words} (by two rules)"),
            Err(13) => format!("{words} (setting a variable twice)"),
            _ => words,
        }
    }

    /// The variables as many ticks later as can pass, and whether something stops them there.
    fn later(&self) -> (Variables, bool) {
        let mut variables = self.variables;
        for _ in 0..TRIES {
            let most = most_ticks(&self.table, &variables, 1, MOST_TICKS);
            if most > 0 {
                let _ = self.table.step(&mut variables, &tick(most));
            }
            if most < MOST_TICKS {
                return (variables, true);
            }
        }
        (variables, false)
    }

    /// What is enabled instead of a refused event, or due later.
    fn instead(&self, names: &Names) -> String {
        let (enabled, count) = self.enabled(&self.variables, names);
        if count > 0 {
            return format!("{} enabled", listed(&enabled, count));
        }
        let (later, stopped) = self.later();
        let (due, count) = self.enabled(&later, names);
        if stopped && count > 0 {
            return format!("{} due at clock {}", listed(&due, count), later[0]);
        }
        "nothing but TICK and REQUEST is enabled".to_string()
    }

    /// The line about a refused event.
    pub fn refused(&self, event: &Record, number: u32, names: &Names) -> String {
        let shown = event_words(event.bytes, names);
        let clock = self.clock();
        let instead = match number {
            9 => broken(event),
            11 => "the last clock is 1000000000".to_string(),
            12 => format!("rules {} are enabled", self.enabled_rules(event.bytes)),
            13 => format!(
                "rule {} sets a variable twice",
                self.enabled_rules(event.bytes)
            ),
            _ => self.instead(names),
        };
        format!("{shown} refused ({number}) at clock {clock}: {instead}")
    }

    /// What an event that is not enabled lacks first, by the clauses of its rules.
    pub fn why_not(&self, event: &[u8], names: &Names) -> Option<String> {
        let (kind, id) = (event[0], event[1]);
        if kind == TICK {
            return None;
        }
        let own = self.rules_for(kind, id);
        if own.is_empty() {
            return Some(self.nothing_for(kind, id));
        }
        let wanted = self.wanted(&own);
        match wanted.is_empty() {
            false => Some(format!("it wants {}", self.lacks(&wanted, names))),
            true => self.wrong_length(&own, event),
        }
    }

    /// The first clause that fails of those rules that lack least; each of these clauses
    /// once.
    fn wanted<'r>(&self, rules: &[&'r Rule]) -> Vec<&'r Vec<Atom>> {
        let lacking = rules.iter().map(|rule| failing(rule, &self.variables));
        let lacking: Vec<_> = lacking.collect();
        let least = lacking.iter().map(Vec::len).min();
        let nearest = lacking
            .iter()
            .filter(|clauses| Some(clauses.len()) == least);
        let first = nearest.filter_map(|clauses| clauses.first().copied());
        let mut met = HashSet::new();
        first.filter(|clause| met.insert(*clause)).collect()
    }

    /// The lengths of the enabled rule, where the event has another one.
    fn wrong_length(&self, rules: &[&Rule], event: &[u8]) -> Option<String> {
        let enabled = |rule: &&&Rule| failing(rule, &self.variables).is_empty();
        let Rule { low, high, .. } = rules
            .iter()
            .find(enabled)
            .filter(|rule| !rule.allows(event))?;
        Some(format!("its length must be from {low} to {high}"))
    }

    fn rules_for(&self, event: u8, id: u8) -> Vec<&Rule> {
        let own = |rule: &&Rule| rule.key() == (event, id);
        self.rules.iter().filter(own).collect()
    }

    /// An event without a rule. A model's table has rules for all of its items.
    fn nothing_for(&self, event: u8, id: u8) -> String {
        let item = SCRIPT.kind(event).map_or("", |kind| kind.fields[0].word);
        match self.of_model {
            true => format!("there is no {item} {id}"),
            false => format!("the table has no rule for this {item}"),
        }
    }

    /// Clauses that fail, of which one would be enough, with the values that they look at.
    fn lacks(&self, clauses: &[&Vec<Atom>], names: &Names) -> String {
        let told = &clauses[..clauses.len().min(TOLD)];
        let atoms: Vec<Atom> = told.iter().copied().flatten().copied().collect();
        if atoms.is_empty() {
            return "what never holds (an empty clause)".to_string();
        }
        let mut words: Vec<String> = atoms.iter().map(|atom| text::atom(*atom, names)).collect();
        if let more @ 1.. = clauses.len() - told.len() {
            words.push(counted(more, "more clause"));
        }
        let mut seen: Vec<i64> = Vec::new();
        for [_, variable, tag, number] in atoms {
            seen.push(variable);
            seen.extend((tag == 1).then_some(number));
        }
        seen.sort_unstable();
        seen.dedup();
        let told = |variable: &i64| {
            let value = variables::value_with(*variable, value(&self.variables, *variable), names);
            format!("{} is {value}", variables::name_with(*variable, names))
        };
        let values: Vec<String> = seen.iter().map(told).collect();
        format!("{}, but {}", words.join(" or "), values.join(", "))
    }

    /// The numbers of the first rules, two at most, that are enabled for an event.
    fn enabled_rules(&self, event: &[u8]) -> String {
        let enabled = enabled_for(&self.rules, event, &self.variables);
        let numbers = enabled.take(2).map(|(number, _)| number.to_string());
        numbers.collect::<Vec<_>>().join(" and ")
    }
}

/// The rules that are enabled for an event, with their numbers; where it is taken, just
/// one.
pub fn enabled_for<'a>(
    rules: &'a [Rule],
    event: &'a [u8],
    variables: &'a Variables,
) -> impl Iterator<Item = (usize, &'a Rule)> {
    let own = |(_, rule): &(usize, &Rule)| rule.key() == (event[0], event[1]);
    let enabled = |(_, rule): &(usize, &Rule)| failing(rule, variables).is_empty();
    rules.iter().enumerate().filter(own).filter(enabled)
}

/// The clauses of a rule that fail.
fn failing<'a>(rule: &'a Rule, variables: &Variables) -> Vec<&'a Vec<Atom>> {
    let holds = |clause: &[Atom]| clause.iter().any(|atom| atom_holds(atom, variables));
    let clauses = rule.clauses.iter();
    clauses.filter(|clause| !holds(clause)).collect()
}

pub fn value(variables: &Variables, variable: i64) -> i64 {
    let found = usize::try_from(variable)
        .ok()
        .and_then(|variable| variables.get(variable));
    found.map_or(0, |value| i64::from(*value))
}

fn atom_holds(&[op, variable, tag, number]: &Atom, variables: &Variables) -> bool {
    let left = value(variables, variable);
    let right = match tag {
        1 => value(variables, number),
        _ => number,
    };
    match op {
        MULTIPLE => right != 0 && left % right == 0,
        NO_MULTIPLE => right != 0 && left % right != 0,
        _ => compares(op, left, right),
    }
}

/// A comparison by its number in an atom.
pub fn compares(op: i64, left: i64, right: i64) -> bool {
    match op {
        0 => left == right,
        1 => left != right,
        2 => left < right,
        3 => left >= right,
        4 => left > right,
        5 => left <= right,
        _ => false,
    }
}

impl Rule {
    /// Kind and id of its event.
    fn key(&self) -> (u8, u8) {
        (self.event, self.id)
    }

    /// The event it is for, of the shortest length.
    fn shortest(&self) -> Vec<u8> {
        let mut event = vec![self.event, self.id];
        if self.event == START {
            event.extend(self.low.to_le_bytes());
        }
        event
    }

    fn allows(&self, event: &[u8]) -> bool {
        length_of(event).is_none_or(|length| (self.low..=self.high).contains(&length))
    }

    fn words(&self, names: &Names) -> String {
        offer_words(&self.offer(), names)
    }

    fn offer(&self) -> Offer {
        Offer {
            kind: self.event,
            id: self.id,
            low: self.low,
            high: self.high,
        }
    }
}

/// The length that a START chooses.
pub fn length_of(event: &[u8]) -> Option<u32> {
    let bytes = event.get(2..6)?.try_into().ok()?;
    Some(u32::from_le_bytes(bytes))
}

fn tick(ticks: u16) -> [u8; 3] {
    let [low, high] = ticks.to_le_bytes();
    [TICK, low, high]
}

/// The most ticks, up to a bound, that can pass at once. A guess is tried first,
/// then one tick more: a right one is found out by two steps.
pub fn most_ticks(table: &Table, variables: &Variables, guess: u16, bound: u16) -> u16 {
    let passes = |ticks: u16| table.step(&mut variables.clone(), &tick(ticks)).is_ok();
    let (mut taken, mut tried, mut more) = (0, guess.min(bound), 1_u16);
    while taken < tried && passes(tried) {
        taken = tried;
        tried = tried.saturating_add(more).min(bound);
        more = more.saturating_mul(2);
    }
    let mut refused = tried;
    while refused - taken > 1 {
        let middle = taken + (refused - taken) / 2;
        if passes(middle) {
            taken = middle;
        } else {
            refused = middle;
        }
    }
    taken
}

/// An event with the lengths that it can have.
pub fn offer_words(offer: &Offer, names: &Names) -> String {
    let event = short_words(offer.kind, i64::from(offer.id), names);
    match offer.kind {
        START if offer.low == offer.high => format!("{event} for {}", offer.low),
        START => format!("{event} for {} to {}", offer.low, offer.high),
        _ => event,
    }
}

/// `DISPATCH 0`, or with the item's own name.
fn short_words(event: u8, id: i64, names: &Names) -> String {
    let Some(kind) = SCRIPT.kind(event) else {
        return format!("event {event:02x}");
    };
    match item_of_event(event).and_then(|item| names.of(item, id)) {
        Some(own) => format!("{} {own}", kind.word),
        None => format!("{} {id}", kind.word),
    }
}

/// What the first field of an event names.
pub fn item_of_event(event: u8) -> Option<Item> {
    let word = SCRIPT.kind(event)?.fields[0].word;
    [Item::Thread, Item::Transition]
        .into_iter()
        .find(|item| item.word() == word)
}

/// An event in few words, as it is told in messages.
pub fn event_words(event: &[u8], names: &Names) -> String {
    let whole = records(&SCRIPT, event);
    let Some((kind, values)) = whole.first().and_then(Record::whole) else {
        let kind = SCRIPT.kind(event[0]).map(|kind| kind.word.to_string());
        return kind.unwrap_or_else(|| format!("event of kind {:02x}", event[0]));
    };
    let short = short_words(event[0], values[0], names);
    match values.get(1) {
        Some(length) => format!("{short} {} {length}", kind.fields[1].word),
        None => short,
    }
}

/// Why an event is none.
pub fn broken(event: &Record) -> String {
    match (event.kind, &event.values) {
        (None, _) => format!("no event has the kind {:02x}", event.bytes[0]),
        (Some(kind), None) => {
            let (size, left) = (1 + kind.body(), event.bytes.len());
            format!(
                "{} has {size} bytes, and the script ends after {left}",
                kind.word
            )
        }
        _ => "the ticks must be at least 1".to_string(),
    }
}

/// `A is`, `A and B are`, of so many.
fn listed(words: &[String], count: usize) -> String {
    match words {
        [] => String::new(),
        [one] => format!("{one} is"),
        _ if count > words.len() => {
            let more = count - words.len();
            format!("{} and {more} more are", words.join(", "))
        }
        [others @ .., last] => format!("{} and {last} are", others.join(", ")),
    }
}
