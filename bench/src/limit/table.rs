//! A table decoded: its rules by kind and id, and with what they ask for.

use std::ops::Range;

use plain::script::{LEAVE, REQUEST};
use plain::table::variable::NOW;
use plain::table::{self, Operand, Variables};

use super::atoms::Atom;
use super::switches::{Switches, Wants};

/// An update without a condition has this variable.
pub const NO_CONDITION: u16 = u16::MAX;

#[derive(Clone, Copy)]
pub enum Value {
    Constant(i32),
    Variable(u16),
    Length,
}

pub struct Update {
    pub condition: u16,
    pub wanted: i32,
    pub target: u16,
    pub op: u8,
    pub first: Value,
    pub second: Value,
}

pub struct Rule {
    pub low: u32,
    pub high: u32,
    /// Clauses of one atom that does not read the clock, and of one that does.
    pub atoms: Range<u32>,
    pub clock_atoms: Range<u32>,
    pub clauses: Range<u32>,
    pub updates: Range<u32>,
    /// Whether its updates can be done one after the other: no target is written
    /// twice, or read behind its update.
    pub in_order: bool,
}

pub struct Table {
    pub rules: Vec<Rule>,
    pub atoms: Vec<Atom>,
    /// Parts of the atoms.
    pub clauses: Vec<Range<u32>>,
    pub updates: Vec<Update>,
    /// The rules of each kind and id.
    events: Vec<Option<Switches>>,
    /// The rules that stop a tick.
    pub urgent: Switches,
    pub start: Variables,
}

impl Table {
    pub fn decode(read: &table::Table) -> Table {
        let mut made = Table {
            rules: Vec::new(),
            atoms: Vec::new(),
            clauses: Vec::new(),
            updates: Vec::new(),
            events: Vec::new(),
            urgent: Switches::default(),
            start: table::start_state(read),
        };
        for rule in &read.rules {
            let decoded = made.rule(rule);
            made.rules.push(decoded);
        }
        let wants: Vec<Wants> = made.rules.iter().map(|rule| made.wants(rule)).collect();
        let mut by_event: Vec<Vec<(u32, Wants)>> = Vec::new();
        by_event.resize_with(place(LEAVE, u8::MAX) + 1, Vec::new);
        let mut urgent = Vec::new();
        for (number, rule) in read.rules.iter().enumerate() {
            let wanting = (number as u32, wants[number].clone());
            if rule.kind != REQUEST {
                urgent.push(wanting.clone());
            }
            by_event[place(rule.kind, rule.id)].push(wanting);
        }
        let switches = |rules: &Vec<(u32, Wants)>| (!rules.is_empty()).then(|| Switches::of(rules));
        made.events = by_event.iter().map(switches).collect();
        made.urgent = Switches::of(&urgent);
        made
    }

    /// The rules of an event.
    #[inline(always)]
    pub fn rules_of(&self, kind: u8, id: u8) -> Option<&Switches> {
        self.events.get(place(kind, id))?.as_ref()
    }

    fn rule(&mut self, rule: &table::Rule) -> Rule {
        let (single, others): (Vec<_>, Vec<_>) =
            rule.clauses.iter().partition(|clause| clause.len() == 1);
        let single = single.into_iter().flatten();
        let (timed, timeless): (Vec<_>, Vec<_>) = single.partition(|atom| reads_clock(atom));
        let atoms = self.added_atoms(timeless.into_iter());
        let clock_atoms = self.added_atoms(timed.into_iter());
        let first = self.clauses.len() as u32;
        for clause in others {
            let part = self.added_atoms(clause.iter());
            self.clauses.push(part);
        }
        let updates = self.updates.len() as u32;
        self.updates.extend(rule.updates.iter().map(update));
        Rule {
            low: rule.low,
            high: rule.high,
            atoms,
            clock_atoms,
            clauses: first..self.clauses.len() as u32,
            updates: updates..self.updates.len() as u32,
            in_order: in_order(&rule.updates),
        }
    }

    fn added_atoms<'a>(&mut self, atoms: impl Iterator<Item = &'a table::Atom>) -> Range<u32> {
        let first = self.atoms.len() as u32;
        self.atoms.extend(atoms.map(Atom::decode));
        first..self.atoms.len() as u32
    }

    fn wants(&self, rule: &Rule) -> Wants {
        let atoms = &self.atoms[rule.atoms.start as usize..rule.atoms.end as usize];
        atoms.iter().filter_map(Atom::equation).collect()
    }
}

fn place(kind: u8, id: u8) -> usize {
    usize::from(kind) << 8 | usize::from(id)
}

fn reads_clock(atom: &table::Atom) -> bool {
    atom.variable == NOW || atom.operand == Operand::Variable(NOW)
}

fn update(update: &table::Update) -> Update {
    let value = |operand: Operand| match operand {
        Operand::Constant(constant) => Value::Constant(constant),
        Operand::Variable(variable) => Value::Variable(variable as u16),
        Operand::ChosenLength => Value::Length,
    };
    let condition = update.condition.as_ref();
    Update {
        condition: condition.map_or(NO_CONDITION, |one| one.variable as u16),
        wanted: condition.map_or(0, |one| i32::from(one.wanted)),
        target: update.target as u16,
        op: update.op,
        first: value(update.first),
        second: value(update.second),
    }
}

fn in_order(updates: &[table::Update]) -> bool {
    updates.iter().enumerate().all(|(at, update)| {
        let reads = |variable: usize| {
            let operand = |operand: Operand| operand == Operand::Variable(variable);
            let condition = update.condition.as_ref();
            operand(update.first)
                || operand(update.second)
                || condition.is_some_and(|one| one.variable == variable)
        };
        let before = updates[..at].iter().map(|before| before.target);
        let mut clashes = before.filter(|target| *target == update.target || reads(*target));
        clashes.next().is_none()
    })
}
