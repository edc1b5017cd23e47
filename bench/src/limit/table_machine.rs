//! The table's machine on variables that are changed in place.

use std::ops::Range;

use plain::refusal::{CONFLICTING_RULES, INCONSISTENT_UPDATES, LAST_CLOCK, NOT_ENABLED};
use plain::script::{LAST_NOW, START, TICK};
use plain::table::variable::NOW;
use plain::table::Variables;

use super::atoms::NEVER;
use super::table::{Rule, Table, Update, Value, NO_CONDITION};
use super::{Event, TAKEN};

/// So far ahead is it looked for the next instant at most.
const AHEAD: i32 = u16::MAX as i32;

/// Room for the new values of one rule, kept from step to step.
#[derive(Default)]
pub struct Scratch {
    new: Vec<(u16, i32)>,
}

/// A table's run: the variables, and how long they are known to be quiet.
pub struct Machine<'a> {
    table: &'a Table,
    pub variables: Variables,
    /// No rule stops a tick before this clock; it is not known for others.
    quiet_until: i32,
    scratch: Scratch,
}

impl<'a> Machine<'a> {
    pub fn start(table: &'a Table) -> Machine<'a> {
        Machine {
            table,
            variables: table.start,
            quiet_until: 0,
            scratch: Scratch::default(),
        }
    }

    #[inline]
    pub fn step(&mut self, event: &Event) -> u8 {
        if event.kind == TICK {
            let known = &mut self.quiet_until;
            return self.table.ticks(&mut self.variables, event.figure, known);
        }
        let answer = self
            .table
            .fire(&mut self.variables, event, &mut self.scratch);
        if answer == TAKEN {
            self.quiet_until = 0;
        }
        answer
    }
}

impl Table {
    /// One step on variables that the caller keeps. A refused event changes
    /// nothing.
    #[inline]
    pub fn step(&self, variables: &mut Variables, event: &Event, scratch: &mut Scratch) -> u8 {
        match event.kind {
            TICK => self.ticks(variables, event.figure, &mut 0),
            _ => self.fire(variables, event, scratch),
        }
    }

    #[inline(always)]
    fn fire(&self, variables: &mut Variables, event: &Event, scratch: &mut Scratch) -> u8 {
        let Some(rules) = self.rules_of(event.kind, event.id) else {
            return NOT_ENABLED;
        };
        let (mut found, mut count) = (0, 0);
        rules.each(variables, |number| {
            if self.holds(&self.rules[number], variables) {
                found = number;
                count += 1;
            }
            count > 1
        });
        let rule = match count {
            0 => return NOT_ENABLED,
            1 => &self.rules[found],
            _ => return CONFLICTING_RULES,
        };
        if event.kind == START && !(rule.low..=rule.high).contains(&event.figure) {
            return NOT_ENABLED;
        }
        self.apply(rule, variables, event.figure as i32, scratch)
    }

    #[inline(always)]
    fn holds(&self, rule: &Rule, variables: &Variables) -> bool {
        let any = |clause: &Range<u32>| {
            let atoms = part(&self.atoms, clause);
            atoms.iter().any(|atom| atom.holds(variables))
        };
        self.all_hold(&rule.atoms, variables)
            && self.all_hold(&rule.clock_atoms, variables)
            && part(&self.clauses, &rule.clauses).iter().all(any)
    }

    #[inline(always)]
    fn all_hold(&self, atoms: &Range<u32>, variables: &Variables) -> bool {
        let atoms = part(&self.atoms, atoms);
        atoms.iter().all(|atom| atom.holds(variables))
    }

    #[inline(always)]
    fn apply(
        &self,
        rule: &Rule,
        variables: &mut Variables,
        length: i32,
        scratch: &mut Scratch,
    ) -> u8 {
        let updates = part(&self.updates, &rule.updates);
        if rule.in_order {
            for update in updates {
                if update.applies(variables) {
                    variables[usize::from(update.target)] = update.value(variables, length);
                }
            }
            return TAKEN;
        }
        let new = &mut scratch.new;
        new.clear();
        for update in updates.iter().filter(|update| update.applies(variables)) {
            new.push((update.target, update.value(variables, length)));
        }
        let twice = |at: usize| new[..at].iter().any(|before| before.0 == new[at].0);
        if (0..new.len()).any(twice) {
            return INCONSISTENT_UPDATES;
        }
        for (target, value) in new {
            variables[usize::from(*target)] = *value;
        }
        TAKEN
    }

    /// Time passes up to where a rule is enabled. `quiet_until` is kept while
    /// nothing but the clock changes.
    #[inline(always)]
    fn ticks(&self, variables: &mut Variables, ticks: u32, quiet_until: &mut i32) -> u8 {
        let now = variables[NOW];
        let end = now + ticks as i32;
        if *quiet_until < end {
            *quiet_until = self.next_instant(variables, now);
        }
        if end > *quiet_until && *quiet_until <= LAST_NOW as i32 {
            return NOT_ENABLED;
        }
        if end > LAST_NOW as i32 {
            return LAST_CLOCK;
        }
        variables[NOW] = end;
        TAKEN
    }

    /// The first clock, from now on, at which a rule stops ticks; not looked for
    /// beyond what one TICK can pass.
    fn next_instant(&self, variables: &Variables, now: i32) -> i32 {
        let mut first = (now + AHEAD).min(NEVER);
        self.urgent.each(variables, |number| {
            let rule = &self.rules[number];
            if self.all_hold(&rule.atoms, variables) {
                first = self.next_enabled(rule, variables, now, first);
            }
            first == now
        });
        first
    }

    /// When a rule is first enabled while only the clock changes, all else that it
    /// wants of single variables being so; `bound` where that is not before it.
    fn next_enabled(&self, rule: &Rule, variables: &Variables, now: i32, bound: i32) -> i32 {
        let mut clock = now;
        loop {
            let mut next = clock;
            for atom in part(&self.atoms, &rule.clock_atoms) {
                next = next.max(atom.next(variables, clock));
            }
            if next >= bound {
                return bound;
            }
            for clause in part(&self.clauses, &rule.clauses) {
                let atoms = part(&self.atoms, clause).iter();
                let first = atoms.map(|atom| atom.next(variables, clock)).min();
                next = next.max(first.unwrap_or(NEVER));
                if next >= bound {
                    return bound;
                }
            }
            if next == clock {
                return clock;
            }
            clock = next;
        }
    }
}

impl Update {
    #[inline(always)]
    fn applies(&self, variables: &Variables) -> bool {
        self.condition == NO_CONDITION || variables[usize::from(self.condition)] == self.wanted
    }

    #[inline(always)]
    fn value(&self, variables: &Variables, length: i32) -> i32 {
        let value = |value: Value| match value {
            Value::Constant(constant) => constant,
            Value::Variable(variable) => variables[usize::from(variable)],
            Value::Length => length,
        };
        match self.op {
            0 => value(self.first),
            1 => value(self.first).saturating_add(value(self.second)),
            _ => value(self.first).saturating_sub(value(self.second)),
        }
    }
}

#[inline(always)]
fn part<'a, T>(list: &'a [T], part: &Range<u32>) -> &'a [T] {
    &list[part.start as usize..part.end as usize]
}
