//! The table's machine, over any accepted table.

use super::{variable, Atom, Operand, Rule, Table, Update, MULTIPLE, NO_MULTIPLE};
use crate::refusal::{CONFLICTING_RULES, INCONSISTENT_UPDATES, LAST_CLOCK, NOT_ENABLED};
use crate::script::{Event, LAST_NOW, REQUEST, START, TICK};
use crate::sums::{difference, sum};

/// The state of the table's machine.
pub type Variables = [i32; variable::COUNT];

/// The initial values that the table gives; all others are 0.
pub fn start_state(table: &Table) -> Variables {
    let mut variables = [0; variable::COUNT];
    for initial_value in &table.initial_values {
        variables[initial_value.variable] = initial_value.value;
    }
    variables
}

/// The variables after an event, or the number of its refusal.
pub fn step(table: &Table, variables: &Variables, event: &Event) -> Result<Variables, u8> {
    if event.kind == TICK {
        let mut next = *variables;
        for _ in 0..event.ticks {
            tick(table, &mut next)?;
        }
        return Ok(next);
    }
    let rule = the_enabled_rule(table, variables, event)?;
    if event.kind == START && !(rule.low..=rule.high).contains(&event.length) {
        return Err(NOT_ENABLED);
    }
    apply(rule, variables, event.length as i32)
}

/// The one enabled rule of the event's kind and id.
fn the_enabled_rule<'a>(
    table: &'a Table,
    variables: &Variables,
    event: &Event,
) -> Result<&'a Rule, u8> {
    let mut rules = table
        .rules
        .iter()
        .filter(|rule| rule.kind == event.kind && rule.id == event.id && enabled(rule, variables));
    match (rules.next(), rules.next()) {
        (None, _) => Err(NOT_ENABLED),
        (Some(rule), None) => Ok(rule),
        (Some(_), Some(_)) => Err(CONFLICTING_RULES),
    }
}

/// A conjunction of disjunctions: each clause needs one true atom, which an
/// empty clause cannot have.
pub fn enabled(rule: &Rule, variables: &Variables) -> bool {
    rule.clauses
        .iter()
        .all(|clause| clause.iter().any(|atom| atom_holds(variables, atom)))
}

fn atom_holds(variables: &Variables, atom: &Atom) -> bool {
    let left = variables[atom.variable];
    let right = value_of(variables, atom.operand, 0);
    match atom.op {
        0 => left == right,
        1 => left != right,
        2 => left < right,
        3 => left >= right,
        4 => left > right,
        5 => left <= right,
        MULTIPLE => is_multiple(left, right),
        NO_MULTIPLE => !is_multiple(left, right),
        _ => false,
    }
}

/// The reader lets only constants above 0 stand on the right.
fn is_multiple(left: i32, right: i32) -> bool {
    left.checked_rem(right) == Some(0)
}

fn value_of(variables: &Variables, operand: Operand, chosen_length: i32) -> i32 {
    match operand {
        Operand::Constant(number) => number,
        Operand::Variable(variable) => variables[variable],
        Operand::ChosenLength => chosen_length,
    }
}

/// Applies the updates of a rule, all on the old values. A target that would be
/// written more than once is refused, were it with equal values.
fn apply(rule: &Rule, old: &Variables, chosen_length: i32) -> Result<Variables, u8> {
    let applied: Vec<&Update> = rule
        .updates
        .iter()
        .filter(|update| condition_holds(old, update))
        .collect();
    let mut next = *old;
    let mut written = [false; variable::COUNT];
    for update in applied {
        if written[update.target] {
            return Err(INCONSISTENT_UPDATES);
        }
        written[update.target] = true;
        next[update.target] = expression(old, update, chosen_length);
    }
    Ok(next)
}

fn condition_holds(variables: &Variables, update: &Update) -> bool {
    update
        .condition
        .is_none_or(|condition| variables[condition.variable] == i32::from(condition.wanted))
}

/// The arithmetic is that of a model's values, whatever the target stands for and
/// the operands are, a chosen length too.
fn expression(variables: &Variables, update: &Update, chosen_length: i32) -> i32 {
    let first = value_of(variables, update.first, chosen_length);
    let second = value_of(variables, update.second, chosen_length);
    match update.op {
        0 => first,
        1 => sum(first, second),
        _ => difference(first, second),
    }
}

/// One tick: any enabled rule but a REQUEST's stops it, then the last clock.
fn tick(table: &Table, variables: &mut Variables) -> Result<(), u8> {
    let stopped = table
        .rules
        .iter()
        .any(|rule| rule.kind != REQUEST && enabled(rule, variables));
    if stopped {
        return Err(NOT_ENABLED);
    }
    if i64::from(variables[variable::NOW]) >= i64::from(LAST_NOW) {
        return Err(LAST_CLOCK);
    }
    variables[variable::NOW] += 1;
    Ok(())
}
