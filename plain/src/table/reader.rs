//! Reading a table from bytes, record after record.

use super::{
    variable, Atom, Clause, Condition, InitialValue, Operand, Rule, Table, Update, ATOM, CLAUSE,
    INITIAL_VALUE, LONGEST_TABLE, MULTIPLE, NO_CONDITION, NO_MULTIPLE, RULE, UPDATE,
};
use crate::bytes::{extent, i32_at, operand_at, u16_at, u32_at, u8_at, Extent};
use crate::refusal::{Refusal, CUT, NAMES_NOTHING, ORDER, RANGE, TOO_MANY};
use crate::script::{ACTIVATE, LEAVE, START};

/// The tags of operands.
const TAG_CONSTANT: u8 = 0;
const TAG_VARIABLE: u8 = 1;
const TAG_CHOSEN_LENGTH: u8 = 2;

/// The greatest high figure of a START rule.
const LONGEST: u32 = 1_000_000;

/// The body length of each table kind.
fn body_length(kind: u8) -> Option<usize> {
    match kind {
        INITIAL_VALUE => Some(6),
        RULE => Some(10),
        CLAUSE => Some(0),
        ATOM => Some(8),
        UPDATE => Some(16),
        _ => None,
    }
}

/// Reads a table up to its end or to a record with a cause against it. The
/// length is looked at before all else, and refused with the whole input.
pub fn read(bytes: &[u8]) -> Result<Table, Refusal> {
    if bytes.len() > LONGEST_TABLE {
        return Err(Refusal {
            number: TOO_MANY,
            start: 0,
            end: bytes.len(),
        });
    }
    let mut table = Table::default();
    let mut previous = None;
    let mut start = 0;
    while start < bytes.len() {
        let kind = bytes[start];
        let end = match extent(bytes, start, body_length(kind)) {
            Extent::Whole(end) => end,
            Extent::Cut => {
                return Err(Refusal {
                    number: CUT,
                    start,
                    end: bytes.len(),
                })
            }
            Extent::Unknown => {
                return Err(Refusal {
                    number: ORDER,
                    start,
                    end: bytes.len(),
                })
            }
        };
        let body = &bytes[start + 1..end];
        if let Some(number) = cause(&table, previous, kind, body) {
            return Err(Refusal { number, start, end });
        }
        add(&mut table, kind, body);
        previous = Some(kind);
        start = end;
    }
    Ok(table)
}

/// The first cause against a whole record that would follow what was read so
/// far: its place, then a name, then any other field.
fn cause(table: &Table, previous: Option<u8>, kind: u8, body: &[u8]) -> Option<u8> {
    if !in_order(previous, kind) {
        Some(ORDER)
    } else if !all_named(kind, body) {
        Some(NAMES_NOTHING)
    } else if !in_range(table, kind, body) {
        Some(RANGE)
    } else {
        None
    }
}

/// Starts stand before all rules; a rule is its own record, then clauses with
/// their atoms, then updates.
fn in_order(previous: Option<u8>, kind: u8) -> bool {
    match kind {
        INITIAL_VALUE => matches!(previous, None | Some(INITIAL_VALUE)),
        RULE => true,
        CLAUSE => matches!(previous, Some(RULE | CLAUSE | ATOM)),
        ATOM => matches!(previous, Some(CLAUSE | ATOM)),
        UPDATE => matches!(previous, Some(RULE | CLAUSE | ATOM | UPDATE)),
        _ => false,
    }
}

/// Whether every number that is looked at is that of a variable. Any id of a
/// rule will do.
fn all_named(kind: u8, body: &[u8]) -> bool {
    match kind {
        INITIAL_VALUE => names_variable(u16_at(body, 0)),
        ATOM => atom_named(body),
        UPDATE => update_named(body),
        _ => true,
    }
}

fn names_variable(number: u16) -> bool {
    usize::from(number) < variable::COUNT
}

/// A variable may not stand where a multiple is asked for, so its number is not
/// looked at there.
fn atom_named(body: &[u8]) -> bool {
    names_variable(u16_at(body, 1)) && (asks_multiple(u8_at(body, 0)) || operand_named(body, 3))
}

fn asks_multiple(op: u8) -> bool {
    matches!(op, MULTIPLE | NO_MULTIPLE)
}

fn update_named(body: &[u8]) -> bool {
    let condition = u16_at(body, 0);
    (condition == NO_CONDITION || names_variable(condition))
        && names_variable(u16_at(body, 3))
        && operand_named(body, 6)
        && operand_named(body, 11)
}

/// An operand is looked at whether it is used or not. Only behind the tag of a
/// variable its number names something.
fn operand_named(body: &[u8], at: usize) -> bool {
    let (tag, number) = operand_at(body, at);
    tag != TAG_VARIABLE || usize::try_from(number).is_ok_and(|number| number < variable::COUNT)
}

/// Whether every other field lies in its range.
fn in_range(table: &Table, kind: u8, body: &[u8]) -> bool {
    match kind {
        INITIAL_VALUE => initial_value_in_range(table, body),
        RULE => rule_in_range(body),
        ATOM => atom_in_range(body),
        UPDATE => update_in_range(table, body),
        _ => true,
    }
}

/// Variables rise, and variable 0 is not started.
fn initial_value_in_range(table: &Table, body: &[u8]) -> bool {
    let variable = usize::from(u16_at(body, 0));
    variable != variable::NOW
        && table
            .initial_values
            .last()
            .is_none_or(|last| last.variable < variable)
}

/// A kind of event but TICK; low and high are ordered and bounded for START,
/// and 0 for all others.
fn rule_in_range(body: &[u8]) -> bool {
    let kind = u8_at(body, 0);
    let (low, high) = (u32_at(body, 2), u32_at(body, 6));
    match kind {
        START => low <= high && high <= LONGEST,
        ACTIVATE..=LEAVE => low == 0 && high == 0,
        _ => false,
    }
}

/// The chosen length has no place in an atom, and only positive constants have
/// multiples.
fn atom_in_range(body: &[u8]) -> bool {
    let op = u8_at(body, 0);
    let (tag, number) = operand_at(body, 3);
    let operand_fits = if asks_multiple(op) {
        tag == TAG_CONSTANT && number > 0
    } else {
        operand_tag(tag, false)
    };
    op <= NO_MULTIPLE && operand_fits
}

/// Variable 0 is not updated, and only START's rules know a chosen length.
fn update_in_range(table: &Table, body: &[u8]) -> bool {
    let of_start = table.rules.last().is_some_and(|rule| rule.kind == START);
    usize::from(u16_at(body, 3)) != variable::NOW
        && u8_at(body, 5) <= 2
        && operand_tag(u8_at(body, 6), of_start)
        && operand_tag(u8_at(body, 11), of_start)
}

fn operand_tag(tag: u8, length_allowed: bool) -> bool {
    match tag {
        TAG_CONSTANT | TAG_VARIABLE => true,
        TAG_CHOSEN_LENGTH => length_allowed,
        _ => false,
    }
}

/// Puts a record with no cause against it into the table.
fn add(table: &mut Table, kind: u8, body: &[u8]) {
    match (kind, table.rules.last_mut()) {
        (INITIAL_VALUE, _) => table.initial_values.push(initial_value(body)),
        (RULE, _) => table.rules.push(rule(body)),
        (CLAUSE, Some(rule)) => rule.clauses.push(Clause::new()),
        (ATOM, Some(rule)) => {
            if let Some(clause) = rule.clauses.last_mut() {
                clause.push(atom(body));
            }
        }
        (UPDATE, Some(rule)) => rule.updates.push(update(body)),
        _ => {}
    }
}

fn initial_value(body: &[u8]) -> InitialValue {
    InitialValue {
        variable: usize::from(u16_at(body, 0)),
        value: i32_at(body, 2),
    }
}

fn rule(body: &[u8]) -> Rule {
    Rule {
        kind: u8_at(body, 0),
        id: u8_at(body, 1),
        low: u32_at(body, 2),
        high: u32_at(body, 6),
        clauses: Vec::new(),
        updates: Vec::new(),
    }
}

fn atom(body: &[u8]) -> Atom {
    Atom {
        op: u8_at(body, 0),
        variable: usize::from(u16_at(body, 1)),
        operand: operand(operand_at(body, 3)),
    }
}

fn update(body: &[u8]) -> Update {
    let condition = match u16_at(body, 0) {
        NO_CONDITION => None,
        variable => Some(Condition {
            variable: usize::from(variable),
            wanted: u8_at(body, 2),
        }),
    };
    Update {
        condition,
        target: usize::from(u16_at(body, 3)),
        op: u8_at(body, 5),
        first: operand(operand_at(body, 6)),
        second: operand(operand_at(body, 11)),
    }
}

/// An operand with no cause against it.
fn operand((tag, number): (u8, i32)) -> Operand {
    match tag {
        TAG_CONSTANT => Operand::Constant(number),
        TAG_VARIABLE => Operand::Variable(number as usize),
        _ => Operand::ChosenLength,
    }
}
