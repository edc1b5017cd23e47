//! Writing a table as bytes.

use super::{
    Atom, Operand, Rule, Table, Update, ATOM, CLAUSE, INITIAL_VALUE, NO_CONDITION, RULE, UPDATE,
};

/// The bytes of a table: the starts, then each rule with its clauses and
/// updates.
pub fn write(table: &Table) -> Vec<u8> {
    let mut bytes = Vec::new();
    for initial_value in &table.initial_values {
        bytes.push(INITIAL_VALUE);
        write_variable(&mut bytes, initial_value.variable);
        bytes.extend(initial_value.value.to_le_bytes());
    }
    for rule in &table.rules {
        write_rule(&mut bytes, rule);
    }
    bytes
}

fn write_rule(bytes: &mut Vec<u8>, rule: &Rule) {
    bytes.extend([RULE, rule.kind, rule.id]);
    bytes.extend(rule.low.to_le_bytes());
    bytes.extend(rule.high.to_le_bytes());
    for clause in &rule.clauses {
        bytes.push(CLAUSE);
        for atom in clause {
            write_atom(bytes, atom);
        }
    }
    for update in &rule.updates {
        write_update(bytes, update);
    }
}

fn write_atom(bytes: &mut Vec<u8>, atom: &Atom) {
    bytes.extend([ATOM, atom.op]);
    write_variable(bytes, atom.variable);
    write_operand(bytes, atom.operand);
}

/// The two fields of a missing condition are 65,535 and 0.
fn write_update(bytes: &mut Vec<u8>, update: &Update) {
    bytes.push(UPDATE);
    match update.condition {
        Some(condition) => {
            write_variable(bytes, condition.variable);
            bytes.push(condition.wanted);
        }
        None => {
            bytes.extend(NO_CONDITION.to_le_bytes());
            bytes.push(0);
        }
    }
    write_variable(bytes, update.target);
    bytes.push(update.op);
    write_operand(bytes, update.first);
    write_operand(bytes, update.second);
}

/// Variables are below 288.
fn write_variable(bytes: &mut Vec<u8>, variable: usize) {
    bytes.extend((variable as u16).to_le_bytes());
}

fn write_operand(bytes: &mut Vec<u8>, operand: Operand) {
    let (tag, number) = match operand {
        Operand::Constant(number) => (0, number),
        Operand::Variable(variable) => (1, variable as i32),
        Operand::ChosenLength => (2, 0),
    };
    bytes.push(tag);
    bytes.extend(number.to_le_bytes());
}
