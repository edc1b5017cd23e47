//! The rules of an accepted table, with all that they ask and do.

use crate::format::{Item, NO_CONDITION, TABLE};
use crate::record::records;

/// Op, variable, and the operand's tag and number.
pub type Atom = [i64; 4];

/// Tag and number.
pub type Operand = (i64, i64);

pub struct Update {
    /// A variable and the value that it must have.
    pub condition: Option<(i64, i64)>,
    pub target: i64,
    pub op: i64,
    pub first: Operand,
    pub second: Operand,
}

pub struct Rule {
    pub event: u8,
    pub id: u8,
    pub low: u32,
    pub high: u32,
    pub clauses: Vec<Vec<Atom>>,
    pub updates: Vec<Update>,
}

pub fn rules(table: &[u8]) -> Vec<Rule> {
    let mut rules: Vec<Rule> = Vec::new();
    for record in records(&TABLE, table) {
        let Some((kind, values)) = record.whole() else {
            continue;
        };
        match (kind.item, values, rules.last_mut()) {
            (Item::Rule, &[event, id, low, high], _) => rules.push(Rule {
                event: event as u8,
                id: id as u8,
                low: low as u32,
                high: high as u32,
                clauses: Vec::new(),
                updates: Vec::new(),
            }),
            (Item::Clause, _, Some(rule)) => rule.clauses.push(Vec::new()),
            (Item::Atom, &[op, variable, tag, number], Some(rule)) => {
                if let Some(clause) = rule.clauses.last_mut() {
                    clause.push([op, variable, tag, number]);
                }
            }
            (Item::Update, values, Some(rule)) => rule.updates.push(update(values)),
            _ => {}
        }
    }
    rules
}

fn update(values: &[i64]) -> Update {
    let &[condition, wanted, target, op, first_tag, first, second_tag, second] = values else {
        unreachable!("an update has eight fields");
    };
    Update {
        condition: (condition != NO_CONDITION).then_some((condition, wanted)),
        target,
        op,
        first: (first_tag, first),
        second: (second_tag, second),
    }
}

/// The variables that are started, with their initial values.
pub fn initial_values(table: &[u8]) -> Vec<(i64, i64)> {
    let starts = records(&TABLE, table);
    let starts = starts.iter().filter(|record| record.is(Item::Start));
    let value = |values: &[i64]| (values[0], values[1]);
    starts
        .filter_map(|record| record.values.as_deref().map(value))
        .collect()
}
