//! Conditions on a state: comparisons of variables, what is enabled, and these
//! joined by words.

use futonkestrel::Variables;

use crate::machine::compares;

#[derive(Clone, Copy, Debug, PartialEq, Eq)]
pub enum Operand {
    Variable(usize),
    Number(i64),
}

#[derive(Debug, PartialEq, Eq)]
pub enum Condition {
    /// The comparison by its number in an atom.
    Compare(Operand, i64, Operand),
    /// No event can be taken, REQUEST and TICK aside.
    NoneEnabled,
    /// Nor can a tick pass.
    Stuck,
    Not(Box<Condition>),
    And(Box<Condition>, Box<Condition>),
    Or(Box<Condition>, Box<Condition>),
}

/// What can be taken in a state.
#[derive(Clone, Copy, Debug, PartialEq, Eq)]
pub struct Takes {
    /// An event, REQUEST and TICK aside.
    pub event: bool,
    pub tick: bool,
}

impl Condition {
    /// Whether it holds. What is enabled is only looked for where it is asked for.
    pub fn holds(&self, variables: &Variables, takes: &dyn Fn() -> Takes) -> bool {
        match self {
            Condition::Compare(left, op, right) => {
                compares(*op, left.value(variables), right.value(variables))
            }
            Condition::NoneEnabled => !takes().event,
            Condition::Stuck => !takes().event && !takes().tick,
            Condition::Not(inner) => !inner.holds(variables, takes),
            Condition::And(left, right) => {
                left.holds(variables, takes) && right.holds(variables, takes)
            }
            Condition::Or(left, right) => {
                left.holds(variables, takes) || right.holds(variables, takes)
            }
        }
    }

    /// The first variable in it that is one of those wanted.
    pub fn asks_for(&self, wanted: &dyn Fn(usize) -> bool) -> Option<usize> {
        match self {
            Condition::Compare(left, _, right) => {
                let variables = [left, right].into_iter().filter_map(|side| side.variable());
                variables.into_iter().find(|variable| wanted(*variable))
            }
            Condition::NoneEnabled | Condition::Stuck => None,
            Condition::Not(inner) => inner.asks_for(wanted),
            Condition::And(left, right) | Condition::Or(left, right) => {
                left.asks_for(wanted).or_else(|| right.asks_for(wanted))
            }
        }
    }
}

impl Operand {
    fn value(self, variables: &Variables) -> i64 {
        match self {
            Operand::Variable(variable) => i64::from(variables[variable]),
            Operand::Number(number) => number,
        }
    }

    fn variable(self) -> Option<usize> {
        match self {
            Operand::Variable(variable) => Some(variable),
            Operand::Number(_) => None,
        }
    }
}
