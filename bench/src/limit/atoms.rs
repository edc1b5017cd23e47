//! Atoms of a table's rules: whether they hold, and from when on.

use plain::script::LAST_NOW;
use plain::table::variable::NOW;
use plain::table::{self, Operand, Variables, MULTIPLE};

/// Later than any clock.
pub const NEVER: i32 = LAST_NOW as i32 + 1;

/// An atom without a variable on the right has this one.
const CONSTANT: u16 = u16::MAX;

#[derive(Clone, Copy)]
pub struct Atom {
    op: u8,
    left: u16,
    /// A variable, or none where it is a constant.
    right: u16,
    constant: i32,
}

impl Atom {
    pub fn decode(atom: &table::Atom) -> Atom {
        let (right, constant) = match atom.operand {
            Operand::Constant(constant) => (CONSTANT, constant),
            Operand::Variable(variable) => (variable as u16, 0),
            Operand::ChosenLength => (CONSTANT, 0),
        };
        Atom {
            op: atom.op,
            left: atom.variable as u16,
            right,
            constant,
        }
    }

    /// The variable and the value where it asks for just that, and not of the clock.
    pub fn equation(&self) -> Option<(u16, i32)> {
        let is_equation = self.op == 0 && self.right == CONSTANT && usize::from(self.left) != NOW;
        is_equation.then_some((self.left, self.constant))
    }

    #[inline(always)]
    fn sides(&self, variables: &Variables) -> (i32, i32) {
        let right = match self.right {
            CONSTANT => self.constant,
            variable => variables[usize::from(variable)],
        };
        (variables[usize::from(self.left)], right)
    }

    #[inline(always)]
    pub fn holds(&self, variables: &Variables) -> bool {
        let (left, right) = self.sides(variables);
        compare(self.op, left, right)
    }

    /// The first clock from `now` on at which it holds while nothing else changes.
    #[inline(always)]
    pub fn next(&self, variables: &Variables, now: i32) -> i32 {
        let (left, right) = self.sides(variables);
        match (
            usize::from(self.left) == NOW,
            usize::from(self.right) == NOW,
        ) {
            (true, true) => when(compare(self.op, 0, 0), now),
            (true, false) => next_of_clock(self.op, right, now),
            (false, true) => next_of_clock(turned(self.op), left, now),
            (false, false) => when(compare(self.op, left, right), now),
        }
    }
}

fn when(holds: bool, now: i32) -> i32 {
    match holds {
        true => now,
        false => NEVER,
    }
}

#[inline(always)]
fn compare(op: u8, left: i32, right: i32) -> bool {
    match op {
        0 => left == right,
        1 => left != right,
        2 => left < right,
        3 => left >= right,
        4 => left > right,
        5 => left <= right,
        // The reader lets only constants above 0 stand on the right.
        MULTIPLE => left % right == 0,
        _ => left % right != 0,
    }
}

/// The op with its sides exchanged; multiples have no clock on the right.
fn turned(op: u8) -> u8 {
    match op {
        2 => 4,
        3 => 5,
        4 => 2,
        5 => 3,
        _ => op,
    }
}

/// The first clock from `now` on that compares so with a figure.
#[inline(always)]
fn next_of_clock(op: u8, figure: i32, now: i32) -> i32 {
    match op {
        0 => match figure >= now {
            true => figure,
            false => NEVER,
        },
        1 => now + i32::from(figure == now),
        2 => when(now < figure, now),
        3 => now.max(figure),
        4 => now.max(figure.saturating_add(1)),
        5 => when(now <= figure, now),
        MULTIPLE => match now % figure {
            0 => now,
            over => now + (figure - over),
        },
        _ => match (figure, now % figure) {
            (1, _) => NEVER,
            (_, 0) => now + 1,
            _ => now,
        },
    }
}
