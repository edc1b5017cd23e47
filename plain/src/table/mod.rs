//! The rule table: what it holds once accepted. Its reader, its writer and its
//! machine are in the parts below.

mod machine;
mod reader;
pub mod variable;
mod writer;

pub use machine::{enabled, start_state, step, Variables};
pub use reader::read;
pub use writer::write;

/// The most bytes that a table may have.
pub const LONGEST_TABLE: usize = 1_000_000;

/// The kinds of a table's records.
const INITIAL_VALUE: u8 = 0x20;
const RULE: u8 = 0x21;
const CLAUSE: u8 = 0x22;
const ATOM: u8 = 0x23;
const UPDATE: u8 = 0x24;

/// The condition variable that stands for no condition.
const NO_CONDITION: u16 = 65_535;

/// Ops 6 and 7 of atoms; 0 to 5 are as in the model's guards.
pub const MULTIPLE: u8 = 6;
pub const NO_MULTIPLE: u8 = 7;

/// An operand of an atom or an update.
#[derive(Clone, Copy, Debug, PartialEq, Eq)]
pub enum Operand {
    Constant(i32),
    Variable(usize),
    /// The length that a START chooses. Its number is written as 0.
    ChosenLength,
}

/// Kind 20.
#[derive(Clone, Copy, Debug, PartialEq, Eq)]
pub struct InitialValue {
    pub variable: usize,
    pub value: i32,
}

/// Kind 23.
#[derive(Clone, Copy, Debug, PartialEq, Eq)]
pub struct Atom {
    pub op: u8,
    pub variable: usize,
    pub operand: Operand,
}

/// An update applies where its condition variable has the wanted value.
#[derive(Clone, Copy, Debug, PartialEq, Eq)]
pub struct Condition {
    pub variable: usize,
    pub wanted: u8,
}

/// Kind 24. The ops are those of the model's assignments.
#[derive(Clone, Copy, Debug, PartialEq, Eq)]
pub struct Update {
    pub condition: Option<Condition>,
    pub target: usize,
    pub op: u8,
    pub first: Operand,
    pub second: Operand,
}

/// Kind 22, with its atoms.
pub type Clause = Vec<Atom>;

/// Kind 21, with its clauses and updates.
#[derive(Clone, Debug, PartialEq, Eq)]
pub struct Rule {
    pub kind: u8,
    pub id: u8,
    pub low: u32,
    pub high: u32,
    pub clauses: Vec<Clause>,
    pub updates: Vec<Update>,
}

/// An accepted table.
#[derive(Clone, Debug, Default, PartialEq, Eq)]
pub struct Table {
    pub initial_values: Vec<InitialValue>,
    pub rules: Vec<Rule>,
}
