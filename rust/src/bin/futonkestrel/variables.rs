//! The variables of a table by name.

use std::ops::RangeInclusive;

use crate::format::{Item, NONE, VARIABLES};
use crate::names::Names;

/// What the value of a variable stands for.
#[derive(Clone, Copy, PartialEq, Eq)]
enum Value {
    Number,
    /// A state code of a thread.
    Code,
    /// The number of an item, 255 for none.
    Of(Item),
}

struct Range {
    name: &'static str,
    first: i64,
    /// One variable for each of so many items, or a single one.
    of: Option<(Item, i64)>,
    value: Value,
}

const fn single(name: &'static str, first: i64, value: Value) -> Range {
    Range {
        name,
        first,
        of: None,
        value,
    }
}

const fn each(name: &'static str, first: i64, item: Item, count: i64, value: Value) -> Range {
    Range {
        name,
        first,
        of: Some((item, count)),
        value,
    }
}

const RANGES: &[Range] = &[
    single("Now", 0, Value::Number),
    single("Mode", 1, Value::Of(Item::Mode)),
    single("Phase", 2, Value::Number),
    single("Pending", 3, Value::Of(Item::Transition)),
    single("EnteredAt", 4, Value::Number),
    single("Cpu", 5, Value::Of(Item::Thread)),
    each("Active", 16, Item::Thread, 16, Value::Number),
    each("State", 32, Item::Thread, 16, Value::Code),
    each("DispatchTime", 48, Item::Thread, 16, Value::Number),
    each("Due", 64, Item::Thread, 16, Value::Number),
    each("End", 80, Item::Thread, 16, Value::Number),
    each("Behaviour", 96, Item::Thread, 16, Value::Number),
    each("Missed", 112, Item::Thread, 16, Value::Number),
    each("Flag", 128, Item::Connection, 32, Value::Number),
    each("Input", 160, Item::Input, 32, Value::Number),
    each("Buffer", 192, Item::Input, 32, Value::Number),
    each("Output", 224, Item::Output, 32, Value::Number),
    each("Local", 256, Item::Local, 32, Value::Number),
];

/// The name of variables that stand for nothing, or are not there.
pub const UNNAMED: &str = "variable";

/// The state codes of a thread.
pub const CODES: [&str; 5] = [
    "waiting_mode",
    "waiting_dispatch",
    "waiting_execution",
    "execution",
    "completed",
];

/// The codes of a thread outside its mode, and of one that has a job in hand: it waits
/// for the processor, has it, or is done.
pub const WAITING_MODE: usize = 0;
pub const WAITING_EXECUTION: usize = 2;
pub const EXECUTION: usize = 3;
pub const COMPLETED: usize = 4;
pub const IN_HAND: RangeInclusive<usize> = WAITING_EXECUTION..=COMPLETED;

/// The word for a processor or a request that nobody has.
pub const NOBODY: &str = "none";

fn range_of(variable: i64) -> Option<&'static Range> {
    RANGES.iter().find(|range| {
        let count = range.of.map_or(1, |(_, count)| count);
        (range.first..range.first + count).contains(&variable)
    })
}

/// `State(2)`, `Now`, `variable(7)`.
pub fn name(variable: i64) -> String {
    name_with(variable, &Names::default())
}

/// The same with the items' own names.
pub fn name_with(variable: i64, names: &Names) -> String {
    match range_of(variable) {
        None => format!("{UNNAMED}({variable})"),
        Some(Range { name, of: None, .. }) => (*name).to_string(),
        Some(Range {
            name,
            first,
            of: Some((item, _)),
            ..
        }) => {
            let number = variable - first;
            match names.of(*item, number) {
                Some(own) => format!("{name}({own})"),
                None => format!("{name}({number})"),
            }
        }
    }
}

/// The variable with a name and, where it is one of several, a number.
pub fn number(name: &str, index: Option<i64>) -> Option<i64> {
    if name == UNNAMED {
        return index;
    }
    let range = RANGES.iter().find(|range| range.name == name)?;
    match (range.of, index) {
        (None, None) => Some(range.first),
        (Some((_, count)), Some(index)) if (0..count).contains(&index) => Some(range.first + index),
        _ => None,
    }
}

/// Variables of one name.
pub struct Family {
    pub first: i64,
    /// One variable for each of so many items, or a single one.
    pub of: Option<(Item, i64)>,
}

/// The variables of a name, in small or large letters.
pub fn family(name: &str) -> Option<Family> {
    let range = RANGES
        .iter()
        .find(|range| range.name.eq_ignore_ascii_case(name))?;
    Some(Family {
        first: range.first,
        of: range.of,
    })
}

/// The item whose number a variable holds.
pub fn item_of_value(variable: i64) -> Option<Item> {
    match range_of(variable)?.value {
        Value::Of(item) => Some(item),
        Value::Number | Value::Code => None,
    }
}

/// What a word stands for as a value of a variable.
pub fn constant_of(variable: i64, word: &str) -> Option<i64> {
    let value = constant_number(&word.to_ascii_lowercase())?;
    let named = constant(variable, value);
    named.eq_ignore_ascii_case(word).then_some(value)
}

/// Whether a variable holds an instant.
pub fn is_time(variable: i64) -> bool {
    let times = ["Now", "EnteredAt", "DispatchTime", "Due", "End"];
    range_of(variable).is_some_and(|range| times.contains(&range.name))
}

/// A constant beside a variable, by name where it has one.
pub fn constant(variable: i64, value: i64) -> String {
    let meaning = range_of(variable).map_or(Value::Number, |range| range.value);
    match meaning {
        Value::Code if (0..CODES.len() as i64).contains(&value) => {
            CODES[value as usize].to_string()
        }
        Value::Of(Item::Thread | Item::Transition) if value == NONE => NOBODY.to_string(),
        _ => value.to_string(),
    }
}

/// A value that a variable has, with the items' own names.
pub fn value_with(variable: i64, value: i64, names: &Names) -> String {
    let meaning = range_of(variable).map_or(Value::Number, |range| range.value);
    match meaning {
        Value::Of(item) => names
            .of(item, value)
            .map_or_else(|| constant(variable, value), str::to_string),
        _ => constant(variable, value),
    }
}

/// The number that a word stands for as a constant.
pub fn constant_number(word: &str) -> Option<i64> {
    if word == NOBODY {
        return Some(NONE);
    }
    CODES
        .iter()
        .position(|code| *code == word)
        .map(|at| at as i64)
}

/// Whether a table has this variable.
pub fn exists(variable: i64) -> bool {
    (0..VARIABLES).contains(&variable)
}

/// Due and End, which a model's state has no fields for.
pub fn is_of_table_only(variable: i64) -> bool {
    range_of(variable).is_some_and(|range| ["Due", "End"].contains(&range.name))
}
