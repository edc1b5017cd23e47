//! What each refusal means and what to do about it: the one table of them.

/// What holds the part that a refusal hands back.
#[derive(Clone, Copy, Debug, PartialEq, Eq)]
pub enum Holder {
    /// The model, or the table that stands for it.
    Model,
    Script,
}

/// A refusal by its number in documents 01 and 02.
#[derive(Clone, Copy, Debug, PartialEq, Eq)]
pub struct Meaning {
    pub number: u32,
    pub holder: Holder,
    pub cause: &'static str,
    pub remedy: &'static str,
}

const fn meaning(
    number: u32,
    holder: Holder,
    cause: &'static str,
    remedy: &'static str,
) -> Meaning {
    Meaning {
        number,
        holder,
        cause,
        remedy,
    }
}

/// All refusals, in the order of causes and not of numbers: the first bad record
/// decides, and of several causes the one that stands first here.
pub const MEANINGS: &[Meaning] = &[
    meaning(
        1,
        Holder::Model,
        "a record's body runs past the end",
        "the file is cut, or a byte is missing before this record",
    ),
    meaning(
        2,
        Holder::Model,
        "kind unknown or out of order, or no head",
        "put the records into their order; often a body before this one has the wrong length",
    ),
    meaning(
        3,
        Holder::Model,
        "one item too many, or a table over 1,000,000 bytes",
        "leave items out until the limit is kept",
    ),
    meaning(
        14,
        Holder::Model,
        "a field names an item, mode or variable that is not there",
        "name one that is there: all are numbered from 0, and an item stands before what names it",
    ),
    meaning(
        15,
        Holder::Model,
        "a thread's Period, Deadline, Min or Max is out of bounds",
        "let Deadline be from 1 to Period, Min from 1 to Max, Period and Max at most 1,000,000",
    ),
    meaning(
        4,
        Holder::Model,
        "a mask, tag, op or other field is outside its range",
        "change the field; a mask may hold only modes that are there",
    ),
    meaning(
        5,
        Holder::Model,
        "a port or local of another thread",
        "let a behaviour read and write its own thread's ports and locals only",
    ),
    meaning(
        6,
        Holder::Model,
        "an input port connected twice, or a target set twice in a transition",
        "remove one of the two",
    ),
    meaning(
        7,
        Holder::Model,
        "the critical periods' common multiple is over 1,000,000,000",
        "let critical periods divide each other",
    ),
    meaning(
        8,
        Holder::Model,
        "the output is shorter than the table",
        "give more room: 'futonkestrel size MODEL' tells how much, at most 174,485 bytes",
    ),
    meaning(
        9,
        Holder::Script,
        "an event is cut or unknown, or TICK 0",
        "mend the script at this place",
    ),
    meaning(
        10,
        Holder::Script,
        "the event is not enabled, names no item, or START's length lies outside Min and Max",
        "do first what is due, or wait until the clock is there",
    ),
    meaning(
        11,
        Holder::Script,
        "TICK past the last clock, 1,000,000,000",
        "end the script here: the run is over",
    ),
    meaning(
        12,
        Holder::Script,
        "two rules of a table are enabled",
        "change the table: its rules overlap, which those of a made table never do",
    ),
    meaning(
        13,
        Holder::Script,
        "two updates of one variable",
        "change the table: a rule sets a variable twice, which those of a made table never do",
    ),
];

/// What a number means; nothing for 0 and for numbers that no refusal has.
pub fn meaning_of(number: u32) -> Option<&'static Meaning> {
    MEANINGS.iter().find(|meaning| meaning.number == number)
}
