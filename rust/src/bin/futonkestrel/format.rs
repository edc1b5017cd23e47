//! The layout of models, tables and scripts, as data: every kind with its
//! fields is told here and nowhere else.

/// What is numbered from 0 in the order of its records.
#[derive(Clone, Copy, Debug, PartialEq, Eq)]
pub enum Item {
    Head,
    Mode,
    Thread,
    Input,
    Output,
    Local,
    Connection,
    Transition,
    Behaviour,
    Guard,
    Assignment,
    Start,
    Rule,
    Clause,
    Atom,
    Update,
    Event,
}

impl Item {
    /// The word for it in texts, messages and files of names.
    pub fn word(self) -> &'static str {
        match self {
            Item::Head => "head",
            Item::Mode => "mode",
            Item::Thread => "thread",
            Item::Input => "input",
            Item::Output => "output",
            Item::Local => "local",
            Item::Connection => "connection",
            Item::Transition => "transition",
            Item::Behaviour => "behaviour",
            Item::Guard => "guard atom",
            Item::Assignment => "assignment",
            Item::Start => "start",
            Item::Rule => "rule",
            Item::Clause => "clause",
            Item::Atom => "atom",
            Item::Update => "update",
            Item::Event => "event",
        }
    }
}

/// The items that a file of names may name.
pub const NAMED: &[Item] = &[
    Item::Thread,
    Item::Mode,
    Item::Input,
    Item::Output,
    Item::Local,
    Item::Connection,
    Item::Transition,
];

/// How a field of a plain line is written.
#[derive(Clone, Copy, Debug, PartialEq, Eq)]
pub enum Form {
    /// Its word and its number.
    Number,
    /// Likewise, with a sign.
    Signed,
    /// Its word and the modes of a mask: `modes 0,2`, `modes none`.
    Modes,
    /// One of these words; another value has the field's word before it.
    Choice(&'static [&'static str]),
    /// Its word alone for 1, nothing for 0; another value behind the word.
    Mark,
    /// Nothing for 0.
    UnlessZero,
}

/// What a field must be. The library decides; this only tells people which
/// field it was.
#[derive(Clone, Copy, Debug, PartialEq, Eq)]
pub enum Must {
    Free,
    Within(i64, i64),
    /// A time of a thread, from 1 to the longest.
    Time,
    /// Likewise, and at most that of the field with this word.
    UpTo(&'static str),
    /// The number of a mode, or of an item that stands before.
    Names(Item),
    /// A mask of modes that are there.
    Mask,
    /// One of these tags.
    Tag(&'static [i64]),
    /// A number that the tag in front of it gives its meaning; behind a tag that may
    /// not stand there it is free.
    Tagged,
    /// A variable that is there.
    Variable,
    /// Likewise, and not the clock.
    Target,
    /// Likewise, and above the one started before.
    Rising,
    /// A variable, or 65,535 for none.
    Condition,
    /// 0 but for START, where it is at most the longest time.
    Length,
}

#[derive(Debug)]
pub struct Field {
    pub word: &'static str,
    pub bytes: usize,
    pub form: Form,
    pub must: Must,
}

/// How a record is written as text.
#[derive(Clone, Copy, Debug, PartialEq, Eq)]
pub enum Layout {
    /// The kind's word, the item's number, then field by field.
    Plain,
    /// `if LEFT OP RIGHT`
    Guard,
    /// `set TARGET := FIRST OP SECOND`
    Assignment,
    /// `start VARIABLE := VALUE`
    Start,
    /// `rule NUMBER EVENT ID length LOW..HIGH`
    Rule,
    /// `if` or `and`, with the atoms that follow.
    Clause,
    /// `VARIABLE OP OPERAND`
    Atom,
    /// `then` or `⊗`, `TARGET := FIRST OP SECOND if CONDITION = WANTED`
    Update,
}

#[derive(Debug)]
pub struct Kind {
    pub byte: u8,
    /// The first word of a plain line. Of two kinds that share it the longer one has
    /// the other's fields and more behind them.
    pub word: &'static str,
    pub item: Item,
    /// The item that it belongs to; it is numbered anew for each of those.
    pub within: Option<Item>,
    /// How many there may be, where that is limited.
    pub limit: Option<usize>,
    pub layout: Layout,
    pub fields: &'static [Field],
}

impl Kind {
    pub fn body(&self) -> usize {
        self.fields.iter().map(|field| field.bytes).sum()
    }
}

/// One sort of file.
#[derive(Debug)]
pub struct Format {
    /// The first line of its text.
    pub name: &'static str,
    pub kinds: &'static [Kind],
}

impl Format {
    pub fn kind(&self, byte: u8) -> Option<&'static Kind> {
        self.kinds.iter().find(|kind| kind.byte == byte)
    }
}

pub static FORMATS: [&Format; 3] = [&MODEL, &TABLE, &SCRIPT];

/// A model has at most so many modes.
pub const MOST_MODES: i64 = 8;
/// The longest Period, Deadline, Min and Max, and START's longest length.
pub const LONGEST: i64 = 1_000_000;
/// The most bytes that a table may have.
pub const LONGEST_TABLE: usize = 1_000_000;
/// Variables of a table lie below this.
pub const VARIABLES: i64 = futonkestrel::VARIABLES as i64;
/// The condition variable of an update without a condition.
pub const NO_CONDITION: i64 = 65_535;
/// Pending and Cpu where there is none.
pub const NONE: i64 = 255;
/// Event kinds that are asked for by themselves.
pub const DEACTIVATE: u8 = 0x02;
pub const START: u8 = 0x04;
pub const COMPLETE: u8 = 0x05;
pub const DEADLINE: u8 = 0x06;
pub const MISS: u8 = 0x07;
pub const REQUEST: u8 = 0x08;
pub const ENTER: u8 = 0x09;
pub const LEAVE: u8 = 0x0A;
pub const TICK: u8 = 0x0B;

/// Signs of comparisons by their op; 6 and 7 ask for multiples.
pub const COMPARISONS: [&str; 6] = ["=", "!=", "<", ">=", ">", "<="];
pub const MULTIPLE: i64 = 6;
pub const NO_MULTIPLE: i64 = 7;
/// Other signs that are read as comparisons.
pub const OTHER_SIGNS: [(&str, i64); 3] = [("≠", 1), ("≥", 3), ("≤", 5)];
/// Signs of sums by their op; 0 copies the first operand.
pub const SUMS: [&str; 3] = ["", "+", "-"];

/// Words of a model's tags; 0 is a constant and has none.
pub const TAGS: [(i64, Item); 3] = [(1, Item::Input), (2, Item::Local), (3, Item::Output)];

/// What each tag says, in models and in tables.
pub const MODEL_TAGS: [&str; 4] = ["a constant", "an input", "a local", "an output"];
pub const TABLE_TAGS: [&str; 3] = ["a constant", "a variable", "the chosen length"];

const fn field(word: &'static str, bytes: usize, form: Form, must: Must) -> Field {
    Field {
        word,
        bytes,
        form,
        must,
    }
}

/// An item of a model, with at most so many.
const fn item(
    byte: u8,
    item: Item,
    word: &'static str,
    limit: usize,
    fields: &'static [Field],
) -> Kind {
    let limit = Some(limit);
    Kind {
        word,
        ..part(byte, item, None, limit, Layout::Plain, fields)
    }
}

/// A record whose line has a form of its own.
const fn part(
    byte: u8,
    item: Item,
    within: Option<Item>,
    limit: Option<usize>,
    layout: Layout,
    fields: &'static [Field],
) -> Kind {
    Kind {
        byte,
        word: "",
        item,
        within,
        limit,
        layout,
        fields,
    }
}

/// A part of a behaviour transition, which has at most four of each.
const fn of_behaviour(byte: u8, item: Item, layout: Layout, fields: &'static [Field]) -> Kind {
    part(byte, item, Some(Item::Behaviour), Some(4), layout, fields)
}

const fn event(byte: u8, word: &'static str, fields: &'static [Field]) -> Kind {
    Kind {
        word,
        ..part(byte, Item::Event, None, None, Layout::Plain, fields)
    }
}

use Form::{Choice, Mark, Modes, Number, Signed, UnlessZero};
use Must::{
    Condition, Free, Length, Mask, Names, Rising, Tag, Tagged, Target, Time, UpTo, Variable, Within,
};

const OWNER: Field = field("thread", 1, Number, Names(Item::Thread));
const MODE_MASK: Field = field("modes", 1, Modes, Mask);
const OP: Field = field("op", 1, Number, Within(0, 2));
const FIRST_TAG: Field = field("first tag", 1, Number, Tag(&[0, 1, 2]));
const FIRST: Field = field("first number", 4, Signed, Tagged);
const SECOND_TAG: Field = field("second tag", 1, Number, Tag(&[0, 1, 2]));
const SECOND: Field = field("second number", 4, Signed, Tagged);
const RIGHT: Field = field("right number", 4, Signed, Tagged);

const HEAD: &[Field] = &[
    field("modes", 1, Number, Within(1, MOST_MODES)),
    field("initial", 1, Number, Names(Item::Mode)),
];
const THREAD: &[Field] = &[
    field("period", 4, Number, Time),
    field("deadline", 4, Number, UpTo("period")),
    field("min", 4, Number, UpTo("max")),
    field("max", 4, Number, Time),
    MODE_MASK,
    field("critical", 1, Mark, Within(0, 1)),
    field("first state", 1, UnlessZero, Within(0, 7)),
];
const STARTED: &[Field] = &[OWNER, field("start", 4, Signed, Free)];
const CONNECTION: &[Field] = &[
    field("type", 1, Choice(&["immediate", "delayed"]), Within(0, 1)),
    field("output", 1, Number, Names(Item::Output)),
    field("to input", 1, Number, Names(Item::Input)),
    MODE_MASK,
];
const TRANSITION: &[Field] = &[
    field("from mode", 1, Number, Names(Item::Mode)),
    field("to mode", 1, Number, Names(Item::Mode)),
];
const BEHAVIOUR: &[Field] = &[
    OWNER,
    field("from state", 1, Number, Within(0, 7)),
    field("to state", 1, Number, Within(0, 7)),
];
const GUARD: &[Field] = &[
    field("op", 1, Number, Within(0, 5)),
    field("left tag", 1, Number, Tag(&[1, 2])),
    field("left number", 1, Number, Tagged),
    field("right tag", 1, Number, Tag(&[0, 1, 2])),
    RIGHT,
];
const ASSIGNMENT: &[Field] = &[
    field("target tag", 1, Number, Tag(&[2, 3])),
    field("target number", 1, Number, Tagged),
    OP,
    FIRST_TAG,
    FIRST,
    SECOND_TAG,
    SECOND,
];

/// Both kinds of input port count to this.
const INPUTS: usize = 32;

pub static MODEL: Format = Format {
    name: "model",
    kinds: &[
        item(0x01, Item::Head, "head", 1, HEAD),
        item(0x02, Item::Thread, "thread", 16, THREAD),
        item(0x03, Item::Input, "input", INPUTS, &[OWNER]),
        item(0x0B, Item::Input, "input", INPUTS, STARTED),
        item(0x04, Item::Output, "output", 32, &[OWNER]),
        item(0x05, Item::Local, "local", 32, STARTED),
        item(0x06, Item::Connection, "connection", 32, CONNECTION),
        item(0x07, Item::Transition, "transition", 16, TRANSITION),
        item(0x08, Item::Behaviour, "behaviour", 64, BEHAVIOUR),
        of_behaviour(0x09, Item::Guard, Layout::Guard, GUARD),
        of_behaviour(0x0A, Item::Assignment, Layout::Assignment, ASSIGNMENT),
    ],
};

const IN_RULE: Option<Item> = Some(Item::Rule);
const IN_CLAUSE: Option<Item> = Some(Item::Clause);

const INITIAL_VALUE: &[Field] = &[
    field("variable", 2, Number, Rising),
    field("value", 4, Signed, Free),
];
const RULE: &[Field] = &[
    field("event kind", 1, Number, Within(0x01, 0x0A)),
    field("id", 1, Number, Free),
    field("low", 4, Number, Length),
    field("high", 4, Number, Length),
];
const ATOM: &[Field] = &[
    field("op", 1, Number, Within(0, 7)),
    field("variable", 2, Number, Variable),
    field("right tag", 1, Number, Tag(&[0, 1])),
    RIGHT,
];
const UPDATE: &[Field] = &[
    field("condition", 2, Number, Condition),
    field("wanted", 1, Number, Free),
    field("target", 2, Number, Target),
    OP,
    FIRST_TAG,
    FIRST,
    SECOND_TAG,
    SECOND,
];

pub static TABLE: Format = Format {
    name: "table",
    kinds: &[
        part(0x20, Item::Start, None, None, Layout::Start, INITIAL_VALUE),
        part(0x21, Item::Rule, None, None, Layout::Rule, RULE),
        part(0x22, Item::Clause, IN_RULE, None, Layout::Clause, &[]),
        part(0x23, Item::Atom, IN_CLAUSE, None, Layout::Atom, ATOM),
        part(0x24, Item::Update, IN_RULE, None, Layout::Update, UPDATE),
    ],
};

const BY_TRANSITION: Field = field("transition", 1, Number, Names(Item::Transition));

pub static SCRIPT: Format = Format {
    name: "script",
    kinds: &[
        event(0x01, "ACTIVATE", &[OWNER]),
        event(DEACTIVATE, "DEACTIVATE", &[OWNER]),
        event(0x03, "DISPATCH", &[OWNER]),
        event(START, "START", &[OWNER, field("for", 4, Number, Length)]),
        event(COMPLETE, "COMPLETE", &[OWNER]),
        event(DEADLINE, "DEADLINE", &[OWNER]),
        event(MISS, "MISS", &[OWNER]),
        event(REQUEST, "REQUEST", &[BY_TRANSITION]),
        event(ENTER, "ENTER", &[BY_TRANSITION]),
        event(LEAVE, "LEAVE", &[BY_TRANSITION]),
        event(TICK, "TICK", &[field("", 2, Number, Within(1, 65_535))]),
    ],
};
