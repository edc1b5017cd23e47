//! A refused record in words: which one it is and, where that can be told, what
//! is wrong with it. The library refuses; this only looks for the reason.

use futonkestrel::Refusal;

use crate::format::{
    Field, Format, Item, Kind, Must, FORMATS, LONGEST, LONGEST_TABLE, MODEL, MODEL_TAGS,
    MOST_MODES, MULTIPLE, NO_CONDITION, NO_MULTIPLE, SCRIPT, START, TABLE_TAGS, TAGS, VARIABLES,
};
use crate::record::{records, told, Record};
use crate::text::{field_words, operand, record_in_words};
use crate::variables;

#[cfg(test)]
mod tests;

/// The refusals that the fields of a record give.
const OUTSIDE: u32 = 4;
const NAMES_NOTHING: u32 = 14;
const FAULTY_TIME: u32 = 15;

/// What is wrong with a field: the refusal that it gives, and what is said of it.
struct Fault {
    number: u32,
    said: String,
}

/// A fault, where there is one.
fn fault(number: u32, is_there: bool, said: impl Into<String>) -> Option<Fault> {
    let said = said.into();
    is_there.then_some(Fault { number, said })
}

/// What is said about a refused model or table.
pub fn explain(format: &Format, bytes: &[u8], refusal: &Refusal) -> Vec<String> {
    let mut lines = vec![format!("cause: {}", refusal.cause())];
    let mixed_up = is_script(format, bytes, refusal);
    let records = records(format, bytes);
    let at = records
        .iter()
        .position(|record| record.start == refusal.start && refusal.end > refusal.start);
    match at {
        Some(at) if refusal.end <= records[at].end() => {
            lines.extend(place(&records[..=at]));
            let (before, record) = (&records[..at], &records[at]);
            let looking = Looking {
                format,
                before,
                record,
            };
            let faults = if mixed_up {
                vec!["all of the file reads as a script; is it one?".to_string()]
            } else {
                looking.faults(refusal.number)
            };
            lines.extend(faults.iter().map(|fault| format!("at fault: {fault}")));
        }
        _ => lines.extend(whole_file(format, bytes, refusal)),
    }
    let remedy = if mixed_up {
        "name the model here, and the script behind it where one is wanted"
    } else {
        refusal.remedy()
    };
    lines.push(format!("what to do: {remedy}"));
    lines
}

/// Files are easily mixed up: scripts begin as models do.
fn is_script(format: &Format, bytes: &[u8], refusal: &Refusal) -> bool {
    let refused_at_once = refusal.start == 0 && refusal.end > 0;
    format.name == MODEL.name && refused_at_once && told(&SCRIPT, bytes) == bytes.len()
}

/// A refusal that concerns no record.
fn whole_file(format: &Format, bytes: &[u8], refusal: &Refusal) -> Option<String> {
    match refusal.number {
        _ if bytes.is_empty() => Some(format!(
            "at fault: the file is empty; a {} begins with a head",
            format.name
        )),
        3 => Some(format!(
            "at fault: the table has {} bytes, and {LONGEST_TABLE} are allowed",
            bytes.len()
        )),
        _ => None,
    }
}

/// Which record it is and what it holds; it is the last of those given.
fn place(records: &[Record]) -> Vec<String> {
    let (number, record) = (records.len(), &records[records.len() - 1]);
    let what = match record.kind {
        Some(_) => item_of(records),
        None => format!("kind {:02x}, which there is not", record.bytes[0]),
    };
    let (start, end) = (record.start, record.end());
    let shown = record_in_words(record);
    vec![
        format!("record {number}, bytes {start} to {end}: {what}"),
        format!("  {shown}"),
    ]
}

/// `thread 0`, `atom 1 of clause 0 of rule 5`.
fn item_of(records: &[Record]) -> String {
    let Some((record, before)) = records.split_last() else {
        return String::new();
    };
    let Some(kind) = record.kind else {
        return String::new();
    };
    let own = match kind.item {
        Item::Head => "head".to_string(),
        item => format!("{} {}", item.word(), record.number),
    };
    let outer = kind
        .within
        .and_then(|within| before.iter().rposition(|other| other.is(within)));
    match outer {
        Some(at) => format!("{own} of {}", item_of(&before[..=at])),
        None => own,
    }
}

/// A record, and what stands before it.
struct Looking<'a> {
    format: &'a Format,
    before: &'a [Record<'a>],
    record: &'a Record<'a>,
}

impl Looking<'_> {
    /// What gives this refusal, as far as it can be told.
    fn faults(&self, number: u32) -> Vec<String> {
        let Some(kind) = self.record.kind else {
            return vec![self.unknown()];
        };
        let Some(values) = &self.record.values else {
            let (size, left) = (1 + kind.body(), self.record.bytes.len());
            return vec![format!(
                "it has {size} bytes, and the file ends after {left} of them"
            )];
        };
        match number {
            2 => vec![self.out_of_order(kind)],
            3 => kind
                .limit
                .map(|limit| self.too_many(kind, limit))
                .into_iter()
                .collect(),
            5 => self.foreign(),
            6 => self.twice(values),
            7 => self.hyperperiod(),
            _ => self.fields(kind, values, number),
        }
    }

    fn unknown(&self) -> String {
        let byte = self.record.bytes[0];
        let other = FORMATS
            .iter()
            .find(|other| other.kind(byte).is_some() && other.name != self.format.name);
        let name = self.format.name;
        match other {
            Some(other) => format!(
                "no record of a {name} begins with {byte:02x}; is it a {}?",
                other.name
            ),
            None => format!("no record of a {name} begins with {byte:02x}"),
        }
    }

    fn out_of_order(&self, kind: &Kind) -> String {
        let own = kind.item.word();
        match self.before.last().and_then(|record| record.kind) {
            None if self.format.name == MODEL.name => {
                format!("{} stands first, where the head must", a(own))
            }
            None => format!("{} stands first", a(own)),
            Some(_) if kind.item == Item::Head => "this is a second head".to_string(),
            Some(before) => format!("no {own} may follow {}", a(before.item.word())),
        }
    }

    fn too_many(&self, kind: &Kind, limit: usize) -> String {
        let own = kind.item.word();
        let outer = kind.within.map_or(self.format.name, Item::word);
        format!("there are at most {limit} {own}s in a {outer}")
    }

    /// Each field that gives this refusal.
    fn fields(&self, kind: &Kind, values: &[i64], number: u32) -> Vec<String> {
        let faults = kind.fields.iter().zip(0..).filter_map(|(field, at)| {
            let fault = self.broken(kind, at, values)?;
            let shown = match field_words(field, values[at]) {
                words if words.is_empty() => format!("{} {}", field.word, values[at]),
                words => words,
            };
            (fault.number == number).then(|| format!("{shown}, {}", fault.said))
        });
        faults.collect()
    }

    /// What is wrong with a field, if anything is.
    fn broken(&self, kind: &Kind, at: usize, values: &[i64]) -> Option<Fault> {
        let (field, value) = (&kind.fields[at], values[at]);
        match field.must {
            Must::Free => None,
            Must::Within(low, high) => outside(value, low, high),
            Must::Time => no_time(value),
            Must::UpTo(word) => self.not_up_to(word, value),
            Must::Names(_) if kind.item == Item::Head => self.no_mode_of_head(value),
            Must::Names(item) => missing(item, value, self.count(item)),
            Must::Mask => {
                let modes = self.count(Item::Mode);
                fault(OUTSIDE, value >> modes != 0, only(Item::Mode, modes))
            }
            Must::Tag(tags) => self.wrong_tag(value, self.allowed(tags)),
            Must::Tagged => self.tagged(kind, at, values),
            Must::Variable => no_variable(value),
            Must::Target if value == 0 => fault(OUTSIDE, true, "but the clock goes by TICK alone"),
            Must::Target => no_variable(value),
            Must::Rising if value == 0 => fault(OUTSIDE, true, "but the clock always starts at 0"),
            Must::Rising => no_variable(value).or_else(|| self.not_rising(value)),
            Must::Condition if value == NO_CONDITION => None,
            Must::Condition => no_variable(value),
            Must::Length => self.length(field, value),
        }
    }

    /// How many modes the head gives, as written, or items stand before.
    fn count(&self, item: Item) -> i64 {
        if item != Item::Mode {
            return self.before.iter().filter(|record| record.is(item)).count() as i64;
        }
        let head = self
            .before
            .iter()
            .chain([self.record])
            .find(|record| record.is(Item::Head));
        head.and_then(|head| head.value("modes")).unwrap_or(0)
    }

    /// The initial mode is held against the count as written, be that good or not.
    fn no_mode_of_head(&self, initial: i64) -> Option<Fault> {
        let modes = self.count(Item::Mode);
        let mut fault = missing(Item::Mode, initial, modes)?;
        if !(1..=MOST_MODES).contains(&modes) {
            fault.said += ", by the count as written";
        }
        Some(fault)
    }

    /// A time goes up to another one of the thread, unless that is at fault itself.
    fn not_up_to(&self, word: &str, value: i64) -> Option<Fault> {
        let bound = self.record.value(word)?;
        if no_time(bound).is_some() {
            return no_time(value);
        }
        let said = format!("which must be from 1 to the {word}, {bound}");
        fault(FAULTY_TIME, !(1..=bound).contains(&value), said)
    }

    /// Those of the tags that may stand here: beside a multiple a constant alone, and
    /// the chosen length only where START's rules set something.
    fn allowed(&self, tags: &'static [i64]) -> &'static [i64] {
        if self.is_multiple() {
            &tags[..1]
        } else if self.record.is(Item::Update) && !self.in_start_rule() {
            &tags[..2]
        } else {
            tags
        }
    }

    /// Whether this is an atom that asks for a multiple.
    fn is_multiple(&self) -> bool {
        let op = self.record.value("op");
        self.record.is(Item::Atom) && [Some(MULTIPLE), Some(NO_MULTIPLE)].contains(&op)
    }

    fn wrong_tag(&self, tag: i64, tags: &[i64]) -> Option<Fault> {
        let is_model = self.format.name == MODEL.name;
        let known: &[&str] = if is_model { &MODEL_TAGS } else { &TABLE_TAGS };
        let word = |tag: &i64| format!("{tag} ({})", known[*tag as usize]);
        let wanted: Vec<String> = tags.iter().map(word).collect();
        let is = known
            .get(tag as usize)
            .map_or(String::new(), |is| format!("{is}; "));
        let why = if self.is_multiple() {
            " for a multiple (mod)"
        } else {
            ""
        };
        let said = format!("{is}must be {}{why}", wanted.join(" or "));
        fault(OUTSIDE, !tags.contains(&tag), said)
    }

    fn in_start_rule(&self) -> bool {
        let rule = self
            .before
            .iter()
            .rev()
            .find(|record| record.is(Item::Rule));
        rule.and_then(|rule| rule.value("event kind")) == Some(i64::from(START))
    }

    /// A number behind a tag: an item of a model, a variable of a table. It is not
    /// looked at where the tag may not stand.
    fn tagged(&self, kind: &Kind, at: usize, values: &[i64]) -> Option<Fault> {
        let (tag, number) = (values[at - 1], values[at]);
        match kind.fields[at - 1].must {
            Must::Tag(tags) if self.allowed(tags).contains(&tag) => {}
            _ => return None,
        }
        if self.is_multiple() {
            let said = "but a multiple (mod) wants a constant above 0";
            return fault(OUTSIDE, number < 1, said);
        }
        if self.format.name != MODEL.name {
            return if tag == 1 { no_variable(number) } else { None };
        }
        let (_, item) = TAGS.iter().find(|(known, _)| *known == tag)?;
        missing(*item, number, self.count(*item))
    }

    fn not_rising(&self, variable: i64) -> Option<Fault> {
        let before = self
            .before
            .iter()
            .rev()
            .find(|record| record.is(Item::Start))?
            .value("variable")?;
        let said = format!("which must be above {before}, the one started before");
        fault(OUTSIDE, variable <= before, said)
    }

    /// `low` and `high` of a rule.
    fn length(&self, field: &Field, value: i64) -> Option<Fault> {
        if self.record.value("event kind") != Some(i64::from(START)) {
            let said = "which is for START alone and 0 elsewhere";
            return fault(OUTSIDE, value != 0, said);
        }
        let high = self.record.value("high")?;
        let above = field.word == "low" && value > high;
        let said = format!("which is above high, {high}");
        fault(OUTSIDE, above, said).or_else(|| outside(value, 0, LONGEST))
    }

    /// Ports and locals of this record that belong to another thread.
    fn foreign(&self) -> Vec<String> {
        let Some((kind, values)) = self.record.whole() else {
            return Vec::new();
        };
        let behaviour = self
            .before
            .iter()
            .rev()
            .find(|record| record.is(Item::Behaviour));
        let thread = behaviour.and_then(|behaviour| behaviour.value("thread"));
        let tagged = (1..values.len()).filter(|at| kind.fields[*at].must == Must::Tagged);
        let foreign = tagged.filter_map(|at| {
            let owner = self.owner(values[at - 1], values[at])?;
            let shown = operand(values[at - 1], values[at]);
            (Some(owner) != thread).then(|| {
                format!(
                    "{shown} belongs to thread {owner}, the behaviour to thread {}",
                    thread.unwrap_or(0)
                )
            })
        });
        foreign.collect()
    }

    fn owner(&self, tag: i64, number: i64) -> Option<i64> {
        let (_, item) = TAGS.iter().find(|(known, _)| *known == tag)?;
        let owner = self
            .before
            .iter()
            .filter(|record| record.is(*item))
            .nth(usize::try_from(number).ok()?)?;
        owner.value("thread")
    }

    fn twice(&self, values: &[i64]) -> Vec<String> {
        let fault = if self.record.is(Item::Connection) {
            let port = self.record.value("to input");
            let other = self
                .before
                .iter()
                .find(|record| record.is(Item::Connection) && record.value("to input") == port);
            other.map(|other| {
                format!(
                    "input {} is fed by connection {} already",
                    port.unwrap_or(0),
                    other.number
                )
            })
        } else {
            Some(format!(
                "{} is set by this behaviour already",
                operand(values[0], values[1])
            ))
        };
        fault.into_iter().collect()
    }

    /// The periods whose common multiple is too long.
    fn hyperperiod(&self) -> Vec<String> {
        let Some(from) = self.record.value("from mode") else {
            return Vec::new();
        };
        let critical = self.before.iter().filter(|record| {
            let in_mode = record
                .value("modes")
                .is_some_and(|mask| mask >> from & 1 == 1);
            record.is(Item::Thread) && in_mode && record.value("critical") == Some(1)
        });
        let periods: Vec<String> = critical
            .filter_map(|record| record.value("period"))
            .map(|period| period.to_string())
            .collect();
        vec![format!(
            "the critical threads of mode {from} have the periods {}",
            periods.join(", ")
        )]
    }
}

/// `a thread`, `an input`.
fn a(word: &str) -> String {
    let vowel = word.starts_with(['a', 'e', 'i', 'o', 'u']);
    format!("{} {word}", if vowel { "an" } else { "a" })
}

fn outside(value: i64, low: i64, high: i64) -> Option<Fault> {
    let said = format!("which must be from {low} to {high}");
    fault(OUTSIDE, !(low..=high).contains(&value), said)
}

fn no_time(value: i64) -> Option<Fault> {
    let number = FAULTY_TIME;
    outside(value, 1, LONGEST).map(|fault| Fault { number, ..fault })
}

fn missing(item: Item, number: i64, count: i64) -> Option<Fault> {
    fault(
        NAMES_NOTHING,
        !(0..count).contains(&number),
        only(item, count),
    )
}

pub fn only(item: Item, count: i64) -> String {
    let word = item.word();
    match count {
        0 => format!("but there is no {word}"),
        1 => format!("but there is only {word} 0"),
        _ => format!("but there are only {word}s 0 to {}", count - 1),
    }
}

fn no_variable(variable: i64) -> Option<Fault> {
    let said = format!("but the variables are 0 to {}", VARIABLES - 1);
    fault(NAMES_NOTHING, !variables::exists(variable), said)
}
