//! `steps`, `rules` and `run`: the listings, and what happened in words.

use futonkestrel::refusals::Holder;
use futonkestrel::{
    events, model_listing, read_table, run_model, run_table, start_test, table_listing, translate,
    translate_to_vec, Refusal, Table, Variables,
};

use super::{tell, tell_file};
use crate::ends::{stopped, with_ends};
use crate::files::{self, Input};
use crate::format::{Format, Item, DEACTIVATE, MODEL, REQUEST, SCRIPT, START, TABLE, TICK};
use crate::items::Items;
use crate::look::Look;
use crate::machine::{item_of_event, Machine};
use crate::names::Names;
use crate::options::Call;
use crate::record::{records, Record};
use crate::start_words::Asked;
use crate::stops::{self, with_stop, Stop, Stops};
use crate::variables::{is_of_table_only, name_with, value_with};
use crate::{Failure, Status};

/// What the verified programs read of a file, and the room that `rules` has.
const LIMIT: usize = 65_536;
/// What is said stands behind the line from here on.
const COLUMN: usize = 9;
/// The refusal of an event that is whole but cannot happen now.
const NOT_ENABLED: u32 = 10;

/// A run that is to be shown.
pub struct Job<'a> {
    format: &'static Format,
    file: &'a Input,
    /// What is read of it.
    bytes: &'a [u8],
    script: &'a Input,
    events: &'a [u8],
    /// The listing, by the library.
    pub listing: Vec<u8>,
    /// Why the run stopped.
    pub refusal: Option<Refusal>,
    /// The table, to look at variables; none where nothing is run.
    pub table: Option<Vec<u8>>,
    /// Whether it is the model that is run.
    of_model: bool,
}

pub fn steps(call: &Call) -> Result<Status, Failure> {
    let names = names(call)?;
    let (model, script) = files::read_two(&call.operands[0], &call.operands[1])?;
    Job::of_model(call, &model, &script).print(call, &names)
}

pub fn rules(call: &Call) -> Result<Status, Failure> {
    let names = names(call)?;
    let (model, script) = files::read_two(&call.operands[0], &call.operands[1])?;
    let (bytes, events) = (limited(call, &model), limited(call, &script));
    let made = if call.has("--limit") {
        limited_table(bytes)
    } else {
        translate_to_vec(bytes)
    };
    let (listing, refusal) = match &made {
        Ok(table) => (
            table_listing(table, events),
            run_table(table, events).refusal,
        ),
        Err(refusal) => (
            format!("end 0 {} 0\n", refusal.number).into_bytes(),
            Some(*refusal),
        ),
    };
    let job = Job {
        format: &MODEL,
        file: &model,
        bytes,
        script: &script,
        events,
        listing,
        refusal,
        table: made.ok(),
        of_model: false,
    };
    job.print(call, &names)
}

pub fn run(call: &Call) -> Result<Status, Failure> {
    let names = names(call)?;
    let (table, script) = files::read_two(&call.operands[0], &call.operands[1])?;
    let (bytes, events) = (&table.bytes[..], limited(call, &script));
    let job = Job {
        format: &TABLE,
        file: &table,
        bytes,
        script: &script,
        events,
        listing: table_listing(bytes, events),
        refusal: run_table(bytes, events).refusal,
        table: read_table(bytes).is_ok().then(|| bytes.to_vec()),
        of_model: false,
    };
    job.print(call, &names)
}

/// Names may come from standard input, if no other file does.
pub fn names(call: &Call) -> Result<Names, Failure> {
    let file = call.value("--names");
    if file.is_some_and(|file| file == "-" && call.operands.iter().any(|other| other == file)) {
        return Err(files::one_standard_input());
    }
    Names::read(file)
}

/// All of a file, or what the programs read of it.
fn limited<'a>(call: &Call, file: &'a Input) -> &'a [u8] {
    let length = if call.has("--limit") {
        file.bytes.len().min(LIMIT)
    } else {
        file.bytes.len()
    };
    &file.bytes[..length]
}

/// The table in the room that the program has.
fn limited_table(model: &[u8]) -> Result<Vec<u8>, Refusal> {
    let mut table = vec![0; LIMIT];
    let length = translate(model, &mut table)?;
    table.truncate(length);
    Ok(table)
}

impl<'a> Job<'a> {
    /// A model's run.
    pub fn of_model(call: &Call, model: &'a Input, script: &'a Input) -> Job<'a> {
        let (bytes, events) = (limited(call, model), limited(call, script));
        Job {
            format: &MODEL,
            file: model,
            bytes,
            script,
            events,
            listing: model_listing(bytes, events),
            refusal: run_model(bytes, events).refusal,
            table: translate_to_vec(bytes).ok(),
            of_model: true,
        }
    }

    fn print(&self, call: &Call, names: &Names) -> Result<Status, Failure> {
        let (words, values) = (call.has("--words"), call.has("--values"));
        if words || values {
            files::print(self.with_words(words, values, names).as_bytes())?;
        } else {
            files::print(&self.listing)?;
        }
        Ok(match &self.refusal {
            None => Status::Done,
            Some(refusal) => self.tell_refusal(refusal, names),
        })
    }

    /// A refusal in the script concerns an event, any other the model or table.
    pub fn tell_refusal(&self, refusal: &Refusal, names: &Names) -> Status {
        let Some(mut lines) = self.refused_event(refusal, names) else {
            return tell_file(self.format, self.file, self.bytes, refusal);
        };
        lines.push(format!("cause: {}", refusal.cause()));
        lines.push(format!("what to do: {}", refusal.remedy()));
        tell(refusal, self.script, &lines)
    }

    /// What can be said of a refused event, first which step it is.
    pub fn refused_event(&self, refusal: &Refusal, names: &Names) -> Option<Vec<String>> {
        let of_script = refusal.holder() == Holder::Script;
        let mut machine = self.machine().filter(|_| of_script)?;
        let mut taken = 0;
        for event in events(&self.events[..refusal.start]) {
            machine.step(event);
            taken += 1;
        }
        let part = &records(&SCRIPT, &self.events[refusal.start..refusal.end])[0];
        let line = machine.refused(part, refusal.number, names);
        let mut lines = vec![format!("step {}: {line}", taken + 1)];
        if refusal.number == NOT_ENABLED {
            let look = Look::new(machine.variables);
            let of_model = self.why_model_does_not(&look, part, refusal.start, names);
            lines.extend(of_model.or_else(|| machine.why_not(part.bytes, names)));
        }
        Some(lines)
    }

    /// Why the model does not take an event, where that says more than the clauses of
    /// the table's rules, or says it in another order.
    fn why_model_does_not(
        &self,
        look: &Look,
        event: &Record,
        place: usize,
        names: &Names,
    ) -> Option<String> {
        let (kind, values) = event.whole().filter(|_| self.of_model)?;
        let items = Items::of(self.bytes, names);
        match kind.byte {
            DEACTIVATE => stops::finishes(&items, look, values[0] as usize),
            TICK => stops::awaited(&items, look),
            START => {
                // Both fields are unsigned, of 32 bits at most.
                let [thread, length] = [0, 1].map(|field| values[field] as u32);
                let step = start_test(self.bytes, &self.events[..place], thread, length);
                let asked = Asked {
                    items: &items,
                    names,
                    look,
                    thread,
                    length,
                };
                let words = asked.words(step.expect("it was accepted"));
                Some(format!("START's test fails at {words}"))
            }
            _ => None,
        }
    }

    fn machine(&self) -> Option<Machine<'_>> {
        let table = Table::read(self.table.as_ref()?).expect("it was accepted");
        Some(Machine::new(table, self.format.name == MODEL.name))
    }

    /// The listing with what happened behind each line.
    fn with_words(&self, words: bool, values: bool, names: &Names) -> String {
        let listing = String::from_utf8_lossy(&self.listing);
        let mut machine = self.machine();
        let modes = self.modes(names);
        let (mut events, mut stops) = (events(self.events), Stops::default());
        let mut text = String::new();
        for line in listing.lines() {
            let mut said = Vec::new();
            if line.starts_with("end") {
                said.extend(words.then(|| self.end_in_words(line)));
            } else if let (Some(machine), Some(event)) = (&mut machine, events.next()) {
                let before = machine.variables;
                machine.step(event);
                let after = &machine.variables;
                let stop = stops.see(event, &before, after);
                let changed = self.changes(&before, after, names);
                said.extend(words.then(|| {
                    let ends = stopped(&machine.rules, event, &before, after);
                    let is_ignored = changed.is_empty() && ends.is_empty();
                    let told = happened(event, stop, is_ignored, names, &modes);
                    with_ends(&told, &ends, names)
                }));
                said.extend((values && !changed.is_empty()).then(|| changed.join(" ")));
            }
            text += format!("{line:COLUMN$}  {}", said.join(": ")).trim_end();
            text += "\n";
        }
        text
    }

    /// The variables that an event changed, with their values after it.
    fn changes(&self, before: &Variables, after: &Variables, names: &Names) -> Vec<String> {
        let both = after.iter().zip(before).zip(0..);
        let changed = both.filter(|((now, then), variable)| {
            now != then && !(self.of_model && is_of_table_only(*variable))
        });
        let shown = |((now, _), variable): ((&i32, &i32), i64)| {
            format!(
                "{}={}",
                name_with(variable, names),
                value_with(variable, i64::from(*now), names)
            )
        };
        changed.map(shown).collect()
    }

    /// From and to of each mode transition, where there is a model to tell.
    fn modes(&self, names: &Names) -> Vec<String> {
        if self.format.name != MODEL.name {
            return Vec::new();
        }
        let mode = |record: &Record, word| {
            record
                .value(word)
                .map(|mode| names.or_number(Item::Mode, mode))
        };
        let told = |record: &Record| {
            Some(format!(
                "{} to {}",
                mode(record, "from mode")?,
                mode(record, "to mode")?
            ))
        };
        let transitions = records(self.format, self.bytes);
        transitions
            .iter()
            .filter(|record| record.is(Item::Transition))
            .filter_map(told)
            .collect()
    }

    fn end_in_words(&self, line: &str) -> String {
        let clock = line.rsplit(' ').next().unwrap_or("");
        let taken = line.split(' ').nth(1).unwrap_or("");
        match &self.refusal {
            None => format!("{taken} events taken, all of them; the clock is {clock}"),
            Some(refusal) if refusal.holder() == Holder::Script => {
                format!("{taken} events taken, the next one refused; the clock is {clock}")
            }
            Some(_) => format!("the {} is refused", self.format.name),
        }
    }
}

/// An event that was taken: `START thread 0 for 2`. One that changes nothing is said to
/// be ignored, if it is a REQUEST.
fn happened(
    event: &[u8],
    stop: Option<Stop>,
    is_ignored: bool,
    names: &Names,
    modes: &[String],
) -> String {
    let part = records(&SCRIPT, event);
    let Some((kind, values)) = part.first().and_then(Record::whole) else {
        return String::new();
    };
    let mut words = vec![kind.word.to_string()];
    match item_of_event(kind.byte) {
        Some(item) => words.push(names.or_number(item, values[0])),
        None => words.push(values[0].to_string()),
    }
    let others = kind.fields.iter().zip(values).skip(1);
    words.extend(others.map(|(field, value)| format!("{} {value}", field.word)));
    let own = names.of(Item::Transition, values[0]);
    if item_of_event(kind.byte) == Some(Item::Transition) && own.is_none() {
        let told = modes.get(values[0] as usize);
        words.extend(told.map(|modes| format!("({modes})")));
    }
    if kind.byte == REQUEST && is_ignored {
        words.push("ignored".to_string());
    }
    with_stop(&words.join(" "), stop)
}
