//! `explore`: all orders of events, breadth first, within bounds.

use std::ffi::OsStr;

use futonkestrel::{read_table, translate_to_vec, Model, Table};

use super::{listing, tell_file};
use crate::explore::condition::Condition;
use crate::explore::event::{script, Event};
use crate::explore::fold::{is_missed, Fold};
use crate::explore::parse::{parse, Fault, Known};
use crate::explore::report::{listed, report, About};
use crate::explore::subject::{Parting, Subject};
use crate::explore::{Bounds, End, Lengths, Progress, Search, Ticks, LAST_CLOCK, MOST_STATES};
use crate::figures::counted;
use crate::files::{self, Input};
use crate::format::{Item, MISS, MODEL, TABLE};
use crate::names::Names;
use crate::options::Call;
use crate::record::{records, Record};
use crate::rules::{rules, Rule};
use crate::variables::{is_time, name_with};
use crate::{complain, Failure, Status};

/// States that are kept unless others are asked for: some hundred megabytes.
const USUAL_STATES: usize = 1_000_000;

/// What is to be done, all of it read and accepted.
struct Task<'a> {
    call: &'a Call,
    names: &'a Names,
    bounds: Bounds,
    file: &'a Input,
    beside: Option<&'a Input>,
    is_table: bool,
}

pub fn explore(call: &Call) -> Result<Status, Failure> {
    let bounds = bounds(call)?;
    consistent(call)?;
    let names = listing::names(call)?;
    let file = files::read(&call.operands[0])?;
    let beside = call.value("--beside").map(files::read).transpose()?;
    let task = Task {
        call,
        names: &names,
        bounds,
        file: &file,
        beside: beside.as_ref(),
        is_table: call.has("--table"),
    };
    task.run()
}

/// Options that make no sense together.
fn consistent(call: &Call) -> Result<(), Failure> {
    let together = |first: &str, second: &str| call.has(first) && call.has(second);
    if together("--table", "--beside") {
        return Err(wrong("--beside wants a model to be stepped beside it"));
    }
    if together("--table", "--fold") || together("--beside", "--fold") {
        return Err(wrong(
            "--fold is sound for a model and its own table only, not for any table",
        ));
    }
    if call.has("--trail") && !call.has("--until") && !call.has("--beside") {
        return Err(wrong("--trail wants --until, which says where it leads"));
    }
    let standard = ["--names", "--beside"].map(|option| call.value(option));
    let standard = standard
        .into_iter()
        .flatten()
        .chain(call.operands.iter().map(|file| file.as_os_str()));
    match standard.filter(|file| *file == "-").count() {
        0 | 1 => Ok(()),
        _ => Err(files::one_standard_input()),
    }
}

fn bounds(call: &Call) -> Result<Bounds, Failure> {
    let lengths = word(
        call,
        "--lengths",
        &[("ends", Lengths::Ends), ("all", Lengths::All)],
    )?;
    let ticks = word(call, "--tick", &[("next", Ticks::Next), ("1", Ticks::One)])?;
    let last = LAST_CLOCK as usize;
    Ok(Bounds {
        lengths,
        ticks,
        clock: number(call, "--clock", 0, last)?.unwrap_or(last) as i32,
        depth: number(call, "--depth", 0, usize::MAX)?.unwrap_or(usize::MAX),
        states: number(call, "--states", 1, MOST_STATES)?.unwrap_or(USUAL_STATES),
    })
}

/// One of some words, the first of them where the option is not given.
fn word<T: Copy>(call: &Call, option: &str, words: &[(&str, T)]) -> Result<T, Failure> {
    let Some(value) = call.value(option) else {
        return Ok(words[0].1);
    };
    let found = words.iter().find(|(word, _)| value == *word);
    found.map(|(_, meaning)| *meaning).ok_or_else(|| {
        let known: Vec<&str> = words.iter().map(|(word, _)| *word).collect();
        let value = value.to_string_lossy();
        wrong(&format!(
            "{option} wants {}, not '{value}'",
            known.join(" or ")
        ))
    })
}

fn number(call: &Call, option: &str, low: usize, high: usize) -> Result<Option<usize>, Failure> {
    let Some(value) = call.value(option) else {
        return Ok(None);
    };
    let text = value.to_string_lossy();
    let plain = text.bytes().all(|byte| byte.is_ascii_digit());
    let number = text
        .parse()
        .ok()
        .filter(|number| plain && (low..=high).contains(number));
    match number {
        Some(number) => Ok(Some(number)),
        None if high == usize::MAX => Err(wrong(&format!("{option} wants a number, not '{text}'"))),
        None => Err(wrong(&format!(
            "{option} wants a number from {low} to {high}, not '{text}'"
        ))),
    }
}

fn wrong(text: &str) -> Failure {
    Failure::Usage(format!(
        "explore: {text}\n('futonkestrel explore --help' tells more)"
    ))
}

impl Task<'_> {
    fn run(&self) -> Result<Status, Failure> {
        let made = match (self.is_table, self.beside) {
            (true, _) => Ok(self.file.bytes.clone()),
            (false, None) => translate_to_vec(&self.file.bytes),
            (false, Some(table)) => {
                futonkestrel::read_model(&self.file.bytes).map(|()| table.bytes.clone())
            }
        };
        let table = match made {
            Ok(table) => table,
            Err(refusal) => return Ok(tell_file(&MODEL, self.file, &self.file.bytes, &refusal)),
        };
        match read_table(&table) {
            Ok(()) => self.explore(&table),
            Err(refusal) => {
                let file = self.beside.unwrap_or(self.file);
                Ok(tell_file(&TABLE, file, &table, &refusal))
            }
        }
    }

    fn explore(&self, bytes: &[u8]) -> Result<Status, Failure> {
        let until = self.until()?;
        let inputs = [Some(self.file), self.beside, self.names.file.as_ref()];
        let inputs: Vec<&Input> = inputs.into_iter().flatten().collect();
        if let Some(trail) = self.trail().filter(|trail| *trail != "-") {
            files::place_of(trail, &inputs)?;
        }
        let table = Table::read(bytes).expect("it was accepted");
        let model = Model::read(&self.file.bytes).ok();
        let rules = rules(bytes);
        let subject = Subject::new(table, model.filter(|_| !self.is_table), &rules);
        let fold = self.fold(until.as_ref());
        let mut progress = Progress::begin();
        let mut search = Search::new(&subject, &rules, fold, self.bounds, until.as_ref());
        let end = search.run(&mut progress);
        let about = About {
            names: self.names,
            threads: threads(&rules),
            until: self.call.value("--until").map(OsStr::to_string_lossy),
            bounds: self.bounds,
            fold,
            elapsed: progress.elapsed(),
        };
        self.tell(report(&search, &end, &about).as_bytes())?;
        if let (Some(file), Some(trail)) = (self.trail(), trail(&search, &end)) {
            files::write(file, &script(&trail), &inputs)?;
        }
        Ok(self.status(&end, until.as_ref()))
    }

    /// The report goes to standard error where the trail goes to standard output.
    fn tell(&self, report: &[u8]) -> Result<(), Failure> {
        match self.trail() {
            Some(trail) if trail == "-" => complain(&String::from_utf8_lossy(report)),
            _ => drop(files::print(report)?),
        }
        Ok(())
    }

    fn trail(&self) -> Option<&OsStr> {
        self.call.value("--trail")
    }

    /// A condition that is looked for is found, or that is a failure.
    fn status(&self, end: &End, until: Option<&Condition>) -> Status {
        match (end, until) {
            (End::Parted(events, Parting(how)), _) => self.parted(events, how),
            (End::Found(_), _) | (_, None) => Status::Done,
            (End::Closed | End::Depth | End::States, Some(until)) => self.not_found(until),
        }
    }

    fn not_found(&self, until: &Condition) -> Status {
        complain("not found: the condition holds in no state within this bound\n");
        let instant = until.asks_for(&|variable| is_time(variable as i64));
        if instant.is_some() && self.bounds.ticks == Ticks::Next {
            complain("  ticks pass over instants at which nothing can happen; '--tick 1' stops at each\n");
        }
        Status::Refused
    }

    fn parted(&self, events: &[Event], how: &str) -> Status {
        let whose = match self.beside {
            Some(table) => format!("{} and {}", self.file.name, table.name),
            None => "defect: the model and the table made from it".to_string(),
        };
        let place = match events.len() {
            0 => "at the start".to_string(),
            count => format!("after {}", counted(count, "event")),
        };
        let listed = listed(events, self.names);
        complain(&format!("{whose} part {place}: {how}\n{listed}"));
        Status::Refused
    }

    /// How states are folded, where that is asked for.
    fn fold(&self, until: Option<&Condition>) -> Option<Fold> {
        let tells_misses = until.is_some_and(|until| until.asks_for(&is_missed).is_some());
        let fold = || Fold::of(&self.file.bytes, tells_misses);
        self.call.has("--fold").then(fold)
    }

    fn until(&self) -> Result<Option<Condition>, Failure> {
        let Some(text) = self.call.value("--until") else {
            return Ok(None);
        };
        let text = text.to_string_lossy();
        let records = records(&MODEL, &self.file.bytes);
        let count = |item: Item| (!self.is_table).then(|| count(&records, item));
        let known = Known {
            names: self.names,
            count: &count,
        };
        let fault = |fault: Fault| wrong(&format!("--until: {}", fault.shown(&text)));
        let condition = parse(&text, &known).map_err(fault)?;
        let instant = condition.asks_for(&|variable| is_time(variable as i64));
        match instant.filter(|_| self.call.has("--fold")) {
            None => Ok(Some(condition)),
            Some(variable) => Err(wrong(&format!(
                "--until asks for {}, which --fold does not tell apart",
                name_with(variable as i64, self.names)
            ))),
        }
    }
}

/// How many items of a sort a model has.
fn count(records: &[Record], item: Item) -> i64 {
    records.iter().filter(|record| record.is(item)).count() as i64
}

/// The threads that have rules for MISS.
fn threads(rules: &[Rule]) -> Vec<u8> {
    let misses = rules.iter().filter(|rule| rule.event == MISS);
    let mut threads: Vec<u8> = misses.map(|rule| rule.id).collect();
    threads.sort_unstable();
    threads.dedup();
    threads
}

/// The events that lead to what stopped the search.
fn trail(search: &Search, end: &End) -> Option<Vec<Event>> {
    match end {
        End::Found(state) => Some(search.store.trail(*state)),
        End::Parted(events, _) => Some(events.clone()),
        End::Closed | End::Depth | End::States => None,
    }
}
