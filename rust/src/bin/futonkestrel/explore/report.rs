//! What an exploration has found, in words, and never more than that.

use std::borrow::Cow;
use std::time::Duration;

use super::event::Event;
use super::fold::Fold;
use super::{Bounds, End, Lengths, Search, Ticks};
use crate::figures::{counted, grouped};
use crate::format::Item;
use crate::machine::event_words;
use crate::names::Names;

/// What a report names beside the search.
pub struct About<'a> {
    pub names: &'a Names,
    /// The threads whose deadlines can be missed.
    pub threads: Vec<u8>,
    pub until: Option<Cow<'a, str>>,
    pub bounds: Bounds,
    pub fold: Option<Fold>,
    pub elapsed: Duration,
}

/// Lists of events are broken here.
const WIDTH: usize = 100;
/// So many events are told, the first and the last; a trail has all of them.
const MOST_LISTED: usize = 80;

/// All that is told of a search.
pub fn report(search: &Search, end: &End, about: &About) -> String {
    let mut text = String::new();
    if let (End::Found(state), Some(until)) = (end, &about.until) {
        text += &found(search, *state, until, about.names);
    }
    text += &format!(
        "{}, depth {}, {}, clock up to {}\n",
        counted(search.store.len(), "state"),
        depth(search, end),
        counted(search.taken as usize, "step"),
        grouped(search.clock as i64)
    );
    text += &format!("{}\n", stopped(search, end, &about.bounds));
    text += &format!("tried: {}\n", tried(about));
    if search.conflicts > 0 {
        let count = grouped(search.conflicts as i64);
        text += &format!("refused: {count} events, where two rules or two updates meet\n");
    }
    for thread in &about.threads {
        text += &miss(search, *thread, about.names);
    }
    text + &speed(search, about.elapsed)
}

/// Where the condition holds, and the events that lead there.
fn found(search: &Search, state: usize, until: &str, names: &Names) -> String {
    let trail = search.store.trail(state);
    let clock = search.clock_of(state);
    let after = counted(trail.len(), "event");
    match trail.is_empty() {
        true => format!("found: {until} holds at the start\n"),
        false => format!(
            "found: {until} holds after {after}, at clock {clock}\n{}",
            listed(&trail, names)
        ),
    }
}

/// The most events of a list that was tried.
fn depth(search: &Search, end: &End) -> usize {
    match end {
        End::Closed | End::Depth => search.depth,
        End::Found(state) => search.store.trail(*state).len(),
        End::Parted(events, _) => events.len(),
        End::States => search.depth + 1,
    }
}

fn stopped(search: &Search, end: &End, bounds: &Bounds) -> String {
    let depth = search.depth;
    match end {
        End::Closed => "stopped: every list was tried; no new state is left".to_string(),
        End::Depth => format!("stopped: at depth {depth}, the bound; longer lists were not tried"),
        End::States => format!(
            "stopped: at {} states, the bound; lists of more than {} were not all tried",
            grouped(bounds.states as i64),
            counted(depth, "event")
        ),
        End::Found(_) => "stopped: where the condition holds".to_string(),
        End::Parted(..) => "stopped: where model and table part".to_string(),
    }
}

/// Which events were tried.
fn tried(about: &About) -> String {
    let bounds = &about.bounds;
    let lengths = match bounds.lengths {
        Lengths::Ends => "STARTs of their shortest and longest length",
        Lengths::All => "STARTs of every length",
    };
    let ticks = match bounds.ticks {
        Ticks::Next => "ticks up to the next instant at which something can happen",
        Ticks::One => "ticks one by one",
    };
    let mut words = vec![lengths.to_string(), ticks.to_string()];
    if bounds.clock < super::LAST_CLOCK {
        words.push(format!(
            "no tick past clock {}",
            grouped(bounds.clock as i64)
        ));
    }
    words.extend(about.fold.map(folded));
    words.join("; ")
}

fn folded(fold: Fold) -> String {
    let shift = match fold.hyperperiod {
        Some(hyperperiod) => {
            let hyperperiod = grouped(hyperperiod as i64);
            format!("states that differ by a hyperperiod of {hyperperiod}")
        }
        // No state is so late, so that none is a shift of another.
        None => "states that differ by instants that are over".to_string(),
    };
    match fold.tells_misses {
        true => format!("{shift} are one"),
        false => format!("{shift} or by counts of misses are one"),
    }
}

fn miss(search: &Search, thread: u8, names: &Names) -> String {
    let name = names.or_number(Item::Thread, i64::from(thread));
    match search.misses[usize::from(thread)] {
        Some(events) => {
            let events = counted(events, "event");
            format!("{name}: a miss is found after {events}\n")
        }
        None => format!("{name}: no miss found within this bound\n"),
    }
}

fn speed(search: &Search, elapsed: Duration) -> String {
    let seconds = elapsed.as_secs_f64();
    let rate = |count: u64| grouped((count as f64 / seconds.max(1e-9)) as i64);
    format!(
        "{seconds:.2} s: {} states and {} steps a second\n",
        rate(search.store.len() as u64),
        rate(search.taken)
    )
}

/// Events in few words, indented and broken into lines; of many the first and the
/// last.
pub fn listed(events: &[Event], names: &Names) -> String {
    let words = |event: &Event| event_words(&event.bytes(), names);
    let words: Vec<String> = match events.len() > MOST_LISTED {
        false => events.iter().map(words).collect(),
        true => {
            let (first, rest) = events.split_at(MOST_LISTED / 2);
            let (left_out, last) = rest.split_at(rest.len() - MOST_LISTED / 2);
            let told = format!("({} more)", counted(left_out.len(), "event"));
            let first = first.iter().map(words);
            first.chain([told]).chain(last.iter().map(words)).collect()
        }
    };
    lines(&words)
}

/// Words with commas between them, indented and broken into lines.
fn lines(words: &[String]) -> String {
    let mut text = String::new();
    let mut line = String::from(" ");
    for (at, word) in words.iter().enumerate() {
        let comma = if at + 1 < words.len() { "," } else { "\n" };
        if line.len() + word.len() + 2 > WIDTH {
            text += &format!("{line}\n");
            line = String::from(" ");
        }
        line += &format!(" {word}{comma}");
    }
    match words.is_empty() {
        true => text,
        false => text + &line,
    }
}
