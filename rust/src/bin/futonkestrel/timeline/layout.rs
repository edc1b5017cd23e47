//! Places: columns of steps and of passing time, broken into rows as music is.

use super::arrows::{self, Carried};
use super::axis;
use super::folding::Hidden;
use super::measure::{bold_width, width};
use super::steps::Moment;
use crate::figures::grouped;
use crate::format::MISS;
use crate::items::Items;
use crate::look::Look;

/// The picture's width, if no row needs more, and the room around it.
pub const PAGE: i32 = 1280;
pub const MARGIN: i32 = 16;
/// The room for the names of the lanes.
pub const LABELS: i32 = 160;
/// The sizes of letters.
pub const SMALL: i32 = 12;
pub const LARGE: i32 = 14;

/// Columns are at least so wide, a miss or a stop so that its word has room.
const NARROW: i32 = 28;
const OF_WORD: i32 = 44;
/// Folded ticks.
const TORN: i32 = 104;
/// Passing time: what is usual in a run is so wide, one tick at most so wide, and
/// what would be wider than the last is folded.
const USUAL: i64 = 44;
const MOST_OF_TICK: i64 = 14;
const LONGEST: i64 = 150;
/// What stands behind the last tick, or a refused event.
pub const CLOSING: i32 = 36;

/// A moment with its place.
pub struct Column<'a> {
    pub moment: &'a Moment,
    pub left: i32,
    pub width: i32,
    /// The part of it, at its left, that has the step; values carried come behind.
    step: i32,
    /// Time that is longer than it is drawn.
    pub torn: bool,
    /// The values that it carries.
    pub carried: Vec<Carried<'a>>,
}

impl Column<'_> {
    pub fn right(&self) -> i32 {
        self.left + self.width
    }

    /// Where its step happens.
    pub fn middle(&self) -> i32 {
        self.left + self.step / 2
    }
}

/// All that happens at one clock, as far as it is in one row.
pub struct Instant<'a> {
    pub left: i32,
    pub right: i32,
    pub clock: i64,
    /// The variables at its begin; nothing where it began elsewhere.
    pub begin: Option<&'a Look>,
}

pub struct Row<'a> {
    pub columns: Vec<Column<'a>>,
    /// Whether it is the last, which has room for its end.
    pub is_last: bool,
}

impl Row<'_> {
    pub fn right(&self) -> i32 {
        let columns = self.columns.last().map_or(MARGIN + LABELS, Column::right);
        columns + if self.is_last { CLOSING } else { 0 }
    }

    /// The instants of a row, and the one that its last tick leads to.
    pub fn instants(&self) -> Vec<Instant<'_>> {
        let mut instants: Vec<Instant> = Vec::new();
        let mut open = false;
        for column in &self.columns {
            let moment = column.moment;
            if !moment.is_event() {
                open = false;
                continue;
            }
            match instants.last_mut().filter(|_| open) {
                Some(instant) => instant.right = column.right(),
                None => instants.push(Instant {
                    left: column.left,
                    right: column.right(),
                    clock: moment.first.before,
                    begin: moment.begins_instant.then_some(&moment.before),
                }),
            }
            open = true;
        }
        let end = self.columns.last().filter(|_| self.is_last);
        if let Some(column) = end.filter(|column| column.moment.is_time()) {
            instants.push(Instant {
                left: column.right(),
                right: self.right(),
                clock: column.moment.last.after,
                begin: Some(&column.moment.after),
            });
        }
        instants
    }
}

/// The rows of a picture.
pub fn rows<'a>(moments: &'a [Moment], items: &'a Items) -> Vec<Row<'a>> {
    let usual = usual_ticks(moments);
    let columns = moments.iter().map(|moment| column(moment, items, usual));
    let mut rows = vec![Row {
        columns: Vec::new(),
        is_last: true,
    }];
    for column in columns {
        let row = rows.last_mut().expect("there is a row");
        let room = PAGE - MARGIN - CLOSING;
        let left = row.columns.last().map_or(MARGIN + LABELS, Column::right);
        row.columns.push(Column { left, ..column });
        if left + row.columns[row.columns.len() - 1].width > room && row.columns.len() > 1 {
            let next = row.columns.split_off(break_of(&row.columns));
            row.is_last = false;
            rows.push(Row {
                columns: moved(next),
                is_last: true,
            });
        }
    }
    rows
}

/// Where a full row is broken: before its last instant, if that leaves more than
/// half of it, else before its last column.
fn break_of(columns: &[Column]) -> usize {
    let last = columns.len() - 1;
    let half = (PAGE + LABELS) / 2;
    let begins = |at: &usize| columns[*at].moment.begins_instant && columns[*at].left > half;
    (1..=last).rev().find(begins).unwrap_or(last)
}

/// Columns at the start of a row.
fn moved(mut columns: Vec<Column>) -> Vec<Column> {
    let mut left = MARGIN + LABELS;
    for column in &mut columns {
        column.left = left;
        left += column.width;
    }
    columns
}

fn column<'a>(moment: &'a Moment, items: &'a Items, usual: i64) -> Column<'a> {
    let carried = arrows::carried(moment, items);
    let values: i32 = carried.iter().map(Carried::width).sum();
    let number = bold_width(&number_of(moment), LARGE) + 8;
    let (own, torn) = match &moment.piece.hidden {
        Some(hidden) => (width_of_sheet(moment, hidden), true),
        None if moment.is_time() => width_of_ticks(moment.last.after - moment.first.before, usual),
        None if moment.first.kind == MISS || moment.stop().is_some() => (OF_WORD, false),
        None => (NARROW, false),
    };
    let step = own.max(number);
    Column {
        moment,
        left: 0,
        width: step + values,
        step,
        torn,
        carried,
    }
}

/// Room for the longest line of what is folded.
fn width_of_sheet(moment: &Moment, hidden: &Hidden) -> i32 {
    let lines = axis::sheet_lines(moment, hidden);
    let widths = lines.iter().map(|(_, line)| width(line, LARGE));
    widths.max().unwrap_or(0) + 2 * MARGIN
}

/// The width of passing time, and whether it is folded.
fn width_of_ticks(ticks: i64, usual: i64) -> (i32, bool) {
    let width = (ticks * USUAL / usual).min(ticks * MOST_OF_TICK);
    if width > LONGEST {
        return (TORN, true);
    }
    ((width as i32).max(NARROW), false)
}

/// How many ticks usually pass at once: the middle one of all.
fn usual_ticks(moments: &[Moment]) -> i64 {
    let times = moments.iter().filter(|moment| moment.is_time());
    let mut ticks: Vec<i64> = times
        .map(|moment| moment.last.after - moment.first.before)
        .collect();
    ticks.sort_unstable();
    ticks.get(ticks.len() / 2).copied().unwrap_or(1).max(1)
}

/// The number of a step, or of the first and last of several.
pub fn number_of(moment: &Moment) -> String {
    let (first, last) = (moment.first.number, moment.last.number);
    match moment.piece.is_one() {
        true => first.to_string(),
        false => format!("{first} – {last}"),
    }
}

/// `clock 5 to 20`.
pub fn clocks_of(moment: &Moment) -> String {
    let (from, to) = (moment.first.before, moment.last.after);
    format!("clock {} to {}", grouped(from), grouped(to))
}

/// The heights of a row whose top is at `top`.
#[derive(Clone, Copy)]
pub struct Frame {
    pub top: i32,
    /// The height of the words over the columns.
    pub words: i32,
    pub threads: usize,
}

/// The heights of a number, the band of modes, a lane, and the clock.
const NUMBERS: i32 = 18;
pub const BAND: i32 = 22;
pub const LANE: i32 = 32;
const CLOCK: i32 = 40;
const GAP: i32 = 8;

impl Frame {
    pub fn words_end(&self) -> i32 {
        self.top + NUMBERS + self.words
    }

    pub fn band(&self) -> i32 {
        self.words_end() + 4
    }

    /// The middle of a thread's lane.
    pub fn lane(&self, thread: usize) -> i32 {
        self.band() + BAND + GAP + LANE / 2 + LANE * thread as i32
    }

    /// The middle of the processor's lane.
    pub fn processor(&self) -> i32 {
        self.lane(self.threads) + GAP
    }

    pub fn clock(&self) -> i32 {
        self.processor() + LANE / 2 + GAP / 2
    }

    pub fn bottom(&self) -> i32 {
        self.clock() + CLOCK
    }
}
