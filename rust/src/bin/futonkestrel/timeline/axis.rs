//! The clock below the lanes, instants behind them, and what is folded.

use super::folding::Hidden;
use super::layout::{clocks_of, Column, Frame, Instant, Row};
use super::steps::Moment;
use super::svg::Svg;
use crate::figures::{counted, grouped};

/// Single ticks are marked where each has so much room.
const ROOM_FOR_TICK: i32 = 5;
/// The width of a tear.
const TEAR: i32 = 8;

/// A grey ground under all that happens at one clock.
pub fn ground(svg: &mut Svg, instant: &Instant, frame: &Frame) {
    let (top, bottom) = (frame.words_end(), frame.clock());
    svg.rect(
        "instant",
        instant.left,
        top,
        instant.right - instant.left,
        bottom - top,
    );
}

/// The clock at each instant, and between ticks in a row.
pub fn draw_clock(svg: &mut Svg, row: &Row, frame: &Frame, instants: &[Instant]) {
    let y = frame.clock();
    for instant in instants {
        let (left, right) = (instant.left, instant.right);
        svg.path(
            "bracket",
            &format!("M{left} {}v6h{}v-6", y + 2, right - left),
        );
        let centre = (left + right) / 2;
        svg.text("clock", centre, y + 24, &grouped(instant.clock));
    }
    for (at, column) in row.columns.iter().enumerate() {
        if column.moment.is_event() {
            continue;
        }
        svg.line("flow", (column.left, y + 2), (column.right(), y + 2));
        let before = at.checked_sub(1).map(|before| &row.columns[before]);
        if before.is_none_or(|before| !before.moment.is_event()) {
            let clock = grouped(column.moment.first.before);
            svg.line("flow", (column.left, y - 2), (column.left, y + 6));
            svg.text("clock", column.left, y + 24, &clock);
        }
        if !column.torn {
            single_ticks(svg, column, y);
        }
    }
}

fn single_ticks(svg: &mut Svg, column: &Column, y: i32) {
    let ticks = (column.moment.last.after - column.moment.first.before) as i32;
    if column.width / ticks.max(1) < ROOM_FOR_TICK {
        return;
    }
    for tick in 1..ticks {
        let x = column.left + column.width * tick / ticks;
        svg.line("tick", (x, y + 2), (x, y + 7));
    }
}

/// A tear through the lanes, or a sheet with what it hides.
pub fn draw_fold(svg: &mut Svg, column: &Column, frame: &Frame) {
    let (top, bottom) = (frame.band() - 2, frame.clock() + 8);
    match &column.moment.piece.hidden {
        Some(hidden) => sheet(svg, column, frame, hidden),
        None if column.torn => {
            let left = column.middle() - TEAR / 2;
            let tear = tear_between(left, left + TEAR, top, bottom);
            svg.path("tear", &tear);
        }
        None => {}
    }
}

/// A strip with jagged sides.
fn tear_between(left: i32, right: i32, top: i32, bottom: i32) -> String {
    let teeth = (bottom - top) / TEAR;
    let mut path = format!("M{left} {top}");
    for tooth in 0..teeth {
        let side = if tooth % 2 == 0 { 4 } else { -4 };
        path += &format!("l{side} {TEAR}");
    }
    path += &format!("H{}", right + if teeth % 2 == 0 { 0 } else { 4 });
    for tooth in (0..teeth).rev() {
        let side = if tooth % 2 == 0 { -4 } else { 4 };
        path += &format!("l{side} -{TEAR}");
    }
    path + "z"
}

/// What a folded stretch says: a class and a text for each line.
pub fn sheet_lines(moment: &Moment, hidden: &Hidden) -> Vec<(&'static str, String)> {
    let steps = grouped((moment.last.number - moment.first.number + 1) as i64);
    let mut lines = vec![
        ("folded", format!("{steps} steps folded")),
        ("folded", clocks_of(moment)),
        (
            "folded",
            format!("{} jobs done", grouped(hidden.done as i64)),
        ),
    ];
    lines.push(match hidden.missed {
        0 => ("folded", "no miss".to_string()),
        1 => ("folded bad", "1 miss".to_string()),
        many => ("folded bad", format!("{} misses", grouped(many as i64))),
    });
    if hidden.stopped > 0 {
        let jobs = counted(hidden.stopped, "job");
        lines.push(("folded", format!("{jobs} stopped")));
    }
    if hidden.mode_events > 0 {
        let events = counted(hidden.mode_events, "event");
        lines.push(("folded", format!("{events} of modes")));
    }
    lines
}

fn sheet(svg: &mut Svg, column: &Column, frame: &Frame, hidden: &Hidden) {
    let (top, bottom) = (frame.band() - 2, frame.clock() + 8);
    let path = tear_between(column.left + 6, column.right() - 10, top, bottom);
    svg.path("tear", &path);
    let lines = sheet_lines(column.moment, hidden);
    let room = 16 * lines.len() as i32;
    let mut y = (top + bottom - room) / 2 + 13;
    for (class, line) in lines {
        svg.text(class, column.middle(), y, &line);
        y += 16;
    }
}
