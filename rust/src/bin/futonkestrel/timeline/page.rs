//! The whole picture: title, legend and rows.

use super::layout::{self, Frame, Row, LABELS, LARGE, MARGIN, PAGE};
use super::steps::{Moment, Step};
use super::svg::Svg;
use super::{arrows, axis, header, lanes, legend, marks, modes, style};
use crate::figures::grouped;
use crate::format::MISS;
use crate::items::Items;

/// The space between two rows.
const BETWEEN: i32 = 22;
/// So many misses, and so many stops, are told by their steps.
const TOLD: usize = 12;

/// What a picture is of.
pub struct Subject<'a> {
    pub items: &'a Items,
    /// The names of the files.
    pub title: String,
    /// The steps that are drawn.
    pub steps: &'a [Step],
    /// The refused event behind them, in words.
    pub refused: Option<String>,
}

pub fn draw(subject: &Subject, moments: &[Moment]) -> String {
    let rows = layout::rows(moments, subject.items);
    let widest = rows.iter().map(Row::right).max().unwrap_or(0) + MARGIN;
    let width = PAGE.max(widest);
    let mut svg = Svg::default();
    let end_of_title = title(&mut svg, subject);
    let mut top = legend::draw(&mut svg, end_of_title) + BETWEEN;
    let words = header::height(moments);
    for row in &rows {
        let frame = Frame {
            top,
            words,
            threads: subject.items.threads.len(),
        };
        draw_row(&mut svg, row, &frame, subject);
        top = frame.bottom() + BETWEEN;
    }
    let mut page = Svg::default();
    page.rect("page", 0, 0, width, top);
    let head = format!("{}{}", style::HEAD, page.drawn());
    svg.file(width, top, &subject.title, &head)
}

fn draw_row(svg: &mut Svg, row: &Row, frame: &Frame, subject: &Subject) {
    let (columns, items) = (&row.columns, subject.items);
    let instants = row.instants();
    for instant in &instants {
        axis::ground(svg, instant, frame);
    }
    lanes::draw_labels(svg, frame, items, LABELS - 10);
    modes::draw(svg, columns, frame, items);
    for (number, thread) in items.threads.iter().enumerate() {
        let marks = marks::places(&instants, number, thread);
        lanes::draw_thread(svg, columns, frame, number, &marks);
    }
    lanes::draw_processor(svg, columns, frame, items);
    for column in columns {
        axis::draw_fold(svg, column, frame);
    }
    for instant in &instants {
        marks::draw(svg, instant, frame, items);
    }
    for column in columns {
        header::draw(svg, column, frame, items);
        lanes::draw_miss(svg, column, frame);
        lanes::draw_stop(svg, column, frame, items);
    }
    for column in columns {
        arrows::draw(svg, column, frame, items);
    }
    axis::draw_clock(svg, row, frame, &instants);
    if row.is_last && subject.refused.is_some() {
        let number = subject.steps.last().map_or(1, |last| last.number + 1);
        draw_refused(svg, row, frame, number);
    }
}

/// The step that was refused, behind the last one.
fn draw_refused(svg: &mut Svg, row: &Row, frame: &Frame, number: usize) {
    let x = row.right() - layout::CLOSING / 2;
    svg.text("number bad", x, frame.top + LARGE, &number.to_string());
    svg.upwards("event bad", x + 4, frame.words_end() - 3, "refused");
    svg.line("refused", (x, frame.words_end()), (x, frame.clock()));
}

/// The lines over the picture; gives the height where they end.
fn title(svg: &mut Svg, subject: &Subject) -> i32 {
    let mut y = MARGIN + 14;
    svg.text("title", MARGIN, y, &subject.title);
    let mut say = |class: &str, line: &str| {
        y += 20;
        svg.text(class, MARGIN, y, line);
    };
    match (subject.steps.first(), subject.steps.last()) {
        (Some(first), Some(last)) => say(
            "subtitle",
            &format!(
                "Steps {} to {}, clock {} to {}.",
                first.number,
                last.number,
                grouped(first.before),
                grouped(last.after)
            ),
        ),
        _ => say("subtitle", "No step was taken."),
    }
    let (class, misses) = misses(subject.steps);
    say(class, &misses);
    if let Some(stops) = stops(subject.steps) {
        say("subtitle", &stops);
    }
    if let Some(words) = &subject.refused {
        say("subtitle bad", &format!("Refused: {words}."));
    }
    y + 8
}

/// The misses among the steps, and how they are told.
fn misses(steps: &[Step]) -> (&'static str, String) {
    let missed = numbers(steps, |step| step.kind == MISS);
    match missed.len() {
        0 => ("subtitle", "No deadline is missed.".to_string()),
        1 => (
            "subtitle bad",
            format!("A deadline is missed: {}", told(&missed)),
        ),
        count => (
            "subtitle bad",
            format!(
                "{} deadlines are missed: {}",
                grouped(count as i64),
                told(&missed)
            ),
        ),
    }
}

/// The stops among the steps, where there are any.
fn stops(steps: &[Step]) -> Option<String> {
    let stopped = numbers(steps, |step| step.stop.is_some());
    match stopped.len() {
        0 => None,
        1 => Some(format!("A job is stopped: {}", told(&stopped))),
        count => Some(format!(
            "{} jobs are stopped: {}",
            grouped(count as i64),
            told(&stopped)
        )),
    }
}

/// The numbers of some of the steps.
fn numbers(steps: &[Step], is_one: impl Fn(&Step) -> bool) -> Vec<String> {
    let ones = steps.iter().filter(|step| is_one(step));
    ones.map(|step| step.number.to_string()).collect()
}

/// `step 5.`, `steps 5, 17.`
fn told(numbers: &[String]) -> String {
    let first = numbers[..numbers.len().min(TOLD)].join(", ");
    match numbers.len() {
        1 => format!("step {first}."),
        count if count > TOLD => format!("steps {first}, ..."),
        _ => format!("steps {first}."),
    }
}
