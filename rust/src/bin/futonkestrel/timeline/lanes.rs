//! The lanes: the codes of each thread, and who holds the processor.

use super::blocks::{blocks, Block};
use super::layout::{Column, Frame, LARGE, MARGIN, SMALL};
use super::measure::{fitted, width};
use super::svg::Svg;
use crate::format::MISS;
use crate::items::{Items, Thread};

/// The size of the letters of a thread's figures.
const ABOUT: i32 = 11;

/// How a code of a thread is drawn, and its word, long and short.
pub struct Code {
    pub class: &'static str,
    pub word: &'static str,
    pub letter: &'static str,
    /// The height of its block; 0 for a line.
    height: i32,
}

const fn code(class: &'static str, word: &'static str, letter: &'static str, height: i32) -> Code {
    Code {
        class,
        word,
        letter,
        height,
    }
}

/// The codes from 0 to 4.
pub const CODES: [Code; 5] = [
    code("off", "", "", 0),
    code("rest", "", "", 0),
    code("waits", "waits", "w", 16),
    code("runs", "runs", "r", 24),
    code("done", "done", "d", 16),
];

/// A thread's lane; words keep away from the places of marks.
pub fn draw_thread(svg: &mut Svg, columns: &[Column], frame: &Frame, thread: usize, marks: &[i32]) {
    let middle = frame.lane(thread);
    for block in blocks(columns, |look| look.code(thread)) {
        if let Some(code) = CODES.get(block.value) {
            draw_code(svg, code, &block, middle, marks);
        }
    }
}

pub fn draw_code(svg: &mut Svg, code: &Code, block: &Block<usize>, middle: i32, marks: &[i32]) {
    let (left, right) = (block.left, block.right);
    if code.height == 0 {
        svg.line(code.class, (left, middle), (right, middle));
        return;
    }
    let top = middle - code.height / 2;
    svg.rect(code.class, left, top, right - left, code.height);
    let fits = |word: &&str| width(word, SMALL) <= right - left - 4;
    if let Some(word) = [code.word, code.letter].into_iter().find(fits) {
        let class = format!("in-{}", code.class);
        let centre = place_of(block, width(word, SMALL), marks);
        svg.text(&class, centre, middle + 4, word);
    }
}

/// The middle of a block, or a place beside it where there is no mark.
fn place_of(block: &Block<usize>, width: i32, marks: &[i32]) -> i32 {
    let room = block.right - block.left;
    let reach = width / 2 + 4;
    let is_free = |place: &i32| {
        let inside = place - reach >= block.left && place + reach <= block.right;
        inside && marks.iter().all(|mark| (mark - place).abs() > reach)
    };
    let sixths = [3, 2, 4, 1, 5].map(|sixths| block.left + room * sixths / 6);
    sixths.into_iter().find(is_free).unwrap_or(sixths[0])
}

/// A miss stands over the codes before and after it.
pub fn draw_miss(svg: &mut Svg, column: &Column, frame: &Frame) {
    if column.moment.first.kind != MISS || !column.moment.is_event() {
        return;
    }
    let middle = frame.lane(column.moment.first.id as usize);
    svg.rect("miss", column.left + 1, middle - 13, column.width - 2, 26);
    svg.text("in-miss", column.middle(), middle + 4, "MISS");
}

/// A stop stands over the codes before and after it too, in a shape of its own.
pub fn draw_stop(svg: &mut Svg, column: &Column, frame: &Frame, items: &Items) {
    let Some(stop) = column.moment.stop() else {
        return;
    };
    let step = &column.moment.first;
    let number = step.id as usize;
    let (name, clock, how) = (&items.threads[number].name, step.after, stop.how());
    let words = format!("{name} is stopped at {clock}, {how}");
    svg.titled(&words, |svg| {
        stop_sign(svg, column.middle(), frame.lane(number));
    });
}

/// Eight corners and the word.
pub fn stop_sign(svg: &mut Svg, x: i32, middle: i32) {
    let (left, top) = (x - 20, middle - 6);
    svg.path(
        "stop",
        &format!("M{left} {top}l7 -7h26l7 7v12l-7 7h-26l-7 -7z"),
    );
    svg.text("in-stop", x, middle + 4, "STOP");
}

pub fn draw_processor(svg: &mut Svg, columns: &[Column], frame: &Frame, items: &Items) {
    let middle = frame.processor();
    for block in blocks(columns, |look| look.processor()) {
        let (left, right) = (block.left, block.right);
        let Some(thread) = items.threads.get(block.value) else {
            svg.line("rest", (left, middle), (right, middle));
            continue;
        };
        svg.rect("holds", left, middle - 11, right - left, 22);
        let number = block.value.to_string();
        let room = right - left - 4;
        let name = fitted(&thread.name, SMALL, room).or_else(|| fitted(&number, SMALL, room));
        if let Some(name) = name {
            svg.text("in-holds", (left + right) / 2, middle + 4, &name);
        }
    }
}

/// A thread's figures, in as many words as have room.
fn about(thread: &Thread, room: i32) -> String {
    let (period, deadline) = (thread.period, thread.deadline);
    let long = format!("period {period}, deadline {deadline}");
    match width(&long, ABOUT) <= room {
        true => long,
        false => format!("P {period}, D {deadline}"),
    }
}

/// The names of the lanes, at the left.
pub fn draw_labels(svg: &mut Svg, frame: &Frame, items: &Items, room: i32) {
    let mut label = |middle: i32, name: &str, about: &str| {
        let beside = if about.is_empty() { 4 } else { -1 };
        let name = fitted(name, LARGE, room).unwrap_or_default();
        svg.text("name", MARGIN, middle + beside, &name);
        if !about.is_empty() {
            svg.text("about", MARGIN, middle + 12, about);
        }
    };
    label(frame.words_end() - 4, "step", "");
    label(frame.band() + 11, "mode", "");
    for (number, thread) in items.threads.iter().enumerate() {
        label(frame.lane(number), &thread.name, &about(thread, room));
    }
    label(frame.processor(), "processor", "");
    label(frame.clock() + 12, "clock", "");
}
