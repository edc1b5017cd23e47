//! Marks of periods and deadlines, at the begin of an instant.

use super::layout::{Frame, Instant};
use super::svg::Svg;
use crate::items::{Items, Thread};
use crate::look::Look;
use crate::variables::IN_HAND;

/// From the middle of a lane to the ends of a mark.
const REACH: i32 = 15;

pub fn draw(svg: &mut Svg, instant: &Instant, frame: &Frame, items: &Items) {
    let clock = instant.clock;
    for (number, thread) in items.threads.iter().enumerate() {
        let (x, middle, name) = (instant.left, frame.lane(number), &thread.name);
        if begins_period(instant, number, thread) {
            let words = format!("a period of {name} begins at {clock}");
            svg.titled(&words, |svg| period(svg, x, middle));
        }
        if instant.begin.is_some_and(|look| is_due(look, number)) {
            let words = format!("a deadline of {name} at {clock}");
            svg.titled(&words, |svg| deadline(svg, x, middle));
        }
    }
}

/// Where the marks of a thread stand.
pub fn places(instants: &[Instant], number: usize, thread: &Thread) -> Vec<i32> {
    let marked = instants.iter().filter(|instant| {
        let due = instant.begin.is_some_and(|look| is_due(look, number));
        due || begins_period(instant, number, thread)
    });
    marked.map(|instant| instant.left).collect()
}

fn begins_period(instant: &Instant, number: usize, thread: &Thread) -> bool {
    let active = instant.begin.is_some_and(|look| look.is_active(number));
    active && instant.clock % thread.period == 0
}

fn is_due(look: &Look, thread: usize) -> bool {
    IN_HAND.contains(&look.code(thread)) && look.due(thread) == look.clock()
}

/// An arrow upwards.
pub fn period(svg: &mut Svg, x: i32, middle: i32) {
    let top = middle - REACH;
    svg.line("mark", (x, top), (x, middle + REACH));
    svg.path("tip", &format!("M{x} {top}l-5 9h10z"));
}

/// An arrow downwards.
pub fn deadline(svg: &mut Svg, x: i32, middle: i32) {
    let bottom = middle + REACH;
    svg.line("mark", (x, middle - REACH), (x, bottom));
    svg.path("tip open", &format!("M{x} {bottom}l-5 -9h10z"));
}
