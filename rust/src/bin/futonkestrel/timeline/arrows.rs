//! Arrows for the values that connections carry: immediate ones when their
//! thread completes, delayed ones at its deadline.

use super::layout::{Column, Frame, SMALL};
use super::measure::width;
use super::steps::Moment;
use super::svg::Svg;
use crate::format::{COMPLETE, DEADLINE};
use crate::items::{Connection, Items};

/// The room beside a value, and the length of an arrow's head.
const BESIDE: i32 = 10;
const HEAD: i32 = 7;
/// How far from the middle of a lane arrows begin and end.
const FROM: i32 = 5;
const TO: i32 = 4;

/// A value on its way.
pub struct Carried<'a> {
    connection: &'a Connection,
    value: String,
}

impl Carried<'_> {
    pub fn width(&self) -> i32 {
        width(&self.value, SMALL) + BESIDE
    }
}

/// What a moment's step carries over live connections, with the values that the
/// buffers then hold.
pub fn carried<'a>(moment: &Moment, items: &'a Items) -> Vec<Carried<'a>> {
    let delayed = match moment.first.kind {
        COMPLETE => false,
        DEADLINE => true,
        _ => return Vec::new(),
    };
    if !moment.is_event() {
        return Vec::new();
    }
    let thread = moment.first.id as usize;
    let numbered = items.connections.iter().enumerate();
    let own = numbered.filter(|(number, connection)| {
        let is_own = connection.source == thread && connection.delayed == delayed;
        is_own && moment.before.is_live(*number)
    });
    own.map(|(_, connection)| Carried {
        connection,
        value: moment.after.buffer(connection.input).to_string(),
    })
    .collect()
}

pub fn draw(svg: &mut Svg, column: &Column, frame: &Frame, items: &Items) {
    let mut x = column.middle() + BESIDE;
    for carried in &column.carried {
        let Connection {
            source,
            target,
            words,
            delayed,
            ..
        } = carried.connection;
        let (from, to) = (&items.threads[*source].name, &items.threads[*target].name);
        let sort = if *delayed { "delayed" } else { "immediate" };
        let value = &carried.value;
        let title = format!("{from} to {to}, {words}, {sort}: {value}");
        svg.titled(&title, |svg| draw_one(svg, x, carried, frame));
        x += carried.width();
    }
}

fn draw_one(svg: &mut Svg, x: i32, carried: &Carried, frame: &Frame) {
    let Connection {
        source,
        target,
        delayed,
        ..
    } = *carried.connection;
    // A thread may feed itself: its arrow comes from below.
    let sign = if source < target { 1 } else { -1 };
    let (start, end) = match source == target {
        true => (frame.lane(source) + 3 * FROM, frame.lane(target) + TO),
        false => (
            frame.lane(source) + sign * FROM,
            frame.lane(target) - sign * TO,
        ),
    };
    let class = if delayed { "carry late" } else { "carry" };
    svg.circle("tail", x, start, 2);
    svg.line(class, (x, start), (x, end - sign * HEAD));
    let back = end - sign * HEAD;
    svg.path("head", &format!("M{x} {end}l-4 {0}h8z", back - end));
    let beside = end + if sign > 0 { -4 } else { 11 };
    svg.text("value", x + 5, beside, &carried.value);
}
