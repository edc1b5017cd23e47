//! What the signs of a picture mean.

use super::blocks::Block;
use super::lanes::{draw_code, stop_sign, CODES};
use super::layout::{LARGE, MARGIN, PAGE, SMALL};
use super::marks;
use super::measure::width;
use super::modes::PHASES;
use super::svg::Svg;

/// The height of a line of the legend, and the room for a sign.
const LINE: i32 = 34;
const SIGN: i32 = 46;

/// A sign, drawn from a point at its left, and its meaning.
type Sign = (fn(&mut Svg, i32, i32), &'static str);

const SIGNS: [Sign; 16] = [
    (|svg, x, y| code(svg, 0, x, y), "waits for its mode"),
    (|svg, x, y| code(svg, 1, x, y), "waits for its next period"),
    (|svg, x, y| code(svg, 2, x, y), "w: waits for the processor"),
    (|svg, x, y| code(svg, 3, x, y), "r: runs"),
    (
        |svg, x, y| code(svg, 4, x, y),
        "d: done, until its deadline",
    ),
    (miss, "its deadline comes and it is not done"),
    (
        |svg, x, y| stop_sign(svg, x + SIGN / 2 - 3, y),
        "its mode is over and its job stopped",
    ),
    (
        |svg, x, y| marks::period(svg, x + SIGN / 2, y),
        "a period begins",
    ),
    (
        |svg, x, y| marks::deadline(svg, x + SIGN / 2, y),
        "a deadline",
    ),
    (
        |svg, x, y| carry(svg, "carry", x, y),
        "a value carried at once",
    ),
    (
        |svg, x, y| carry(svg, "carry late", x, y),
        "carried at the deadline",
    ),
    (
        |svg, x, y| svg.rect(PHASES[1], x, y - 10, SIGN - 6, 20),
        "a mode is asked for",
    ),
    (
        |svg, x, y| svg.rect(PHASES[2], x, y - 10, SIGN - 6, 20),
        "the mode changes",
    ),
    (step, "a step, at its lane"),
    (
        |svg, x, y| svg.rect("instant", x, y - 12, SIGN - 6, 24),
        "steps of one instant, side by side",
    ),
    (torn, "folded: longer than it is drawn"),
];

/// Draws the legend and gives the height where it ends.
pub fn draw(svg: &mut Svg, top: i32) -> i32 {
    let (mut x, mut y) = (MARGIN, top + LINE / 2);
    for (sign, words) in SIGNS {
        let room = SIGN + width(words, SMALL) + LARGE;
        if x + room > PAGE - MARGIN {
            x = MARGIN;
            y += LINE;
        }
        sign(svg, x, y);
        svg.text("meaning", x + SIGN, y + 4, words);
        x += room;
    }
    y + LINE / 2
}

fn code(svg: &mut Svg, code: usize, x: i32, y: i32) {
    let block = Block {
        left: x,
        right: x + SIGN - 6,
        value: code,
    };
    draw_code(svg, &CODES[code], &block, y, &[]);
}

fn miss(svg: &mut Svg, x: i32, y: i32) {
    svg.rect("miss", x, y - 12, SIGN - 6, 24);
    svg.text("in-miss", x + SIGN / 2 - 3, y + 4, "MISS");
}

fn carry(svg: &mut Svg, class: &str, x: i32, y: i32) {
    let x = x + SIGN / 3;
    svg.circle("tail", x, y - 13, 2);
    svg.line(class, (x, y - 13), (x, y + 5));
    svg.path("head", &format!("M{x} {}l-4 -7h8z", y + 12));
    svg.text("value", x + 6, y + 9, "3");
}

fn step(svg: &mut Svg, x: i32, y: i32) {
    let x = x + SIGN / 2;
    svg.text("number sample", x - 10, y - 3, "12");
    svg.line("guide", (x, y - 13), (x, y + 6));
    svg.circle("step", x, y + 7, 4);
}

fn torn(svg: &mut Svg, x: i32, y: i32) {
    svg.rect("waits", x, y - 8, SIGN - 6, 16);
    let middle = x + SIGN / 2 - 6;
    svg.path(
        "tear",
        &format!("M{middle} {}l4 8l-4 8l4 8h8l-4 -8l4 -8l-4 -8z", y - 12),
    );
}
