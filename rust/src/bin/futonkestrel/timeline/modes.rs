//! The band of modes and phases.

use super::blocks::blocks;
use super::layout::{Column, Frame, BAND, SMALL};
use super::measure::fitted;
use super::svg::Svg;
use crate::items::Items;

/// How the phases 0, 1 and 2 are drawn.
pub const PHASES: [&str; 3] = ["steady", "asked", "changing"];

pub fn draw(svg: &mut Svg, columns: &[Column], frame: &Frame, items: &Items) {
    let seen = blocks(columns, |look| (look.mode(), look.phase(), look.pending()));
    for block in seen {
        let (mode, phase, pending) = block.value;
        let (top, width) = (frame.band(), block.right - block.left);
        let class = PHASES.get(phase as usize).unwrap_or(&PHASES[0]);
        svg.rect(class, block.left, top, width, BAND);
        let room = width - 8;
        let words = words(items, mode, phase, pending);
        let fits = |text: &&String| fitted(text, SMALL, room).as_ref() == Some(text);
        let whole = words.iter().find(fits).cloned();
        let cut = || fitted(&words[words.len() - 1], SMALL, room);
        if let Some(text) = whole.or_else(cut) {
            let centre = (block.left + block.right) / 2;
            svg.text("in-band", centre, top + 15, &text);
        }
    }
}

/// What the band says: the longest that has room.
fn words(items: &Items, mode: usize, phase: i64, pending: usize) -> Vec<String> {
    let now = items.modes.get(mode).cloned().unwrap_or_default();
    let Some(transition) = items.transitions.get(pending) else {
        return vec![now];
    };
    let (from, to) = (&transition.from, &transition.to);
    match phase {
        1 => vec![format!("{now}; {to} asked for"), format!("{to}?")],
        2 => vec![
            format!("changing from {from} to {to}"),
            format!("{from} → {to}"),
            format!("→ {to}"),
        ],
        _ => vec![now],
    }
}
