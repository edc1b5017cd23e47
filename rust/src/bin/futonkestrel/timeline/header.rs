//! Over the columns: the number of each step and its event, and from there a
//! line to the lane that it concerns.

use super::layout::{clocks_of, number_of, Column, Frame, BAND, LARGE, SMALL};
use super::measure::width;
use super::steps::Moment;
use super::svg::Svg;
use crate::format::{Item, MISS, REQUEST, SCRIPT, START, TICK};
use crate::items::Items;
use crate::machine::item_of_event;
use crate::stops::with_stop;

/// What stands over a column: `START 2`, `TICK 5`.
pub fn word(moment: &Moment) -> String {
    let kind = SCRIPT.kind(moment.first.kind).map_or("", |kind| kind.word);
    let ignored = || moment.before.phase() == moment.after.phase();
    match moment.first.kind {
        TICK if moment.piece.is_one() => format!("{kind} {}", moment.first.id),
        TICK => format!("{} ticks", moment.last.after - moment.first.before),
        START => format!("{kind} {}", moment.words.rsplit(' ').next().unwrap_or("")),
        REQUEST if ignored() => format!("{kind}, ignored"),
        _ => kind.to_string(),
    }
}

/// The room that the words need.
pub fn height(moments: &[Moment]) -> i32 {
    let heights = moments.iter().map(|moment| width(&word(moment), SMALL));
    heights.max().unwrap_or(0).max(48) + 6
}

pub fn draw(svg: &mut Svg, column: &Column, frame: &Frame, items: &Items) {
    let moment = column.moment;
    let title = if moment.piece.is_one() {
        let (number, clock) = (moment.first.number, moment.last.after);
        let words = with_stop(&moment.words, moment.stop());
        format!("step {number}, clock {clock}: {words}")
    } else {
        format!("steps {}, {}", number_of(moment), clocks_of(moment))
    };
    svg.titled(&title, |svg| {
        guide(svg, column, frame, items);
        let miss = moment.is_event() && moment.first.kind == MISS;
        let [number, event] = match miss {
            true => ["number bad", "event bad"],
            false => ["number", "event"],
        };
        let centre = column.middle();
        svg.text(number, centre, frame.top + LARGE, &number_of(moment));
        let (word, end) = (word(moment), frame.words_end() - 3);
        if moment.piece.hidden.is_some() {
            return;
        }
        if moment.is_time() && width(&word, SMALL) + 4 <= column.width {
            svg.text("event level", centre, end, &word);
        } else {
            svg.upwards(event, centre + 4, end, &word);
        }
    });
}

/// From the words to what the step concerns.
fn guide(svg: &mut Svg, column: &Column, frame: &Frame, items: &Items) {
    if !column.moment.is_event() {
        return;
    }
    let step = &column.moment.first;
    let end = match item_of_event(step.kind) {
        Some(Item::Thread) if (step.id as usize) < items.threads.len() => {
            frame.lane(step.id as usize)
        }
        _ => frame.band() + BAND / 2,
    };
    let x = column.middle();
    svg.line("guide", (x, frame.words_end()), (x, end));
    svg.circle("step", x, end, 4);
}
