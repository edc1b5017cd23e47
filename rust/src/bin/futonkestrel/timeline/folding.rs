//! What is folded: long rows of ticks, and of a long run the steps in which
//! nothing stands out.

use std::ops::Range;

use super::steps::Step;
use crate::format::{DEADLINE, ENTER, LEAVE, MISS, REQUEST};

/// So many ticks in a row are drawn one by one.
const TICKS_IN_A_ROW: usize = 3;
/// So many pieces of a run are drawn, about; the rest of a longer one is folded.
const MOST_PIECES: usize = 400;
/// Drawn of a long run in any case: so many pieces at its start and at its end,
const AT_THE_START: usize = 110;
const AT_THE_END: usize = 60;
/// and so many on both sides of what stands out.
const AROUND: usize = 14;
/// Fewer pieces between drawn ones are not worth folding.
const FEWEST_FOLDED: usize = 12;

/// What stands out, the most important first.
const OUTSTANDING: [fn(&Step) -> bool; 4] = [
    |step| step.kind == MISS,
    |step| step.stop.is_some(),
    |step| [ENTER, LEAVE].contains(&step.kind),
    |step| step.kind == REQUEST,
];

/// What the steps of a folded piece did.
#[derive(Clone, Debug, PartialEq, Eq)]
pub struct Hidden {
    pub done: usize,
    pub missed: usize,
    pub stopped: usize,
    pub mode_events: usize,
}

/// Steps by their places in the run, that are drawn as one.
#[derive(Clone, Debug, PartialEq, Eq)]
pub struct Piece {
    pub first: usize,
    pub last: usize,
    /// Told where more than ticks is folded.
    pub hidden: Option<Hidden>,
}

impl Piece {
    pub fn is_one(&self) -> bool {
        self.first == self.last
    }
}

/// The pieces that some steps of a run are drawn as.
pub fn pieces(steps: &[Step], range: Range<usize>) -> Vec<Piece> {
    let quiet = without_rows_of_ticks(steps, range);
    if quiet.len() <= MOST_PIECES {
        return quiet;
    }
    let drawn = drawn_of(steps, &quiet);
    let mut pieces: Vec<Piece> = Vec::new();
    let mut at = 0;
    while at < quiet.len() {
        let end = at
            + drawn[at..]
                .iter()
                .take_while(|one| **one == drawn[at])
                .count();
        if drawn[at] || end - at < FEWEST_FOLDED {
            pieces.extend_from_slice(&quiet[at..end]);
        } else {
            pieces.push(folded(steps, &quiet[at..end]));
        }
        at = end;
    }
    pieces
}

/// Each step is a piece, but many ticks in a row are one.
fn without_rows_of_ticks(steps: &[Step], range: Range<usize>) -> Vec<Piece> {
    let mut pieces = Vec::new();
    let mut at = range.start;
    while at < range.end {
        let ticks = steps[at..range.end]
            .iter()
            .take_while(|step| step.is_tick())
            .count();
        let together = if ticks > TICKS_IN_A_ROW { ticks } else { 1 };
        pieces.push(Piece {
            first: at,
            last: at + together - 1,
            hidden: None,
        });
        at += together;
    }
    pieces
}

/// Which pieces of a long run are drawn.
fn drawn_of(steps: &[Step], pieces: &[Piece]) -> Vec<bool> {
    let mut drawn = vec![false; pieces.len()];
    let mut left = MOST_PIECES;
    let count = pieces.len();
    draw(&mut drawn, &mut left, 0..AT_THE_START);
    draw(&mut drawn, &mut left, count - AT_THE_END..count);
    for stands_out in OUTSTANDING {
        let outstanding = |piece: &Piece| stands_out(&steps[piece.first]);
        for at in (0..count).filter(|at| outstanding(&pieces[*at])) {
            let around = at.saturating_sub(AROUND)..count.min(at + AROUND + 1);
            draw(&mut drawn, &mut left, around);
        }
    }
    whole_instants(steps, pieces, &mut drawn);
    drawn
}

/// Marks pieces, if so many are left.
fn draw(drawn: &mut [bool], left: &mut usize, range: Range<usize>) {
    let new = drawn[range.clone()].iter().filter(|one| !**one).count();
    if new <= *left {
        *left -= new;
        drawn[range].fill(true);
    }
}

/// An instant of which a step is drawn is drawn whole.
fn whole_instants(steps: &[Step], pieces: &[Piece], drawn: &mut [bool]) {
    let together = |at: usize| {
        let [one, next] = [at, at + 1].map(|at| steps[pieces[at].first]);
        !one.is_tick() && !next.is_tick()
    };
    for at in 0..pieces.len() - 1 {
        drawn[at + 1] |= drawn[at] && together(at);
    }
    for at in (0..pieces.len() - 1).rev() {
        drawn[at] |= drawn[at + 1] && together(at);
    }
}

fn folded(steps: &[Step], pieces: &[Piece]) -> Piece {
    let (first, last) = (pieces[0].first, pieces[pieces.len() - 1].last);
    let steps = &steps[first..=last];
    let count = |kinds: &[u8]| {
        let of_kinds = steps.iter().filter(|step| kinds.contains(&step.kind));
        of_kinds.count()
    };
    Piece {
        first,
        last,
        hidden: Some(Hidden {
            done: count(&[DEADLINE]),
            missed: count(&[MISS]),
            stopped: steps.iter().filter(|step| step.stop.is_some()).count(),
            mode_events: count(&[REQUEST, ENTER, LEAVE]),
        }),
    }
}
