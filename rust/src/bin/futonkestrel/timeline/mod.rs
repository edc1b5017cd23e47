//! A run as a picture: one SVG file that any browser opens, without a script.
//!
//! What happens comes from the library: the steps from the listing, the values
//! from the table's variables after each event. Here it is only laid out and
//! drawn: [`steps`] and the model's items are what is drawn, [`range`] and [`folding`]
//! choose the steps, [`layout`] gives them places, the other modules draw.

mod arrows;
mod axis;
mod blocks;
mod folding;
mod header;
mod lanes;
mod layout;
mod legend;
mod marks;
mod measure;
mod modes;
mod page;
pub mod range;
mod steps;
mod style;
mod svg;

pub use folding::pieces;
pub use page::{draw, Subject};
pub use steps::{moments, steps};
