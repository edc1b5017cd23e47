//! What is enabled: the events that a model in a state, or a table with its
//! variables, would take, and whether time may pass.

use crate::model::{self, Model, State};
use crate::script::{ACTIVATE, LAST_NOW, LEAVE, REQUEST, START};
use crate::table::variable::NOW;
use crate::table::{self, Rule, Table, Variables};

/// An enabled event. A START may choose a length from `low` to `high`; both are
/// 0 for other kinds.
#[derive(Clone, Copy, Debug, PartialEq, Eq)]
pub struct Offer {
    pub kind: u8,
    pub id: u8,
    pub low: u32,
    pub high: u32,
}

/// All enabled events by kind, then by id, and whether a TICK of 1 is taken.
#[derive(Clone, Debug, PartialEq, Eq)]
pub struct Enabled {
    pub events: Vec<Offer>,
    pub tick: bool,
}

/// Of a model: every event of every item is asked for.
pub fn of_model(model: &Model, state: &State) -> Enabled {
    let mut events = Vec::new();
    for kind in ACTIVATE..=LEAVE {
        for id in 0..model::item_count(model, kind) {
            if model::enabled(model, state, kind, id as u8) {
                events.push(offer_of_item(model, kind, id));
            }
        }
    }
    let tick = may_tick(kinds(&events), state.now.0 < u64::from(LAST_NOW));
    Enabled { events, tick }
}

fn offer_of_item(model: &Model, kind: u8, id: usize) -> Offer {
    let (low, high) = match kind {
        START => (model.threads[id].bcet.0, model.threads[id].wcet.0),
        _ => (0, 0),
    };
    Offer {
        kind,
        id: id as u8,
        low: low as u32,
        high: high as u32,
    }
}

/// Of a table: one offer for each enabled rule. Rules of one kind and id stay in
/// the table's order; a list that names an event twice tells that it will be
/// refused.
pub fn of_table(table: &Table, variables: &Variables) -> Enabled {
    let enabled = |rule: &&Rule| table::enabled(rule, variables);
    let offer = |rule: &Rule| Offer {
        kind: rule.kind,
        id: rule.id,
        low: rule.low,
        high: rule.high,
    };
    let mut events: Vec<Offer> = table.rules.iter().filter(enabled).map(offer).collect();
    events.sort_by_key(|offer| (offer.kind, offer.id));
    let clock_has_room = i64::from(variables[NOW]) < i64::from(LAST_NOW);
    let tick = may_tick(kinds(&events), clock_has_room);
    Enabled { events, tick }
}

fn kinds(events: &[Offer]) -> impl Iterator<Item = u8> + '_ {
    events.iter().map(|offer| offer.kind)
}

/// Any enabled event but a REQUEST stops a tick, and so does the last clock.
fn may_tick(mut kinds: impl Iterator<Item = u8>, clock_has_room: bool) -> bool {
    kinds.all(|kind| kind == REQUEST) && clock_has_room
}
