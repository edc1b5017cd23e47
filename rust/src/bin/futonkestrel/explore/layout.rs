//! A state as bytes: a key that tells it apart, and a rest with what the key
//! does not say.

use futonkestrel::{State, Variables, STATE_WORDS};

use super::compact;
use super::fold::{is_folded, Fold};
use super::subject::Position;
use crate::rules::Rule;

pub struct Layout {
    start: Position,
    /// The variables that can change.
    changing: Vec<usize>,
    /// Those of them that the key of a folded state does not tell.
    folded: Vec<usize>,
    fold: Option<Fold>,
}

impl Layout {
    pub fn new(start: Position, rules: &[Rule], fold: Option<Fold>) -> Layout {
        let updates = rules.iter().flat_map(|rule| &rule.updates);
        let targets = updates.map(|update| update.target as usize);
        let mut changing: Vec<usize> = targets.chain([0]).collect();
        changing.sort_unstable();
        changing.dedup();
        let is_folded = |variable: &usize| fold.is_some() && is_folded(*variable);
        Layout {
            folded: changing.iter().copied().filter(is_folded).collect(),
            start,
            changing,
            fold,
        }
    }

    pub fn start(&self) -> &Position {
        &self.start
    }

    /// Writes the key of a state.
    pub fn put_key(&self, at: &Position, key: &mut Vec<u8>) {
        match self.fold {
            Some(fold) => put(key, &self.changing, &fold.folded(&at.variables)),
            None => put(key, &self.changing, &at.variables),
        }
    }

    /// Adds the rest of a state.
    pub fn put_rest(&self, at: &Position, rest: &mut Vec<u8>) {
        put(rest, &self.folded, &at.variables);
        if let Some(state) = &at.model {
            compact::put(rest, state.words().iter().map(|word| *word as i32));
        }
    }

    /// Reads the state of a key and its rest.
    pub fn take(&self, bytes: &[u8], at: &mut Position) {
        let variables = &mut at.variables;
        let rest = compact::take(bytes, self.changing.iter().copied(), variables);
        let rest = compact::take(rest, self.folded.iter().copied(), variables);
        if let Some(state) = &mut at.model {
            let mut words = [0; STATE_WORDS];
            compact::take(rest, 0..STATE_WORDS, &mut words);
            **state = State::of_words(words.map(|word| word as u32));
        }
    }
}

fn put(bytes: &mut Vec<u8>, places: &[usize], variables: &Variables) {
    compact::put(bytes, places.iter().map(|place| variables[*place]));
}
