//! The states met so far: found again by their key, each with the event that
//! led there first.

use super::event::Event;

/// How a state was reached: from which one, by which event.
#[derive(Clone, Copy)]
struct Link {
    parent: u32,
    event: Event,
}

/// States are numbered in 32 bits.
pub const MOST_STATES: usize = 4_000_000_000;

/// What became of a state.
#[derive(Clone, Copy, Debug, PartialEq, Eq)]
pub enum Added {
    New,
    Known,
    /// It is new, and there is no room for it.
    Full,
}

pub struct Store {
    /// Key and rest of every state, one after the other.
    bytes: Vec<u8>,
    /// Where each state's bytes end.
    ends: Vec<usize>,
    /// None for the start.
    links: Vec<Option<Link>>,
    /// A power of two of them: half of the key's hash, and the state's number
    /// from 1; 0 where there is none.
    slots: Vec<u64>,
}

/// The low half of a slot is a number.
const HALF: u32 = 32;
const FIRST_SLOTS: usize = 1 << 10;

impl Store {
    pub fn new() -> Store {
        Store {
            bytes: Vec::new(),
            ends: Vec::new(),
            links: Vec::new(),
            slots: vec![0; FIRST_SLOTS],
        }
    }

    pub fn len(&self) -> usize {
        self.ends.len()
    }

    /// Keeps a state unless one with its key is kept, or as many as may be. All
    /// keys are rows of as many numbers. The rest is only asked for where it is kept.
    pub fn add(
        &mut self,
        key: &[u8],
        put_rest: impl FnOnce(&mut Vec<u8>),
        from: Option<(usize, Event)>,
        most: usize,
    ) -> Added {
        let hash = hash(key);
        let Some(slot) = self.free_slot(key, hash) else {
            return Added::Known;
        };
        if self.len() >= most {
            return Added::Full;
        }
        self.bytes.extend_from_slice(key);
        put_rest(&mut self.bytes);
        self.ends.push(self.bytes.len());
        self.links.push(from.map(|(parent, event)| Link {
            parent: parent as u32,
            event,
        }));
        self.slots[slot] = entry(hash, self.len());
        if 2 * self.len() > self.slots.len() {
            self.widen();
        }
        Added::New
    }

    /// Key and rest of a state.
    pub fn get(&self, state: usize) -> &[u8] {
        let start = state.checked_sub(1).map_or(0, |before| self.ends[before]);
        &self.bytes[start..self.ends[state]]
    }

    /// The events that lead from the start to a state.
    pub fn trail(&self, state: usize) -> Vec<Event> {
        let links =
            std::iter::successors(self.links[state], |link| self.links[link.parent as usize]);
        let mut events: Vec<Event> = links.map(|link| link.event).collect();
        events.reverse();
        events
    }

    /// The slot for a key, unless it is there already.
    fn free_slot(&self, key: &[u8], hash: u64) -> Option<usize> {
        let mut slot = first_slot(hash, &self.slots);
        while self.slots[slot] != 0 {
            let number = self.slots[slot] as u32 as usize;
            let alike = self.slots[slot] == entry(hash, number);
            if alike && self.get(number - 1).starts_with(key) {
                return None;
            }
            slot = next_slot(slot, &self.slots);
        }
        Some(slot)
    }

    /// Twice as many slots.
    fn widen(&mut self) {
        let mut wider = vec![0; 2 * self.slots.len()];
        for kept in self.slots.iter().filter(|slot| **slot != 0) {
            let mut slot = first_slot(*kept, &wider);
            while wider[slot] != 0 {
                slot = next_slot(slot, &wider);
            }
            wider[slot] = *kept;
        }
        self.slots = wider;
    }
}

fn entry(hash: u64, number: usize) -> u64 {
    hash >> HALF << HALF | number as u64
}

/// Told by the half of the hash that a slot keeps.
fn first_slot(hash: u64, slots: &[u64]) -> usize {
    (hash >> HALF) as usize & (slots.len() - 1)
}

fn next_slot(slot: usize, slots: &[u64]) -> usize {
    (slot + 1) & (slots.len() - 1)
}

fn hash(key: &[u8]) -> u64 {
    // The golden ratio, as many hashes have it.
    const MIX: u64 = 0x9E37_79B9_7F4A_7C15;
    let chunks = key.chunks(8);
    chunks.fold(key.len() as u64, |sum, chunk| {
        let mut word = [0; 8];
        word[..chunk.len()].copy_from_slice(chunk);
        let wide = u128::from(sum ^ u64::from_le_bytes(word)) * u128::from(MIX);
        (wide >> 64) as u64 ^ wide as u64 ^ MIX
    })
}

#[cfg(test)]
mod tests {
    use super::{Added, Event, Store};

    #[test]
    fn each_key_once() {
        const MOST: usize = 5_000;
        let mut store = Store::new();
        let key = |number: usize| (number as u32).to_le_bytes();
        let event = |number: usize| Event {
            kind: 1,
            id: 0,
            number: number as u32,
        };
        let rest = |bytes: &mut Vec<u8>| bytes.extend(b"start");
        assert_eq!(store.add(&key(0), rest, None, MOST), Added::New);
        for number in 1..MOST {
            let from = Some((number - 1, event(number)));
            assert_eq!(store.add(&key(number), |_| {}, from, MOST), Added::New);
        }
        for number in 0..MOST {
            assert_eq!(store.add(&key(number), rest, None, MOST), Added::Known);
        }
        assert_eq!(store.add(&key(MOST), rest, None, MOST), Added::Full);
        assert_eq!(store.len(), MOST);
        assert_eq!(store.get(0), b"\0\0\0\0start");
        assert_eq!(store.get(MOST - 1), key(MOST - 1));
        assert_eq!(store.trail(0), []);
        assert_eq!(store.trail(3), [event(1), event(2), event(3)]);
    }
}
