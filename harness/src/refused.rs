//! Records that were refused, by kind and number.

use std::collections::BTreeMap;
use std::fmt::{self, Display, Formatter};

use crate::answers::Told;

/// Counts of refused records.
#[derive(Clone, Debug, Default)]
pub struct Refused(BTreeMap<(u32, u8), u64>);

impl Refused {
    /// What was told of some bytes; without a record there is nothing to count.
    pub fn note(&mut self, bytes: &[u8], told: &Told) {
        let kind = bytes.get(told.start).filter(|_| told.number != 0);
        if let Some(&kind) = kind {
            *self.0.entry((told.number, kind)).or_default() += 1;
        }
    }

    /// The kinds that were refused with a number, each with its count.
    pub fn with(&self, number: u32) -> Vec<(u8, u64)> {
        let of_number = self.0.range((number, u8::MIN)..=(number, u8::MAX));
        of_number
            .map(|(&(_, kind), &count)| (kind, count))
            .collect()
    }

    /// This and those of other cases together.
    pub fn add(&mut self, other: &Refused) {
        for (&record, count) in &other.0 {
            *self.0.entry(record).or_default() += count;
        }
    }
}

impl Display for Refused {
    /// What is wrong with a field or with what it leads to; other causes can meet
    /// any kind.
    fn fmt(&self, formatter: &mut Formatter) -> fmt::Result {
        let told = [14, 15, 4, 5, 6, 7].map(|number| (number, self.with(number)));
        let met = told.iter().filter(|(_, kinds)| !kinds.is_empty());
        let texts: Vec<String> = met
            .map(|(number, kinds)| {
                let kinds = kinds
                    .iter()
                    .map(|(kind, count)| format!("{kind:02X} {count}"));
                format!("{number}: {}", kinds.collect::<Vec<_>>().join(", "))
            })
            .collect();
        write!(formatter, "{}", texts.join("; "))
    }
}
