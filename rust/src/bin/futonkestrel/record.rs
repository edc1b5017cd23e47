//! Bytes as records: kind, item number and fields.

use crate::format::{Format, Item, Kind};

/// A record of some input, or the rest of it where a record is cut or unknown.
#[derive(Clone, Debug)]
pub struct Record<'a> {
    /// Where it begins in the input.
    pub start: usize,
    pub bytes: &'a [u8],
    /// Nothing where the kind is unknown.
    pub kind: Option<&'static Kind>,
    /// The fields; none where the record is cut or unknown.
    pub values: Option<Vec<i64>>,
    /// Its number among the items of its sort.
    pub number: usize,
}

impl Record<'_> {
    pub fn end(&self) -> usize {
        self.start + self.bytes.len()
    }

    /// Kind and fields of a whole record.
    pub fn whole(&self) -> Option<(&'static Kind, &[i64])> {
        Some((self.kind?, self.values.as_deref()?))
    }

    pub fn is(&self, item: Item) -> bool {
        self.values.is_some() && self.kind.is_some_and(|kind| kind.item == item)
    }

    /// The field with this word.
    pub fn value(&self, word: &str) -> Option<i64> {
        let (kind, values) = self.whole()?;
        let at = kind.fields.iter().position(|field| field.word == word)?;
        values.get(at).copied()
    }
}

/// The records of some bytes. A cut or unknown rest is the last of them.
pub fn records<'a>(format: &Format, bytes: &'a [u8]) -> Vec<Record<'a>> {
    let mut found: Vec<Record> = Vec::new();
    let mut numbers = Numbers::default();
    let mut start = 0;
    while start < bytes.len() {
        let kind = format.kind(bytes[start]);
        let end = kind.map_or(bytes.len(), |kind| bytes.len().min(start + 1 + kind.body()));
        let part = &bytes[start..end];
        found.push(Record {
            start,
            bytes: part,
            kind,
            values: kind.and_then(|kind| values(kind, &part[1..])),
            number: kind.map_or(0, |kind| numbers.next(kind)),
        });
        start = end;
    }
    found
}

/// How many bytes are told apart into whole records.
pub fn told(format: &Format, bytes: &[u8]) -> usize {
    let records = records(format, bytes);
    let whole = records.iter().filter(|record| record.whole().is_some());
    whole.map(|record| record.bytes.len()).sum()
}

/// The fields of a body, or nothing where it is cut.
fn values(kind: &Kind, body: &[u8]) -> Option<Vec<i64>> {
    let mut rest = (body.len() == kind.body()).then_some(body)?;
    let value = |bytes: &[u8], signed: bool| {
        let mut wide = [0; 8];
        wide[..bytes.len()].copy_from_slice(bytes);
        let number = i64::from_le_bytes(wide);
        // All signed fields have four bytes.
        if signed {
            i64::from(number as u32 as i32)
        } else {
            number
        }
    };
    let fields = kind.fields.iter().map(|field| {
        let (bytes, others) = rest.split_at(field.bytes);
        rest = others;
        value(bytes, field.form == crate::format::Form::Signed)
    });
    Some(fields.collect())
}

/// How many items there were so far of each sort.
#[derive(Default)]
pub struct Numbers {
    counts: Vec<(Item, usize)>,
}

impl Numbers {
    /// The number of the next item of a kind; the items within it begin anew.
    pub fn next(&mut self, kind: &Kind) -> usize {
        for (item, count) in &mut self.counts {
            if belongs(*item, kind.item) {
                *count = 0;
            }
        }
        match self.counts.iter_mut().find(|(item, _)| *item == kind.item) {
            Some((_, count)) => {
                *count += 1;
                *count - 1
            }
            None => {
                self.counts.push((kind.item, 1));
                0
            }
        }
    }
}

/// Whether items of the first sort are numbered within those of the second.
fn belongs(item: Item, outer: Item) -> bool {
    let within = crate::format::FORMATS
        .iter()
        .flat_map(|format| format.kinds)
        .find(|kind| kind.item == item)
        .and_then(|kind| kind.within);
    within.is_some_and(|within| within == outer || belongs(within, outer))
}
