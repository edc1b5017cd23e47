//! Records as bytes, to put inputs together and to take them apart.

/// The kind byte and the body.
pub type Record = Vec<u8>;

/// The body length of each model kind.
pub fn model_body(kind: u8) -> Option<usize> {
    match kind {
        0x01 | 0x07 => Some(2),
        0x02 => Some(19),
        0x03 | 0x04 => Some(1),
        0x05 | 0x0B => Some(5),
        0x06 => Some(4),
        0x08 => Some(3),
        0x09 => Some(8),
        0x0A => Some(13),
        _ => None,
    }
}

/// The kind in whose place the records of a model's kind stand, and with whose
/// they are numbered: input ports with a written start go with the others.
pub fn place(kind: u8) -> u8 {
    match kind {
        0x0B => 0x03,
        _ => kind,
    }
}

/// The body length of each table kind.
pub fn table_body(kind: u8) -> Option<usize> {
    match kind {
        0x20 => Some(6),
        0x21 => Some(10),
        0x22 => Some(0),
        0x23 => Some(8),
        0x24 => Some(16),
        _ => None,
    }
}

/// The body length of each event kind.
pub fn event_body(kind: u8) -> Option<usize> {
    match kind {
        0x04 => Some(5),
        0x0B => Some(2),
        0x01..=0x0A => Some(1),
        _ => None,
    }
}

/// The records of some bytes. A cut or unknown rest is the last of them.
pub fn split(bytes: &[u8], body: fn(u8) -> Option<usize>) -> Vec<Record> {
    let mut records = Vec::new();
    let mut rest = bytes;
    while let Some(&kind) = rest.first() {
        let length = body(kind).map_or(rest.len(), |length| rest.len().min(1 + length));
        records.push(rest[..length].to_vec());
        rest = &rest[length..];
    }
    records
}

/// How many rules, clauses, atoms and updates a table has, as far as its records
/// are whole.
pub fn table_records(table: &[u8]) -> [usize; 4] {
    let mut counts = [0; 4];
    let mut rest = table;
    while let Some((&kind, behind)) = rest.split_first() {
        let Some(next) = table_body(kind).and_then(|length| behind.get(length..)) else {
            break;
        };
        if kind > 0x20 {
            counts[usize::from(kind - 0x21)] += 1;
        }
        rest = next;
    }
    counts
}

/// The widths of the fields in the body of a model's or table's record.
pub fn fields(kind: u8) -> &'static [usize] {
    match kind {
        0x01 | 0x07 => &[1, 1],
        0x02 => &[4, 4, 4, 4, 1, 1, 1],
        0x03 | 0x04 => &[1],
        0x05 | 0x0B => &[1, 4],
        0x06 => &[1, 1, 1, 1],
        0x08 => &[1, 1, 1],
        0x09 => &[1, 1, 1, 1, 4],
        0x0A => &[1, 1, 1, 1, 4, 1, 4],
        0x20 => &[2, 4],
        0x21 => &[1, 1, 4, 4],
        0x23 => &[1, 2, 1, 4],
        0x24 => &[2, 1, 2, 1, 1, 4, 1, 4],
        _ => &[],
    }
}

/// Where a model's or table's record has tags, each with the width of the number
/// behind it.
pub fn tags(kind: u8) -> &'static [(usize, usize)] {
    match kind {
        0x09 => &[(2, 1), (4, 4)],
        0x0A => &[(1, 1), (4, 4), (9, 4)],
        0x23 => &[(4, 4)],
        0x24 => &[(7, 4), (12, 4)],
        _ => &[],
    }
}

/// An operand: a tag and a number.
pub fn operand(tag: u8, number: i32) -> Vec<u8> {
    [&[tag][..], &number.to_le_bytes()].concat()
}
