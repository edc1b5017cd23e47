//! Readers of integers, least byte first, and the extent of one record.

/// The byte at a position; 0 past the end, where no caller looks.
pub fn u8_at(bytes: &[u8], at: usize) -> u8 {
    bytes.get(at).copied().unwrap_or(0)
}

/// Two bytes, the least first.
pub fn u16_at(bytes: &[u8], at: usize) -> u16 {
    u16::from_le_bytes([u8_at(bytes, at), u8_at(bytes, at + 1)])
}

/// Four bytes, the least first.
pub fn u32_at(bytes: &[u8], at: usize) -> u32 {
    u32::from_le_bytes([
        u8_at(bytes, at),
        u8_at(bytes, at + 1),
        u8_at(bytes, at + 2),
        u8_at(bytes, at + 3),
    ])
}

/// Four bytes, the least first, as a signed number.
pub fn i32_at(bytes: &[u8], at: usize) -> i32 {
    u32_at(bytes, at) as i32
}

/// An operand as it is written: a tag and a signed number, five bytes.
pub fn operand_at(bytes: &[u8], at: usize) -> (u8, i32) {
    (u8_at(bytes, at), i32_at(bytes, at + 1))
}

/// How far one record reaches.
#[derive(Clone, Copy, Debug, PartialEq, Eq)]
pub enum Extent {
    /// The body is all there and ends before this position.
    Whole(usize),
    /// The kind is known, but there are too few bytes for its body.
    Cut,
    /// The kind has no known body length.
    Unknown,
}

/// The byte of kind tells how many bytes of body come after it.
pub fn extent(bytes: &[u8], start: usize, body_length: Option<usize>) -> Extent {
    match body_length {
        None => Extent::Unknown,
        Some(length) if bytes.len().saturating_sub(start + 1) < length => Extent::Cut,
        Some(length) => Extent::Whole(start + 1 + length),
    }
}
