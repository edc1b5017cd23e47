//! One sum for the values of a model and the updates of a table. Where it lies
//! outside it is "the nearest end of the 32-bit range" (document 02, W6); so it is
//! taken over wider numbers, where it is exact, and then cut.

/// The exact sum, or the end of the range nearest to it.
pub fn sum(first: i32, second: i32) -> i32 {
    nearest(i64::from(first) + i64::from(second))
}

/// The same of the exact difference. To add the negated number would not do: the
/// least one has none in the range.
pub fn difference(first: i32, second: i32) -> i32 {
    nearest(i64::from(first) - i64::from(second))
}

/// The number of the range nearest to an exact one: that one itself, or an end.
fn nearest(exact: i64) -> i32 {
    let (least, greatest) = (i64::from(i32::MIN), i64::from(i32::MAX));
    exact.clamp(least, greatest) as i32
}
