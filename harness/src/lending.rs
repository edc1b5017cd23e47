//! Numbers lent to a call, and what it leaves of them.

use std::fmt::Debug;

use crate::answers::{BEHIND, FIGURE};

/// Numbers that are lent; the mark stands where a call has not written.
pub trait Number: Copy + PartialEq + Debug {
    const MARK: Self;
}

impl Number for i32 {
    const MARK: i32 = FIGURE;
}

impl Number for u32 {
    const MARK: u32 = 0x5A5A_5A5A;
}

impl Number for usize {
    const MARK: usize = 0x5A5A_5A5A;
}

/// A call that numbers were lent to.
#[derive(Clone, Debug, PartialEq, Eq)]
pub struct Lending<T> {
    pub answer: u32,
    /// What the numbers were, and what they are.
    pub before: Vec<T>,
    pub after: Vec<T>,
    /// What stands behind those that the call has to do with.
    pub behind: Vec<T>,
}

/// Lends numbers, and some more behind them.
pub fn lend<T: Number>(numbers: &[T], call: impl FnOnce(&mut [T]) -> u32) -> Lending<T> {
    let mut lent = numbers.to_vec();
    lent.resize(numbers.len() + BEHIND, T::MARK);
    let answer = call(&mut lent);
    let behind = lent.split_off(numbers.len());
    Lending {
        answer,
        before: numbers.to_vec(),
        after: lent,
        behind,
    }
}

/// Lends so many marks, and nothing behind them.
pub fn lend_marks<T: Number>(count: usize, call: impl FnOnce(&mut [T]) -> u32) -> Lending<T> {
    let before = vec![T::MARK; count];
    let mut after = before.clone();
    let answer = call(&mut after);
    Lending {
        answer,
        before,
        after,
        behind: Vec::new(),
    }
}
