//! Stretches of a row in which something stays the same.

use super::layout::Column;
use crate::look::Look;

#[derive(Debug, PartialEq, Eq)]
pub struct Block<T> {
    pub left: i32,
    pub right: i32,
    pub value: T,
}

/// What is seen along a row. A step changes it in the middle of its column; what
/// is folded is left out, and a tear parts what it goes through.
pub fn blocks<T: PartialEq>(columns: &[Column], see: impl Fn(&Look) -> T) -> Vec<Block<T>> {
    let mut blocks: Vec<Block<T>> = Vec::new();
    let mut torn = false;
    let mut add = |left: i32, right: i32, look: &Look, tear: bool| {
        let value = see(look);
        let same = |block: &&mut Block<T>| !torn && block.right == left && block.value == value;
        match blocks.last_mut().filter(same) {
            Some(block) => block.right = right,
            None => blocks.push(Block { left, right, value }),
        }
        torn = tear;
    };
    for column in columns {
        let moment = column.moment;
        if moment.is_event() || moment.is_time() {
            add(column.left, column.middle(), &moment.before, column.torn);
            add(column.middle(), column.right(), &moment.after, false);
        }
    }
    blocks
}
