//! Sums that do not fit into 32 bits. Their value is the nearest end and not the sum,
//! so that is said. The values are the library's; which of them are such ends, the rule
//! of the event tells, by the variables before it. A model is looked at by its table.

use futonkestrel::Variables;

use crate::format::SUMS;
use crate::machine::{enabled_for, length_of, value};
use crate::names::Names;
use crate::rules::{Operand, Rule, Update};
use crate::variables::name_with;

#[cfg(test)]
mod tests;

const LEAST: i64 = i32::MIN as i64;
const MOST: i64 = i32::MAX as i64;

/// A variable that an event left at an end, and the end.
pub type Stopped = (i64, i64);

/// The variables whose sums stopped when an event was taken.
pub fn stopped(
    rules: &[Rule],
    event: &[u8],
    before: &Variables,
    after: &Variables,
) -> Vec<Stopped> {
    let Some((_, rule)) = enabled_for(rules, event, before).next() else {
        return Vec::new();
    };
    let length = length_of(event).unwrap_or(0);
    let applies = |update: &&Update| {
        let holds = |(variable, wanted)| value(before, variable) == wanted;
        update.condition.is_none_or(holds)
    };
    let updates = rule.updates.iter().filter(applies);
    let ends = updates.filter_map(|update| Some((update.target, end(update, before, length)?)));
    ends.filter(|(variable, end)| value(after, *variable) == *end)
        .collect()
}

/// The end that an update's sum lies past.
fn end(update: &Update, before: &Variables, length: u32) -> Option<i64> {
    let of_operand = |(tag, number): Operand| match tag {
        0 => number,
        1 => value(before, number),
        _ => i64::from(length),
    };
    let (first, second) = (of_operand(update.first), of_operand(update.second));
    let sum = match SUMS[update.op as usize] {
        "+" => first + second,
        "-" => first - second,
        _ => return None,
    };
    let nearest = sum.clamp(LEAST, MOST);
    (nearest != sum).then_some(nearest)
}

/// `COMPLETE 1, Local(2) stops at 2147483647`: an event with the sums that it stops.
pub fn with_ends(event: &str, stopped: &[Stopped], names: &Names) -> String {
    let mut words = event.to_string();
    for end in [MOST, LEAST] {
        let there = stopped.iter().filter(|(_, at)| *at == end);
        let there = there.map(|(variable, _)| name_with(*variable, names));
        words += &match &there.collect::<Vec<_>>()[..] {
            [] => String::new(),
            [one] => format!(", {one} stops at {end}"),
            [others @ .., last] => format!(", {} and {last} stop at {end}", others.join(", ")),
        };
    }
    words
}
