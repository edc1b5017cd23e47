//! What bytes of any content stand for as a table, and numbers of any content as
//! its index. A step on them is promised too, though no reader accepts them: the
//! rules go as far as they can be read, a variable that is not there reads 0 and
//! is not written, and an index lists what it has right. The plain model has no
//! word on this, so the promise is written down here.

use plain::script::{read_event, Event, LAST_NOW, REQUEST, START, TICK};

use crate::answers::{After, Offers, Variables, BEHIND, FIGURE, NOW, VARIABLES};
use crate::records::table_body;

/// The rules of a table by an index.
pub struct Rules<'a>(Vec<Rule<'a>>);

struct Rule<'a> {
    kind: u8,
    id: u8,
    low: u32,
    high: u32,
    /// The records behind the head, up to the next.
    body: &'a [u8],
}

/// The length of a rule's head.
const HEAD: usize = 11;

impl Rules<'_> {
    /// Those that the index lists, then those of the records behind the place that
    /// it tells. By an empty index these are all.
    pub fn new<'a>(table: &'a [u8], index: &[usize]) -> Rules<'a> {
        let number = |place| index.get(place).copied().unwrap_or(0);
        let words = index.get(2..).unwrap_or_default();
        let mut rules: Vec<Rule> = words
            .chunks_exact(2)
            .take(number(0))
            .filter_map(|words| listed(table, words[0], words[1]))
            .collect();
        let rest = table.get(number(1)..).unwrap_or_default();
        rules.extend(rules_of(rest));
        Rules(rules)
    }

    /// One event on the variables.
    pub fn step(&self, variables: &Variables, event: &[u8]) -> After {
        let came = if event.is_empty() {
            Err(9)
        } else {
            match read_event(event, 0) {
                Err(refusal) => Err(refusal.number),
                Ok((event, _)) if event.kind == TICK => self.ticks(variables, event.ticks),
                Ok((event, _)) => self.fire(variables, &event),
            }
        };
        After {
            answer: came.err().unwrap_or(0).into(),
            variables: came.unwrap_or(*variables),
            behind: [FIGURE; BEHIND],
        }
    }

    /// What is enabled.
    pub fn offers(&self, variables: &Variables) -> Offers {
        let enabled = self.0.iter().filter(|rule| rule.enabled(variables));
        let of_events = enabled.filter(|rule| (1..TICK).contains(&rule.kind));
        let mut events: Vec<[u32; 4]> = of_events
            .map(|rule| {
                let (low, high) = match rule.kind {
                    START => (rule.low, rule.high),
                    _ => (0, 0),
                };
                [rule.kind.into(), rule.id.into(), low, high]
            })
            .collect();
        events.sort_by_key(|event| (event[0], event[1]));
        Offers {
            events,
            tick: self.ticks(variables, 1).is_ok(),
        }
    }

    fn fire(&self, variables: &Variables, event: &Event) -> Result<Variables, u8> {
        let of_event = |rule: &&Rule| (rule.kind, rule.id) == (event.kind, event.id);
        let mut enabled = self
            .0
            .iter()
            .filter(of_event)
            .filter(|rule| rule.enabled(variables));
        let rule = enabled.next().ok_or(10)?;
        if enabled.next().is_some() {
            return Err(12);
        }
        if event.kind == START && !(rule.low..=rule.high).contains(&event.length) {
            return Err(10);
        }
        rule.apply(variables, event.length as i32)
    }

    fn ticks(&self, variables: &Variables, count: u16) -> Result<Variables, u8> {
        let mut next = *variables;
        for _ in 0..count {
            let stops = |rule: &Rule| rule.kind != REQUEST && rule.enabled(&next);
            if self.0.iter().any(stops) {
                return Err(10);
            }
            if i64::from(next[NOW]) >= i64::from(LAST_NOW) {
                return Err(11);
            }
            next[NOW] += 1;
        }
        Ok(next)
    }
}

impl Rule<'_> {
    /// Every clause holds. An atom belongs to the last clause, whatever stands
    /// between.
    fn enabled(&self, variables: &Variables) -> bool {
        let mut clause = None;
        for record in records(self.body) {
            match (record[0], clause) {
                (0x22, Some(false)) => return false,
                (0x22, _) => clause = Some(false),
                (0x23, Some(false)) => clause = Some(holds(variables, record)),
                _ => {}
            }
        }
        clause != Some(false)
    }

    fn apply(&self, old: &Variables, length: i32) -> Result<Variables, u8> {
        let applies = |update: &&[u8]| {
            let condition = u16_at(update, 1);
            condition == u16::MAX || value_of(old, condition.into()) == i32::from(update[3])
        };
        let updates = records(self.body).filter(|record| record[0] == 0x24);
        let mut next = *old;
        let mut targets = Vec::new();
        for update in updates.filter(applies) {
            let target = usize::from(u16_at(update, 4));
            if targets.contains(&target) {
                return Err(13);
            }
            targets.push(target);
            let first = operand(old, &update[7..], length);
            let second = operand(old, &update[12..], length);
            if target < VARIABLES {
                next[target] = match update[6] {
                    0 => first,
                    1 => first.saturating_add(second),
                    _ => first.saturating_sub(second),
                };
            }
        }
        Ok(next)
    }
}

/// The rule that two words of an index list: a head stands at the place, and it
/// has this kind, id and guard.
fn listed(table: &[u8], word: usize, guard: usize) -> Option<Rule<'_>> {
    let from_head = table.get(word >> 16..)?;
    let is_head = from_head.len() >= HEAD && from_head[0] == 0x21;
    if !is_head || word & 0xFFFF != key(from_head) || guard != guard_of(&from_head[HEAD..]) {
        return None;
    }
    rules_of(from_head).next()
}

/// Kind and id of a rule as one number.
fn key(head: &[u8]) -> usize {
    usize::from(head[1]) << 8 | usize::from(head[2])
}

/// What a first clause of one atom, and a clause behind it, asks one variable to
/// equal; 0 where it is of another form.
fn guard_of(records: &[u8]) -> usize {
    match records {
        [0x22, 0x23, 0, low, high, 0, constant @ ..] if constant.get(4) == Some(&0x22) => {
            let variable = usize::from(u16::from_le_bytes([*low, *high]));
            variable << 32 | i32_at(constant, 0) as u32 as usize
        }
        _ => 0,
    }
}

/// The rules of some bytes, as far as there are whole records.
fn rules_of(bytes: &[u8]) -> impl Iterator<Item = Rule<'_>> {
    let mut rest = bytes;
    std::iter::from_fn(move || loop {
        let head = records(rest).next()?;
        rest = &rest[head.len()..];
        if head[0] == 0x21 {
            let others = records(rest).take_while(|record| record[0] != 0x21);
            let (body, behind) = rest.split_at(others.map(<[u8]>::len).sum());
            rest = behind;
            return Some(Rule {
                kind: head[1],
                id: head[2],
                low: i32_at(head, 3) as u32,
                high: i32_at(head, 7) as u32,
                body,
            });
        }
    })
}

/// Whole records, up to the first that is cut or of a kind that nobody knows.
fn records(bytes: &[u8]) -> impl Iterator<Item = &[u8]> {
    let mut rest = bytes;
    std::iter::from_fn(move || {
        let length = 1 + table_body(*rest.first()?)?;
        let record = rest.get(..length)?;
        rest = &rest[length..];
        Some(record)
    })
}

fn holds(variables: &Variables, atom: &[u8]) -> bool {
    let left = value_of(variables, u16_at(atom, 2).into());
    let right = operand(variables, &atom[4..], 0);
    let multiple = || right != 0 && left.unsigned_abs() % right as u32 == 0;
    match atom[1] {
        0 => left == right,
        1 => left != right,
        2 => left < right,
        3 => left >= right,
        4 => left > right,
        5 => left <= right,
        6 => multiple(),
        _ => !multiple(),
    }
}

/// A constant, a variable, or the chosen length.
fn operand(variables: &Variables, bytes: &[u8], length: i32) -> i32 {
    let number = i32_at(bytes, 1);
    match bytes[0] {
        0 => number,
        1 => value_of(variables, number as u32 as usize),
        _ => length,
    }
}

fn value_of(variables: &Variables, number: usize) -> i32 {
    variables.get(number).copied().unwrap_or(0)
}

fn u16_at(bytes: &[u8], at: usize) -> u16 {
    u16::from_le_bytes([bytes[at], bytes[at + 1]])
}

fn i32_at(bytes: &[u8], at: usize) -> i32 {
    i32::from_le_bytes([bytes[at], bytes[at + 1], bytes[at + 2], bytes[at + 3]])
}
