//! Sums and differences that lie outside the range of 32 bits, by the end at which
//! they stop: those of a model's assignments, and those of the updates of tables.

use std::fmt::{self, Display, Formatter};

use plain::model::{BehaviorTransition, Model, Operand, State, Target, Timing};
use plain::script::Event;
use plain::table::{self, Operand as TableOperand, Rule, Table, Update};

use crate::answers::{Variables, BEHAVIOR_STATE, DUE, MISSED, THREADS};
use crate::reach::add_each;

/// The ends, as places of counts.
const LOWER: usize = 0;
const UPPER: usize = 1;

const ADD: u8 = 1;
const SUBTRACT: u8 = 2;

/// Counts in pairs: the lower end, then the upper one.
#[derive(Clone, Copy, Debug, Default)]
pub struct Ends {
    pub sums: [u64; 2],
    pub differences: [u64; 2],
    /// Results that are an end without being cut; neither operand is 0.
    pub just_there: [u64; 2],
    /// The least value taken away: from values below 0, then from others.
    pub least_taken_away: [u64; 2],
}

impl Ends {
    /// An op with its operands. The result tells the end that it stopped at.
    fn note(&mut self, op: u8, first: i32, second: i32) -> Option<usize> {
        let (a, b) = (i64::from(first), i64::from(second));
        let (exact, counts) = match op {
            ADD => (a + b, &mut self.sums),
            SUBTRACT => (a - b, &mut self.differences),
            _ => return None,
        };
        let stopped = if exact < i64::from(i32::MIN) {
            Some(LOWER)
        } else if exact > i64::from(i32::MAX) {
            Some(UPPER)
        } else {
            None
        };
        if let Some(end) = stopped {
            counts[end] += 1;
        }
        if first != 0 && second != 0 {
            self.just_there[LOWER] += u64::from(exact == i64::from(i32::MIN));
            self.just_there[UPPER] += u64::from(exact == i64::from(i32::MAX));
        }
        if op == SUBTRACT && second == i32::MIN {
            self.least_taken_away[usize::from(first >= 0)] += 1;
        }
        stopped
    }

    fn add(&mut self, other: &Ends) {
        add_each(&mut self.sums, &other.sums);
        add_each(&mut self.differences, &other.differences);
        add_each(&mut self.just_there, &other.just_there);
        add_each(&mut self.least_taken_away, &other.least_taken_away);
    }

    fn met(&self) -> [(&'static str, [u64; 2]); 4] {
        [
            ("sums that stopped", self.sums),
            ("differences that stopped", self.differences),
            ("results just at an end", self.just_there),
            (
                "least value taken from below 0 and from others",
                self.least_taken_away,
            ),
        ]
    }
}

/// What the transitions of models met.
#[derive(Clone, Copy, Debug, Default)]
pub struct ModelEnds {
    pub ends: Ends,
    /// Results that stopped and were sent at once.
    pub sent: [u64; 2],
}

impl ModelEnds {
    /// A transition that was taken, and the state before it.
    pub fn note(&mut self, model: &Model, before: &State, taken: &BehaviorTransition) {
        for assignment in &taken.assignments {
            let value = |operand| value_of(before, operand);
            let (first, second) = (value(assignment.first), value(assignment.second));
            let stopped = self.ends.note(assignment.op, first, second);
            if let (Some(end), Target::OutputPort(port)) = (stopped, assignment.target) {
                let mut sending = model.connections_out_of(taken.thread, Timing::Immediate);
                let sends = sending.any(|number| {
                    model.connections[number].output_port == port
                        && before.connection_active[number]
                });
                self.sent[end] += u64::from(sends);
            }
        }
    }

    pub fn add(&mut self, other: &ModelEnds) {
        self.ends.add(&other.ends);
        add_each(&mut self.sent, &other.sent);
    }

    /// The counts, by name.
    pub fn met(&self) -> Vec<(&'static str, [u64; 2])> {
        let more = [("stopped and sent at once", self.sent)];
        self.ends.met().into_iter().chain(more).collect()
    }
}

fn value_of(state: &State, operand: Operand) -> i32 {
    match operand {
        Operand::Constant(value) => value.0,
        Operand::InputPort(number) => state.input_ports[number].0,
        Operand::Local(number) => state.locals[number].0,
    }
}

/// What the updates of tables met.
#[derive(Clone, Copy, Debug, Default)]
pub struct TableEnds {
    pub ends: Ends,
    /// Results that stopped: of a chosen length, and of Due, End or Missed.
    pub of_lengths: [u64; 2],
    pub of_figures: [u64; 2],
}

impl TableEnds {
    /// An event that was taken, and the variables before it. A TICK has no rule.
    pub fn note(&mut self, table: &Table, before: &Variables, event: &Event) {
        let of_event = |rule: &&Rule| (rule.kind, rule.id) == (event.kind, event.id);
        let mut rules = table.rules.iter().filter(of_event);
        if let Some(rule) = rules.find(|rule| table::enabled(rule, before)) {
            for update in rule.updates.iter().filter(|update| applies(update, before)) {
                self.note_update(update, before, event.length as i32);
            }
        }
    }

    fn note_update(&mut self, update: &Update, before: &Variables, length: i32) {
        let operands = [update.first, update.second];
        let [first, second] = operands.map(|operand| match operand {
            TableOperand::Constant(number) => number,
            TableOperand::Variable(variable) => before[variable],
            TableOperand::ChosenLength => length,
        });
        if let Some(end) = self.ends.note(update.op, first, second) {
            let chosen = operands.contains(&TableOperand::ChosenLength);
            self.of_lengths[end] += u64::from(chosen);
            let figures = [DUE..BEHAVIOR_STATE, MISSED..MISSED + THREADS];
            let figure = figures.iter().any(|range| range.contains(&update.target));
            self.of_figures[end] += u64::from(figure);
        }
    }

    pub fn add(&mut self, other: &TableEnds) {
        self.ends.add(&other.ends);
        add_each(&mut self.of_lengths, &other.of_lengths);
        add_each(&mut self.of_figures, &other.of_figures);
    }

    /// The counts, by name.
    pub fn met(&self) -> Vec<(&'static str, [u64; 2])> {
        let more = [
            ("stopped by a chosen length", self.of_lengths),
            ("stopped in Due, End or Missed", self.of_figures),
        ];
        self.ends.met().into_iter().chain(more).collect()
    }
}

fn applies(update: &Update, before: &Variables) -> bool {
    update
        .condition
        .is_none_or(|condition| before[condition.variable] == i32::from(condition.wanted))
}

impl Display for ModelEnds {
    fn fmt(&self, formatter: &mut Formatter) -> fmt::Result {
        write_met(formatter, "models", &self.met())
    }
}

impl Display for TableEnds {
    fn fmt(&self, formatter: &mut Formatter) -> fmt::Result {
        write_met(formatter, "tables", &self.met())
    }
}

/// Pairs by end, the lower one first.
fn write_met(formatter: &mut Formatter, whose: &str, met: &[(&str, [u64; 2])]) -> fmt::Result {
    let texts = met
        .iter()
        .map(|(what, [lower, upper])| format!("{what} {lower} {upper}"));
    let texts: Vec<String> = texts.collect();
    write!(formatter, "ends met by {whose}: {}", texts.join(", "))
}
