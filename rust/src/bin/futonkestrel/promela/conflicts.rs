//! What a table refuses beyond a guard that does not hold: two rules of an event
//! that hold at once, and two updates of one variable.

use crate::rules::{Atom, Rule, Update};

/// Ops whose atoms are each other's contrary.
const CONTRARIES: [(i64, i64); 4] = [(0, 1), (2, 3), (4, 5), (6, 7)];

/// Whether it can be seen from the guards that two rules never hold at once: some
/// clause of one has only atoms that single atoms of the other rule out.
pub fn exclude(one: &Rule, other: &Rule) -> bool {
    rules_out(one, other) || rules_out(other, one)
}

fn rules_out(one: &Rule, other: &Rule) -> bool {
    let single = one.clauses.iter().filter(|clause| clause.len() == 1);
    let wanted: Vec<&Atom> = single.flatten().collect();
    let ruled_out = |atom: &Atom| wanted.iter().any(|own| contradict(own, atom));
    let never = |clause: &Vec<Atom>| clause.iter().all(ruled_out);
    other.clauses.iter().any(never)
}

/// Contrary ops with the same operands, or different values of one variable.
fn contradict(one: &Atom, other: &Atom) -> bool {
    let ([op, variable, tag, number], [other_op, other_variable, other_tag, other_number]) =
        (*one, *other);
    let ops = (op.min(other_op), op.max(other_op));
    let same_operand = (tag, number) == (other_tag, other_number);
    let contrary = CONTRARIES.contains(&ops) && same_operand;
    let unequal = ops == (0, 0) && (tag, other_tag) == (0, 0) && number != other_number;
    variable == other_variable && (contrary || unequal)
}

/// The pairs of updates that would set a variable twice, were both applied.
pub fn clashes(rule: &Rule) -> Vec<(&Update, &Update)> {
    let mut clashes = Vec::new();
    for (at, update) in rule.updates.iter().enumerate() {
        let same = |before: &&Update| before.target == update.target;
        let before = rule.updates[..at].iter().filter(same);
        clashes.extend(before.map(|before| (before, update)));
    }
    clashes
}
