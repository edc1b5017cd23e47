//! Rules by what their guards ask one variable for, so that most rules that do
//! not hold are not even looked at.

use std::collections::BTreeSet;

use plain::table::Variables;

/// A switch has at most so many cases.
const CASES: i32 = 256;

/// A variable with the rules that want it to have some value.
struct Switch {
    variable: u16,
    /// The value of the first case.
    low: i32,
    /// Where the rules of each case begin, and at last their end.
    begins: Vec<u32>,
    rules: Vec<u32>,
}

/// Some rules of a table.
#[derive(Default)]
pub struct Switches {
    switches: Vec<Switch>,
    /// Rules that no switch has.
    rest: Vec<u32>,
}

/// What a rule wants single variables to be.
pub type Wants = Vec<(u16, i32)>;

impl Switches {
    /// A switch for each variable of which most values are told apart, with the
    /// rules that want one of them.
    pub fn of(rules: &[(u32, Wants)]) -> Switches {
        let mut made = Switches::default();
        let mut left: Vec<&(u32, Wants)> = rules.iter().collect();
        while let Some((variable, low, cases)) = best(&left) {
            let wanted = |rule: &(u32, Wants)| {
                let own = rule.1.iter().find(|(own, _)| *own == variable);
                own.map(|(_, value)| *value)
            };
            let mut begins = Vec::new();
            let mut switched = Vec::new();
            for case in 0..cases {
                begins.push(switched.len() as u32);
                let of_case = left.iter().filter(|rule| wanted(rule) == Some(low + case));
                switched.extend(of_case.map(|rule| rule.0));
            }
            begins.push(switched.len() as u32);
            left.retain(|rule| wanted(rule).is_none());
            made.switches.push(Switch {
                variable,
                low,
                begins,
                rules: switched,
            });
        }
        made.rest = left.iter().map(|rule| rule.0).collect();
        made
    }

    /// Hands over the rules that may hold, until it is enough.
    #[inline(always)]
    pub fn each(&self, variables: &Variables, mut enough: impl FnMut(usize) -> bool) {
        for switch in &self.switches {
            let case = variables[usize::from(switch.variable)].wrapping_sub(switch.low) as usize;
            let Some([first, last]) = switch.begins.get(case..case.saturating_add(2)) else {
                continue;
            };
            for rule in &switch.rules[*first as usize..*last as usize] {
                if enough(*rule as usize) {
                    return;
                }
            }
        }
        for rule in &self.rest {
            if enough(*rule as usize) {
                return;
            }
        }
    }
}

/// The variable of which most values are wanted, its lowest and the cases.
fn best(rules: &[&(u32, Wants)]) -> Option<(u16, i32, i32)> {
    let wants: BTreeSet<(u16, i32)> = rules.iter().flat_map(|rule| rule.1.clone()).collect();
    let variables: BTreeSet<u16> = wants.iter().map(|(variable, _)| *variable).collect();
    let values = |variable: u16| {
        let own = wants.iter().filter(move |(one, _)| *one == variable);
        own.map(|(_, value)| *value).collect::<Vec<i32>>()
    };
    let dense = variables.into_iter().filter_map(|variable| {
        let values = values(variable);
        let (low, high) = (values[0], values[values.len() - 1]);
        let cases = high.checked_sub(low)?.checked_add(1)?;
        (cases <= CASES).then_some((values.len(), variable, low, cases))
    });
    let most = dense.max_by_key(|(count, variable, _, _)| (*count, std::cmp::Reverse(*variable)));
    most.map(|(_, variable, low, cases)| (variable, low, cases))
}
