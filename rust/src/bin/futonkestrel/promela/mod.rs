//! A table as a Promela model: the same variables, rules and quiet ticks.
//!
//! Each rule is an option of one loop. It is taken where its guard holds, no other
//! rule of the same event holds too (refusal 12), and no variable would be set
//! twice (refusal 13). Updates read old values: all are worked out before any is
//! stored. Sums stop at the ends of 32 bits, and the checker's C code never leaves
//! them, since what it would do there no compiler promises.

mod conflicts;

use std::collections::BTreeSet;
use std::fmt::Write;

use crate::format::{COMPARISONS, MULTIPLE, NO_MULTIPLE, REQUEST, SCRIPT, START, SUMS};
use crate::rules::{initial_values, rules, Atom, Operand, Rule, Update};
use crate::variables;

/// The operand that stands for the length that a START chooses.
const LENGTH_TAG: i64 = 2;
/// The variable that ticks count.
const NOW: i64 = 0;

/// The text of an accepted table's model.
pub fn promela(table: &[u8], name: &str) -> String {
    let (starts, rules) = (initial_values(table), rules(table));
    let mut text = head(name);
    declare(&mut text, &starts, &rules);
    for (number, rule) in rules.iter().enumerate() {
        let event = event_words(rule);
        let guard = guard(rule);
        let _ = writeln!(text, "/* rule {number}: {event} */");
        let _ = writeln!(text, "#define HOLDS_{number} ({guard})");
    }
    // A run may end anywhere: at LAST nothing goes on.
    text += "\nactive proctype table()\n{\nend:\n  do\n";
    for (number, rule) in rules.iter().enumerate() {
        option(&mut text, &rules, number, rule);
    }
    let stops = rules
        .iter()
        .enumerate()
        .filter(|(_, rule)| rule.event != REQUEST);
    let quiet: String = stops
        .map(|(number, _)| format!(" && !HOLDS_{number}"))
        .collect();
    let now = variable(NOW);
    let tick = r#"printf("event: TICK 1\n")"#;
    let _ = writeln!(
        text,
        "  :: d_step {{ {now} < LAST{quiet} -> {now} = {now} + 1; {tick}; DONE }}"
    );
    text + "  od\n}\n"
}

fn head(name: &str) -> String {
    // A name could end the comment.
    let name = name.replace("*/", "* /").replace(['\n', '\r'], " ");
    format!(
        "\
/* {name} in Promela: its variables, its rules and quiet ticks.
 *
 *   spin -o2 -DLAST=60 -a FILE && gcc -O2 -DSAFETY -o pan pan.c && ./pan -m1000000
 *
 * -o2        states differ by variables that no rule reads, too
 * -DLAST=N   no tick passes clock N
 * -DENDS     STARTs have their shortest or longest length only
 * -DCHECK=C  what must hold in every state, as Missed_0==0; else there is a trail
 * -DSHOW     print every state, with pan.c compiled with -DPRINTF
 *
 * A trail is replayed by 'spin -t' with the same options; its lines 'event: ..' are a
 * script in words. */
#ifndef LAST
#define LAST 1000000000
#endif
#ifndef CHECK
#define CHECK true
#endif
#ifdef ENDS
#define CHOOSE(low, high) if :: chosen = low :: chosen = high fi
#else
#define CHOOSE(low, high) chosen = low; do :: chosen < high -> chosen = chosen + 1 :: break od
#endif
/* A sum or difference outside of 32 bits is the nearest end; nothing that is worked out on the
 * way lies outside. Ticks and lengths are counted up to a bound, so they need not ask. */
#define LEAST (-2147483647 - 1)
#define MOST 2147483647
#define PLUS(a, b) (b < 0 -> (a < LEAST - b -> LEAST : a + b) : (a > MOST - b -> MOST : a + b))
#define MINUS(a, b) (b < 0 -> (a > MOST + b -> MOST : a - b) : (a < LEAST + b -> LEAST : a - b))

"
    )
}

/// The variables that the table names, with their initial values.
fn declare(text: &mut String, starts: &[(i64, i64)], rules: &[Rule]) {
    let mut named: BTreeSet<i64> = starts.iter().map(|(variable, _)| *variable).collect();
    named.insert(NOW);
    for rule in rules {
        named.extend(variables_of(rule));
    }
    for number in &named {
        let start = starts.iter().find(|(variable, _)| variable == number);
        let value = start.map_or(0, |(_, value)| *value);
        let _ = writeln!(text, "int {} = {};", variable(*number), constant(value));
    }
    let most = rules
        .iter()
        .map(|rule| rule.updates.len())
        .max()
        .unwrap_or(0);
    *text += "/* The length that a START chooses, and new values before they are stored. */\n";
    *text += "int chosen = 0;\n";
    for number in 0..most {
        let _ = writeln!(text, "hidden int new_{number};");
    }
    let format: Vec<String> = named.iter().map(|number| format!("{number}=%d")).collect();
    let values: Vec<String> = named.iter().map(|number| variable(*number)).collect();
    let (format, values) = (format.join(" "), values.join(", "));
    let _ = writeln!(text, "#ifdef SHOW");
    let shown = format!("printf(\"state {format}\\n\", {values})");
    let _ = writeln!(text, "#define DONE {shown}; assert(CHECK)");
    let _ = writeln!(text, "#else\n#define DONE assert(CHECK)\n#endif\n");
}

fn variables_of(rule: &Rule) -> Vec<i64> {
    let of_operand = |(tag, number): Operand| (tag == 1).then_some(number);
    let mut named = Vec::new();
    for &[_, variable, tag, number] in rule.clauses.iter().flatten() {
        named.push(variable);
        named.extend(of_operand((tag, number)));
    }
    for update in &rule.updates {
        named.push(update.target);
        named.extend(update.condition.map(|(variable, _)| variable));
        named.extend(
            [update.first, update.second]
                .into_iter()
                .filter_map(of_operand),
        );
    }
    named
}

/// `State(1)` as `State_1`.
fn variable(number: i64) -> String {
    variables::name(number).replace('(', "_").replace(')', "")
}

/// The least number has no sign of its own in C.
fn constant(number: i64) -> String {
    match number == i64::from(i32::MIN) {
        true => format!("({} - 1)", number + 1),
        false if number < 0 => format!("({number})"),
        false => number.to_string(),
    }
}

fn operand((tag, number): Operand) -> String {
    match tag {
        1 => variable(number),
        LENGTH_TAG => "chosen".to_string(),
        _ => constant(number),
    }
}

/// A clause without atoms never holds, a rule without clauses always.
fn guard(rule: &Rule) -> String {
    let clause = |atoms: &Vec<Atom>| {
        let atoms: Vec<String> = atoms.iter().map(atom).collect();
        match &atoms[..] {
            [] => "false".to_string(),
            [one] => one.clone(),
            _ => format!("({})", atoms.join(" || ")),
        }
    };
    let clauses: Vec<String> = rule.clauses.iter().map(clause).collect();
    match clauses.is_empty() {
        true => "true".to_string(),
        false => clauses.join(" && "),
    }
}

fn atom(&[op, left, tag, number]: &Atom) -> String {
    let (left, right) = (variable(left), operand((tag, number)));
    match op {
        MULTIPLE => format!("({left} % {right} == 0)"),
        NO_MULTIPLE => format!("({left} % {right} != 0)"),
        0 => format!("({left} == {right})"),
        op => format!("({left} {} {right})", COMPARISONS[op as usize]),
    }
}

/// `START thread 1`.
fn event_words(rule: &Rule) -> String {
    let kind = SCRIPT.kind(rule.event).expect("a rule has an event");
    format!("{} {} {}", kind.word, kind.fields[0].word, rule.id)
}

/// Prints the event as a script has it in words.
fn event(rule: &Rule) -> String {
    let words = event_words(rule);
    match rule.event {
        START => format!(r#"printf("event: {words} for %d\n", chosen)"#),
        _ => format!(r#"printf("event: {words}\n")"#),
    }
}

/// A rule as an option of the loop.
fn option(text: &mut String, rules: &[Rule], number: usize, rule: &Rule) {
    let alone = alone(rules, number, rule);
    let clash = |(one, other): &(&Update, &Update)| {
        format!(" && !({} && {})", condition(one), condition(other))
    };
    let clashes: String = conflicts::clashes(rule).iter().map(clash).collect();
    let guard = format!("HOLDS_{number}{alone}{clashes}");
    let (event, updates) = (event(rule), updates(rule));
    let _ = match rule.event {
        START => writeln!(
            text,
            "  :: atomic {{ {guard} -> CHOOSE({}, {}); \
             d_step {{ {updates}{event}; chosen = 0; DONE }} }}",
            rule.low, rule.high
        ),
        _ => writeln!(text, "  :: d_step {{ {guard} -> {updates}{event}; DONE }}"),
    };
}

/// That no other rule of the event holds, where that cannot be seen beforehand.
fn alone(rules: &[Rule], number: usize, rule: &Rule) -> String {
    let others = rules.iter().enumerate().filter(|(at, other)| {
        let same_event = (other.event, other.id) == (rule.event, rule.id);
        *at != number && same_event && !conflicts::exclude(rule, other)
    });
    others.map(|(at, _)| format!(" && !HOLDS_{at}")).collect()
}

fn condition(update: &Update) -> String {
    match update.condition {
        Some((number, wanted)) => format!("({} == {wanted})", variable(number)),
        None => "true".to_string(),
    }
}

/// New values first, then where they go. Of several updates of a variable at most
/// one applies.
fn updates(rule: &Rule) -> String {
    let mut targets: Vec<i64> = Vec::new();
    for update in &rule.updates {
        if !targets.contains(&update.target) {
            targets.push(update.target);
        }
    }
    let mut text = String::new();
    for (at, target) in targets.iter().enumerate() {
        let own = rule.updates.iter().filter(|one| one.target == *target);
        let value = own.rev().fold(variable(*target), |otherwise, update| {
            match update.condition {
                None => sum(update),
                Some(_) => format!("({} -> {} : {otherwise})", condition(update), sum(update)),
            }
        });
        let _ = write!(text, "new_{at} = {value}; ");
    }
    for (at, target) in targets.iter().enumerate() {
        let _ = write!(text, "{} = new_{at}; ", variable(*target));
    }
    text
}

fn sum(update: &Update) -> String {
    let (first, second) = (operand(update.first), operand(update.second));
    match SUMS[update.op as usize] {
        "+" => format!("PLUS({first}, {second})"),
        "-" => format!("MINUS({first}, {second})"),
        _ => first,
    }
}
