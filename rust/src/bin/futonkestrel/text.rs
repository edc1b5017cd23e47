//! Records as text, one a line. `pack` reads it back to the same bytes.

use crate::format::{
    Field, Form, Format, Item, Kind, Layout, COMPARISONS, MULTIPLE, NO_CONDITION, NO_MULTIPLE,
    SCRIPT, SUMS, TAGS,
};
use crate::names::Names;
use crate::record::{records, Record};
use crate::variables;

/// Bytes of a line in hexadecimal.
const ROW: usize = 16;

/// A remark that stands above the record at some place.
pub struct Note {
    pub start: usize,
    pub lines: Vec<String>,
}

/// All records of some bytes, and what cannot be told apart in hexadecimal.
pub fn text(format: &Format, bytes: &[u8], note: Option<&Note>) -> String {
    let mut text = format!("{}\n", format.name);
    let records = records(format, bytes);
    let mut rest = &records[..];
    while let Some(record) = rest.first() {
        let count = records_of_line(rest);
        let (line, others) = rest.split_at(count);
        if record.is(Item::Rule) {
            text += "\n";
        }
        text += &remarks(note, line);
        text += &match record.whole() {
            Some(_) => indented(record, &line_of(line)),
            None => hexadecimal(record.bytes),
        };
        rest = others;
    }
    text + &remark_at_end(note, bytes.len(), &records)
}

/// A clause has its atoms on its line; every other record has its own.
fn records_of_line(records: &[Record]) -> usize {
    if !records[0].is(Item::Clause) {
        return 1;
    }
    1 + records[1..]
        .iter()
        .take_while(|record| record.is(Item::Atom))
        .count()
}

fn remarks(note: Option<&Note>, line: &[Record]) -> String {
    match note {
        Some(note) if line.iter().any(|record| record.start == note.start) => remark(note),
        _ => String::new(),
    }
}

/// A remark about what should follow the last record.
fn remark_at_end(note: Option<&Note>, end: usize, records: &[Record]) -> String {
    match note {
        Some(note) if note.start == end || records.is_empty() => remark(note),
        _ => String::new(),
    }
}

fn remark(note: &Note) -> String {
    note.lines
        .iter()
        .map(|line| format!("# {line}\n"))
        .collect()
}

fn indented(record: &Record, line: &str) -> String {
    let inner = record.kind.is_some_and(|kind| kind.within.is_some());
    format!("{}{line}\n", if inner { "  " } else { "" })
}

/// Rows of two digits a byte.
pub fn hexadecimal(bytes: &[u8]) -> String {
    let row = |row: &[u8]| {
        row.iter()
            .map(|byte| format!("{byte:02x}"))
            .collect::<Vec<_>>()
            .join(" ")
            + "\n"
    };
    bytes.chunks(ROW).map(row).collect()
}

/// The line of a whole record, which is a clause where there are several.
fn line_of(records: &[Record]) -> String {
    let (record, atoms) = (&records[0], &records[1..]);
    let Some((kind, values)) = record.whole() else {
        return String::new();
    };
    let first = record.number == 0;
    match kind.layout {
        Layout::Guard => format!(
            "{} {}",
            if first { "if" } else { "and" },
            words(kind, values, record.number)
        ),
        Layout::Clause => format!("{} {}", if first { "if" } else { "and" }, clause(atoms)),
        Layout::Atom => format!("or {}", words(kind, values, record.number)),
        Layout::Update => format!(
            "{} {}",
            if first { "then" } else { "⊗" },
            words(kind, values, record.number)
        ),
        _ => words(kind, values, record.number),
    }
}

/// A whole record by itself, for messages.
pub fn record_in_words(record: &Record) -> String {
    match record.whole() {
        Some((kind, values)) => words(kind, values, record.number),
        None => hexadecimal(&record.bytes[..record.bytes.len().min(ROW)])
            .trim_end()
            .to_string(),
    }
}

fn clause(atoms: &[Record]) -> String {
    let atoms: Vec<String> = atoms.iter().map(record_in_words).collect();
    match atoms.len() {
        0 => "false".to_string(),
        1 => atoms.concat(),
        _ => format!("({})", atoms.join(" or ")),
    }
}

fn words(kind: &Kind, values: &[i64], number: usize) -> String {
    match (kind.layout, values) {
        (Layout::Plain, _) => plain(kind, values, number),
        (Layout::Guard, &[op, tag, number, right_tag, right]) => {
            comparison(&operand(tag, number), op, &operand(right_tag, right))
        }
        (Layout::Assignment, &[tag, number, op, first_tag, first, second_tag, second]) => {
            let unused = (second_tag, second) == (0, 0);
            let sum = sum(
                op,
                &operand(first_tag, first),
                &operand(second_tag, second),
                unused,
            );
            format!("set {} := {sum}", operand(tag, number))
        }
        (Layout::Start, &[variable, value]) => {
            format!(
                "start {} := {}",
                variables::name(variable),
                variables::constant(variable, value)
            )
        }
        (Layout::Rule, &[event, id, low, high]) => rule(number, event, id, low, high),
        (Layout::Clause, _) => "clause".to_string(),
        (Layout::Atom, &[op, variable, tag, number]) => {
            atom([op, variable, tag, number], &Names::default())
        }
        (Layout::Update, values) => update(values),
        _ => unreachable!("every layout has its fields"),
    }
}

/// Kind, number, then each field behind its word.
fn plain(kind: &Kind, values: &[i64], number: usize) -> String {
    let mut words = vec![kind.word.to_string()];
    if ![Item::Event, Item::Head].contains(&kind.item) {
        words.push(number.to_string());
    }
    let fields = kind.fields.iter().zip(values);
    words.extend(fields.map(|(field, &value)| field_words(field, value)));
    words.retain(|word| !word.is_empty());
    words.join(" ")
}

/// A field as `show` writes it; nothing where it is left out.
pub fn field_words(field: &Field, value: i64) -> String {
    let word = field.word;
    match field.form {
        Form::Number | Form::Signed => format!("{word} {value}").trim_start().to_string(),
        Form::Modes => format!("{word} {}", modes(value)),
        Form::Choice(choices) => match choices.get(value as usize) {
            Some(choice) => (*choice).to_string(),
            None => format!("{word} {value}"),
        },
        Form::Mark if value == 1 => word.to_string(),
        Form::Mark | Form::UnlessZero if value == 0 => String::new(),
        Form::Mark | Form::UnlessZero => format!("{word} {value}"),
    }
}

fn modes(mask: i64) -> String {
    let modes: Vec<String> = (0..8)
        .filter(|mode| mask >> mode & 1 == 1)
        .map(|mode| mode.to_string())
        .collect();
    if modes.is_empty() {
        "none".to_string()
    } else {
        modes.join(",")
    }
}

/// A side of a model's atom or assignment.
pub fn operand(tag: i64, number: i64) -> String {
    match TAGS.iter().find(|(known, _)| *known == tag) {
        Some((_, item)) => format!("{} {number}", item.word()),
        None if tag == 0 => number.to_string(),
        None => format!("tag {tag} {number}"),
    }
}

fn comparison(left: &str, op: i64, right: &str) -> String {
    match COMPARISONS.get(op as usize) {
        Some(sign) => format!("{left} {sign} {right}"),
        None => format!("{left} op {op} {right}"),
    }
}

/// A copy leaves its second operand out, unless that holds something.
fn sum(op: i64, first: &str, second: &str, unused: bool) -> String {
    match SUMS.get(op as usize) {
        Some(&"") if unused => first.to_string(),
        Some(&"") => format!("{first} unused {second}"),
        Some(sign) => format!("{first} {sign} {second}"),
        None => format!("{first} op {op} {second}"),
    }
}

fn rule(number: usize, event: i64, id: i64, low: i64, high: i64) -> String {
    let event = match SCRIPT.kind(event as u8) {
        Some(kind) => format!("{} {}", kind.word, kind.fields[0].word)
            .trim_end()
            .to_string(),
        None => format!("kind {event}"),
    };
    let length = if (low, high) == (0, 0) {
        String::new()
    } else {
        format!(" length {low}..{high}")
    };
    format!("rule {number} {event} {id}{length}")
}

/// An atom of a table: op, variable and operand. States and none have names
/// where they are compared as such.
pub fn atom([op, variable, tag, number]: [i64; 4], names: &Names) -> String {
    let name = variables::name_with(variable, names);
    let beside = (op <= 1).then_some(variable);
    let right = table_operand(tag, number, beside, names);
    match op {
        MULTIPLE => format!("{name} mod {right} = 0"),
        NO_MULTIPLE => format!("{name} mod {right} != 0"),
        _ => comparison(&name, op, &right),
    }
}

fn update(values: &[i64]) -> String {
    let &[condition, wanted, target, op, first_tag, first, second_tag, second] = values else {
        unreachable!("an update has eight fields");
    };
    let beside = (op == 0).then_some(target);
    let unused = (second_tag, second) == (0, 0);
    let (first, second) = (
        table_operand(first_tag, first, beside, &Names::default()),
        table_operand(second_tag, second, None, &Names::default()),
    );
    let set = format!(
        "{} := {}",
        variables::name(target),
        sum(op, &first, &second, unused)
    );
    match (condition, wanted) {
        (NO_CONDITION, 0) => set,
        (NO_CONDITION, _) => format!("{set} if none = {wanted}"),
        _ => format!("{set} if {} = {wanted}", variables::name(condition)),
    }
}

/// An operand of a table; a constant may have a name beside some variables.
fn table_operand(tag: i64, number: i64, beside: Option<i64>, names: &Names) -> String {
    match (tag, number, beside) {
        (0, _, Some(variable)) => variables::constant(variable, number),
        (0, _, None) => number.to_string(),
        (1, _, _) => variables::name_with(number, names),
        (2, 0, _) => "length".to_string(),
        (2, _, _) => format!("length({number})"),
        _ => format!("tag {tag} {number}"),
    }
}
