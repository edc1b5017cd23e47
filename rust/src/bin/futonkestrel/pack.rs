//! Text back to bytes: what `show` prints, or rows of hexadecimal.

use crate::format::{
    Field, Form, Format, Item, Kind, Layout, COMPARISONS, FORMATS, MULTIPLE, NO_CONDITION,
    NO_MULTIPLE, OTHER_SIGNS, SCRIPT, TAGS,
};
use crate::record::Numbers;
use crate::variables;
use crate::words::{Fault, Line};

/// The bytes that a text stands for.
pub fn pack(text: &str) -> Result<Vec<u8>, Fault> {
    let mut bytes = Vec::new();
    let mut packer = None;
    for mut line in Line::all(text) {
        if let Some(row) = line.bytes() {
            bytes.extend(row?);
        } else if let Some(packer) = &mut packer {
            Packer::line(packer, &mut line, &mut bytes)?;
        } else {
            packer = Some(Packer::new(&mut line)?);
        }
    }
    Ok(bytes)
}

/// Reads the lines of one sort of file.
struct Packer {
    format: &'static Format,
    numbers: Numbers,
}

type Values = Result<Vec<i64>, Fault>;

impl Packer {
    /// The first line tells the sort.
    fn new(line: &mut Line) -> Result<Packer, Fault> {
        let found = FORMATS.iter().find(|format| line.take(format.name));
        let Some(format) = found else {
            return Err(line.fault("'model', 'table' or 'script' first, or rows of hexadecimal"));
        };
        line.end()?;
        Ok(Packer {
            format,
            numbers: Numbers::default(),
        })
    }

    fn line(&mut self, line: &mut Line, bytes: &mut Vec<u8>) -> Result<(), Fault> {
        let Some(kind) = self.kind(line) else {
            return Err(line.fault(&format!(
                "a record of a {}: {}",
                self.format.name,
                self.first_words()
            )));
        };
        if kind.layout == Layout::Clause {
            self.clause(kind, line, bytes)?;
        } else {
            self.single(kind, line, bytes)?;
        }
        line.end()
    }

    /// The kind whose line begins so, the shorter of two; the word is taken.
    fn kind(&self, line: &mut Line) -> Option<&'static Kind> {
        let kind = self
            .format
            .kinds
            .iter()
            .find(|kind| first_words(kind).contains(&line.peek().unwrap_or("")))?;
        line.skip();
        Some(kind)
    }

    fn first_words(&self) -> String {
        let mut words: Vec<&str> = self.format.kinds.iter().flat_map(first_words).collect();
        // Kinds that begin alike stand side by side.
        words.dedup();
        words.join(", ")
    }

    /// A record on a line of its own. Words behind its fields are those of the longer
    /// kind that begins alike, where there is one.
    fn single(
        &mut self,
        kind: &'static Kind,
        line: &mut Line,
        bytes: &mut Vec<u8>,
    ) -> Result<(), Fault> {
        let number = self.numbers.next(kind);
        let mut values = values(kind, number, line)?;
        let longer = self.longer(kind).filter(|_| line.peek().is_some());
        if let Some(longer) = longer {
            for field in &longer.fields[values.len()..] {
                values.push(plain_field(field, line)?);
            }
        }
        record(longer.unwrap_or(kind), &values, bytes);
        Ok(())
    }

    /// The kind that has the fields of this one and more.
    fn longer(&self, kind: &Kind) -> Option<&'static Kind> {
        self.format.kinds.iter().find(|other| {
            first_words(other) == first_words(kind) && other.fields.len() > kind.fields.len()
        })
    }

    /// A clause and its atoms: `false`, one atom, or several in parentheses.
    fn clause(
        &mut self,
        kind: &'static Kind,
        line: &mut Line,
        bytes: &mut Vec<u8>,
    ) -> Result<(), Fault> {
        self.numbers.next(kind);
        record(kind, &[], bytes);
        if line.take("false") {
            return Ok(());
        }
        let atom_kind = self
            .format
            .kinds
            .iter()
            .find(|kind| kind.layout == Layout::Atom);
        let atom_kind = atom_kind.expect("tables have atoms");
        let several = line.take("(");
        loop {
            self.numbers.next(atom_kind);
            record(atom_kind, &atom(line)?, bytes);
            if !line.take("or") {
                break;
            }
        }
        if several {
            line.expect(")")
        } else {
            Ok(())
        }
    }
}

/// The words with which a line of some kind begins.
fn first_words(kind: &Kind) -> Vec<&'static str> {
    match kind.layout {
        Layout::Guard | Layout::Clause => vec!["if", "and"],
        Layout::Plain => vec![kind.word],
        Layout::Assignment => vec!["set"],
        Layout::Start => vec!["start"],
        Layout::Rule => vec!["rule"],
        Layout::Atom => vec!["or"],
        Layout::Update => vec!["then", "⊗", "with"],
    }
}

/// Kind byte and fields, least byte first. The fields fit, since they were
/// read as numbers of their width.
fn record(kind: &Kind, values: &[i64], bytes: &mut Vec<u8>) {
    bytes.push(kind.byte);
    for (field, value) in kind.fields.iter().zip(values) {
        bytes.extend(&value.to_le_bytes()[..field.bytes]);
    }
}

fn values(kind: &Kind, number: usize, line: &mut Line) -> Values {
    match kind.layout {
        Layout::Plain => plain(kind, number, line),
        Layout::Guard => guard(kind, line),
        Layout::Assignment => assignment(kind, line),
        Layout::Start => start(line),
        Layout::Rule => rule(number, line),
        Layout::Clause => Ok(Vec::new()),
        Layout::Atom => atom(line),
        Layout::Update => update(line),
    }
}

/// A number of a field's width.
fn number_of(field: &Field, line: &mut Line) -> Result<i64, Fault> {
    let end = 1 << (8 * field.bytes);
    if field.form == Form::Signed {
        line.number(-end / 2, end / 2 - 1)
    } else {
        line.number(0, end - 1)
    }
}

const SIGNED: (i64, i64) = (i32::MIN as i64, i32::MAX as i64);

fn item_number(word: &str, number: usize, line: &mut Line) -> Result<(), Fault> {
    if line.number(0, i64::MAX)? == number as i64 {
        return Ok(());
    }
    Err(line.wrong_before(&format!(
        "this is {word} {number}, for items are numbered from 0 in their order"
    )))
}

fn plain(kind: &Kind, number: usize, line: &mut Line) -> Values {
    if ![Item::Event, Item::Head].contains(&kind.item) {
        item_number(kind.word, number, line)?;
    }
    kind.fields
        .iter()
        .map(|field| plain_field(field, line))
        .collect()
}

fn plain_field(field: &Field, line: &mut Line) -> Result<i64, Fault> {
    match field.form {
        Form::Number | Form::Signed => {
            line.expect(field.word)?;
            number_of(field, line)
        }
        Form::Modes => {
            line.expect(field.word)?;
            modes(line)
        }
        Form::Choice(choices) => choice(field, choices, line),
        Form::Mark | Form::UnlessZero if !line.sees(field.word) => Ok(0),
        Form::Mark => {
            line.expect(field.word)?;
            if line.sees_number() {
                number_of(field, line)
            } else {
                Ok(1)
            }
        }
        Form::UnlessZero => {
            line.expect(field.word)?;
            number_of(field, line)
        }
    }
}

fn choice(field: &Field, choices: &[&str], line: &mut Line) -> Result<i64, Fault> {
    if let Some(at) = choices.iter().position(|choice| line.take(choice)) {
        return Ok(at as i64);
    }
    if line.take(field.word) {
        return number_of(field, line);
    }
    Err(line.fault(&format!("'{}'", choices.join("' or '"))))
}

fn modes(line: &mut Line) -> Result<i64, Fault> {
    if line.take("none") {
        return Ok(0);
    }
    let mut mask = 1 << line.number(0, 7)?;
    while line.take(",") {
        mask |= 1 << line.number(0, 7)?;
    }
    Ok(mask)
}

/// A side of a model's atom or assignment: tag and number. The number has the
/// width of the field given.
fn operand(field: &Field, line: &mut Line) -> Result<(i64, i64), Fault> {
    if line.sees_number() {
        return Ok((0, number_of(field, line)?));
    }
    if line.take("tag") {
        return Ok((line.number(0, 255)?, number_of(field, line)?));
    }
    let Some((tag, _)) = TAGS.iter().find(|(_, item)| line.take(item.word())) else {
        return Err(line.fault("a number, 'input', 'local' or 'output'"));
    };
    Ok((*tag, number_of(field, line)?))
}

fn comparison(line: &mut Line) -> Result<i64, Fault> {
    let signs = COMPARISONS
        .iter()
        .zip(0..)
        .map(|(sign, op)| (*sign, op))
        .chain(OTHER_SIGNS);
    for (sign, op) in signs {
        if line.take(sign) {
            return Ok(op);
        }
    }
    if line.take("op") {
        return line.number(0, 255);
    }
    Err(line.fault(&format!("one of {}", COMPARISONS.join(" "))))
}

/// The op between two operands; a copy may have nothing behind it.
fn sum_op(line: &mut Line) -> Result<Option<i64>, Fault> {
    if line.take("op") {
        return line.number(0, 255).map(Some);
    }
    Ok([("unused", 0), ("+", 1), ("-", 2)]
        .iter()
        .find(|(sign, _)| line.take(sign))
        .map(|(_, op)| *op))
}

fn guard(kind: &Kind, line: &mut Line) -> Values {
    let (tag, number) = operand(&kind.fields[2], line)?;
    let op = comparison(line)?;
    let (right_tag, right) = operand(&kind.fields[4], line)?;
    Ok(vec![op, tag, number, right_tag, right])
}

fn assignment(kind: &Kind, line: &mut Line) -> Values {
    let (tag, number) = operand(&kind.fields[1], line)?;
    line.expect(":=")?;
    let (first_tag, first) = operand(&kind.fields[4], line)?;
    let op = sum_op(line)?;
    let (second_tag, second) = if op.is_some() {
        operand(&kind.fields[6], line)?
    } else {
        (0, 0)
    };
    Ok(vec![
        tag,
        number,
        op.unwrap_or(0),
        first_tag,
        first,
        second_tag,
        second,
    ])
}

fn start(line: &mut Line) -> Values {
    let variable = variable(line, 0, 65_535)?;
    line.expect(":=")?;
    Ok(vec![variable, constant(line)?])
}

fn rule(number: usize, line: &mut Line) -> Values {
    item_number("rule", number, line)?;
    let event = if line.take("kind") {
        line.number(0, 255)?
    } else {
        event_kind(line)?
    };
    let id = line.number(0, 255)?;
    let (mut low, mut high) = (0, 0);
    if line.take("length") {
        low = line.number(0, i64::from(u32::MAX))?;
        line.expect("..")?;
        high = line.number(0, i64::from(u32::MAX))?;
    }
    Ok(vec![event, id, low, high])
}

/// The event that a rule is for, up to the word before its number.
fn event_kind(line: &mut Line) -> Result<i64, Fault> {
    let Some(kind) = SCRIPT.kinds.iter().find(|kind| line.take(kind.word)) else {
        return Err(line.fault("an event, as ACTIVATE"));
    };
    line.expect(kind.fields[0].word)?;
    Ok(i64::from(kind.byte))
}

/// `State(2)`, `Now`, `variable(7)`, with a number from `low` to `high`.
fn variable(line: &mut Line, low: i64, high: i64) -> Result<i64, Fault> {
    let expected = "a variable, as Now or State(0)";
    let Some(name) = line.peek() else {
        return Err(line.fault(expected));
    };
    let indexed = line.peek_second() == Some("(");
    let at_name = line.wrong("");
    line.skip();
    let mut index = None;
    if indexed {
        line.expect("(")?;
        index = Some(line.number(low, high)?);
        line.expect(")")?;
    }
    variables::number(name, index).ok_or_else(|| at_name.saying(&format!("expected {expected}")))
}

/// A number or the name of one.
fn constant(line: &mut Line) -> Result<i64, Fault> {
    if let Some(number) = line.peek().and_then(variables::constant_number) {
        line.skip();
        return Ok(number);
    }
    line.number(SIGNED.0, SIGNED.1)
}

/// An operand of a table: tag and number.
fn table_operand(line: &mut Line) -> Result<(i64, i64), Fault> {
    if line.take("length") {
        let mut number = 0;
        if line.take("(") {
            number = line.number(SIGNED.0, SIGNED.1)?;
            line.expect(")")?;
        }
        return Ok((2, number));
    }
    if line.take("tag") {
        return Ok((line.number(0, 255)?, line.number(SIGNED.0, SIGNED.1)?));
    }
    let named = line.peek().and_then(variables::constant_number).is_some();
    if named || line.sees_number() {
        return Ok((0, constant(line)?));
    }
    Ok((1, variable(line, SIGNED.0, SIGNED.1)?))
}

fn atom(line: &mut Line) -> Values {
    let variable = variable(line, 0, 65_535)?;
    if !line.take("mod") {
        let op = comparison(line)?;
        let (tag, number) = table_operand(line)?;
        return Ok(vec![op, variable, tag, number]);
    }
    let (tag, number) = table_operand(line)?;
    let op = if line.take("=") {
        MULTIPLE
    } else {
        NO_MULTIPLE
    };
    if op == NO_MULTIPLE && !line.take("!=") && !line.take("≠") {
        return Err(line.fault("'= 0' or '!= 0'"));
    }
    line.expect("0")?;
    Ok(vec![op, variable, tag, number])
}

fn update(line: &mut Line) -> Values {
    let target = variable(line, 0, 65_535)?;
    line.expect(":=")?;
    let (first_tag, first) = table_operand(line)?;
    let op = sum_op(line)?;
    let (second_tag, second) = if op.is_some() {
        table_operand(line)?
    } else {
        (0, 0)
    };
    let (mut condition, mut wanted) = (NO_CONDITION, 0);
    if line.take("if") {
        condition = if line.take("none") {
            NO_CONDITION
        } else {
            variable(line, 0, 65_535)?
        };
        line.expect("=")?;
        wanted = line.number(0, 255)?;
    }
    Ok(vec![
        condition,
        wanted,
        target,
        op.unwrap_or(0),
        first_tag,
        first,
        second_tag,
        second,
    ])
}
