//! Every case with a known answer, from `data/vectors.txt`.
//!
//! A case of that file begins with `case GROUP NAME`; its files follow. `hex
//! FILE` and `text FILE` are followed by the content, in lines that begin with
//! a space; `sum FILE LENGTH CHECKSUM` stands for a long content by its length
//! and its FNV-1a checksum of 64 bits.
//!
//! In the group `models`, `model.bin` and `script.bin` are given, and all else
//! is the answer: what the two programs print, the translation with its table
//! and counts, and the trace of variables, which goes on after refused events. Some
//! have `start.txt`: `THREAD LENGTH: STEP` of the test for START after the script.
//! In the group `tables`, `table.bin` and `script.bin` are given; the trace shows
//! every variable, since none need stand for anything.

mod common;

use common::{model_and_table, simulation};
use plain::listing::{rules, steps, LIMIT};
use plain::model;
use plain::refusal::Refusal;
use plain::script::{run_on, Event};
use plain::show::{show, without_idle_ends};
use plain::size::table_size;
use plain::start_test::start_test;
use plain::table::{self, Table, Variables, LONGEST_TABLE};
use plain::translate::{table_of, translate};
use std::collections::BTreeMap;
use std::fmt::Write;

/// A content, or what is known of it.
enum Content {
    Bytes(Vec<u8>),
    Sum { length: usize, checksum: u64 },
}

struct Case {
    group: String,
    name: String,
    files: BTreeMap<String, Content>,
}

fn cases(group: &str) -> Vec<Case> {
    let mut cases: Vec<Case> = Vec::new();
    let mut lines = include_str!("data/vectors.txt").lines().peekable();
    while let Some(line) = lines.next() {
        let words: Vec<&str> = line.split(' ').collect();
        let mut body = Vec::new();
        while let Some(content) = lines.peek().and_then(|line| line.strip_prefix(' ')) {
            body.push(content);
            lines.next();
        }
        if words[0] == "case" {
            cases.push(Case {
                group: words[1].to_string(),
                name: words[2].to_string(),
                files: BTreeMap::new(),
            });
        } else {
            let case = cases.last_mut().expect("a case before its files");
            case.files
                .insert(words[1].to_string(), content(&words, &body));
        }
    }
    cases.retain(|case| case.group == group);
    cases
}

fn content(words: &[&str], body: &[&str]) -> Content {
    match words[0] {
        "hex" => Content::Bytes(unhex(&body.concat())),
        "text" => Content::Bytes(
            body.iter()
                .flat_map(|line| [line, "\n"])
                .collect::<String>()
                .into(),
        ),
        "sum" => Content::Sum {
            length: words[2].parse().expect("a length"),
            checksum: u64::from_str_radix(words[3], 16).expect("a checksum"),
        },
        other => panic!("unknown form {other}"),
    }
}

fn unhex(digits: &str) -> Vec<u8> {
    (0..digits.len() / 2)
        .map(|at| u8::from_str_radix(&digits[2 * at..2 * at + 2], 16).expect("two digits"))
        .collect()
}

fn checksum(bytes: &[u8]) -> u64 {
    bytes.iter().fold(0xcbf2_9ce4_8422_2325, |sum, &byte| {
        (sum ^ u64::from(byte)).wrapping_mul(0x0000_0100_0000_01b3)
    })
}

impl Case {
    fn input(&self, file: &str) -> &[u8] {
        match self.files.get(file) {
            Some(Content::Bytes(bytes)) => bytes,
            _ => panic!("{}: no {file}", self.name),
        }
    }

    fn has(&self, file: &str) -> bool {
        self.files.contains_key(file)
    }

    /// Notes a difference where the case knows another content of this file.
    fn compare(&self, differences: &mut Vec<String>, file: &str, found: &[u8]) {
        let same = match self.files.get(file) {
            Some(Content::Bytes(bytes)) => bytes == found,
            Some(Content::Sum {
                length,
                checksum: wanted,
            }) => *length == found.len() && *wanted == checksum(found),
            None => false,
        };
        if !same {
            differences.push(format!("{}: {file} differs", self.name));
        }
    }
}

fn refused(refusal: &Refusal) -> String {
    format!(
        "refused {} {} {}\n",
        refusal.number, refusal.start, refusal.end
    )
}

/// The length of a table made, and its count of records of each kind.
fn counts(table: &Table, length: usize) -> String {
    let sum = |count: fn(&table::Rule) -> usize| table.rules.iter().map(count).sum::<usize>();
    format!(
        "ok {length} {} {} {} {} {}\n",
        table.initial_values.len(),
        table.rules.len(),
        sum(|rule| rule.clauses.len()),
        sum(|rule| rule.clauses.iter().map(Vec::len).sum()),
        sum(|rule| rule.updates.len()),
    )
}

/// The size told of the table, in the same words but for the starts, which are
/// not told apart.
fn told_size(model_bytes: &[u8]) -> String {
    match table_size(model_bytes) {
        (Some(refusal), _) => refused(&refusal),
        (None, size) => {
            let counts = size.told().map(|count| count.to_string());
            format!("ok {}\n", counts.join(" "))
        }
    }
}

/// The variables at the start and after each event, going on after refusals.
fn trace<S>(
    script: &[u8],
    mut state: S,
    step: impl Fn(&S, &Event) -> Result<S, u8>,
    variables: impl Fn(&S) -> Variables,
) -> String {
    let mut lines = format!("- 0 0{}\n", not_zero(&variables(&state)));
    let taken = run_on(script, &mut state, step, |answer, state| {
        let shown = not_zero(&variables(state));
        writeln!(
            lines,
            "{} {} {}{shown}",
            answer.number, answer.start, answer.end
        )
        .unwrap();
    });
    lines + &format!("taken {taken}\n")
}

fn not_zero(variables: &Variables) -> String {
    variables
        .iter()
        .enumerate()
        .filter(|(_, &value)| value != 0)
        .map(|(variable, value)| format!(" {variable}={value}"))
        .collect()
}

fn trace_of_table(table: &Table, script: &[u8], shown: impl Fn(&Variables) -> Variables) -> String {
    trace(
        script,
        table::start_state(table),
        |variables, event| table::step(table, variables, event),
        shown,
    )
}

fn check_model_case(case: &Case, differences: &mut Vec<String>) {
    let (model_bytes, script) = (case.input("model.bin"), case.input("script.bin"));
    let read_by_programs = &script[..script.len().min(LIMIT)];
    case.compare(
        differences,
        "steps.txt",
        steps(model_bytes, read_by_programs).as_bytes(),
    );
    case.compare(
        differences,
        "rules.txt",
        rules(model_bytes, read_by_programs, LIMIT).as_bytes(),
    );
    check_size(case, differences);
    if case.has("start.txt") {
        let told = told_starts(case);
        case.compare(differences, "start.txt", told.as_bytes());
    }
    match translate(model_bytes, LONGEST_TABLE) {
        Err(refusal) => {
            case.compare(differences, "translate.txt", refused(&refusal).as_bytes());
            case.compare(differences, "trace.txt", refused(&refusal).as_bytes());
        }
        Ok(bytes) => check_accepted_model(case, &bytes, differences),
    }
}

fn check_size(case: &Case, differences: &mut Vec<String>) {
    let known = String::from_utf8_lossy(case.input("translate.txt"));
    let mut known: Vec<&str> = known.split_whitespace().collect();
    if known[0] == "ok" {
        let starts = 2;
        known.remove(starts);
    }
    let told = told_size(case.input("model.bin"));
    if told.split_whitespace().ne(known) {
        differences.push(format!("{}: the size told differs", case.name));
    }
}

/// What the test for START tells of each thread and length that the case asks for.
fn told_starts(case: &Case) -> String {
    let known = String::from_utf8_lossy(case.input("start.txt"));
    let (model_bytes, script) = (case.input("model.bin"), case.input("script.bin"));
    let mut lines = String::new();
    for line in known.lines() {
        let (question, _) = line.split_once(':').expect("a question");
        let (thread, length) = question.split_once(' ').expect("thread and length");
        let (thread, length) = (number(thread), number(length));
        let told = match start_test(model_bytes, script, thread, length) {
            Ok(step) => format!("{step}\n"),
            Err(refusal) => refused(&refusal),
        };
        write!(lines, "{thread} {length}: {told}").unwrap();
    }
    lines
}

fn number(text: &str) -> u32 {
    text.parse().expect("a number of 32 bits")
}

fn check_accepted_model(case: &Case, table_bytes: &[u8], differences: &mut Vec<String>) {
    let (model_bytes, script) = (case.input("model.bin"), case.input("script.bin"));
    let (model, table) = model_and_table(model_bytes).expect("accepted above");
    case.compare(differences, "table.bin", table_bytes);
    let counted = counts(&table, table_bytes.len());
    case.compare(differences, "translate.txt", counted.as_bytes());
    if table != table_of(&model) {
        differences.push(format!("{}: the table read back differs", case.name));
    }
    if case.has("trace.txt") {
        let of_model = trace(
            script,
            model::start_state(&model),
            |state, event| model::step(&model, state, event),
            |state| show(&model, state),
        );
        case.compare(differences, "trace.txt", of_model.as_bytes());
        case.compare(
            differences,
            "trace.txt",
            trace_of_table(&table, script, without_idle_ends).as_bytes(),
        );
    }
    if let Err(difference) = simulation(model_bytes, script) {
        differences.push(format!("{}: {difference}", case.name));
    }
}

fn check_table_case(case: &Case, differences: &mut Vec<String>) {
    let (bytes, script) = (case.input("table.bin"), case.input("script.bin"));
    match table::read(bytes) {
        Err(refusal) => {
            case.compare(differences, "read.txt", refused(&refusal).as_bytes());
            case.compare(differences, "trace.txt", refused(&refusal).as_bytes());
        }
        Ok(table) => {
            case.compare(differences, "read.txt", b"ok\n");
            case.compare(
                differences,
                "trace.txt",
                trace_of_table(&table, script, |variables| *variables).as_bytes(),
            );
            if table::read(&table::write(&table)) != Ok(table) {
                differences.push(format!("{}: written and read again it differs", case.name));
            }
        }
    }
}

#[test]
fn models() {
    let cases = cases("models");
    assert_eq!(cases.len(), 216);
    let of_start = cases.iter().filter(|case| case.has("start.txt"));
    assert_eq!(of_start.count(), 12);
    let mut differences = Vec::new();
    for case in &cases {
        check_model_case(case, &mut differences);
    }
    assert!(differences.is_empty(), "{}", differences.join("\n"));
}

#[test]
fn tables() {
    let cases = cases("tables");
    assert_eq!(cases.len(), 92);
    let mut differences = Vec::new();
    for case in &cases {
        check_table_case(case, &mut differences);
    }
    assert!(differences.is_empty(), "{}", differences.join("\n"));
}
