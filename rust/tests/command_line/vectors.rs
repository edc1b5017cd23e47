//! The cases with known answers that the plain model has, by way of the
//! commands: listings, tables, traces, checks, and text there and back.

use std::collections::BTreeMap;

use crate::round_trips::text_of;
use crate::tools::{bytes_of, run, Folder};

const CASES: &str = include_str!("../../../plain/tests/data/vectors.txt");

/// A file of a case; a long one is known by its checksum alone and left out.
type Files = BTreeMap<String, Vec<u8>>;

/// Group and files of each case. The format is told in plain/tests/vectors.rs.
fn cases() -> Vec<(String, Files)> {
    let mut cases: Vec<(String, Files)> = Vec::new();
    let mut lines = CASES.lines().peekable();
    while let Some(line) = lines.next() {
        let words: Vec<&str> = line.split(' ').collect();
        let mut body = Vec::new();
        while let Some(content) = lines.peek().and_then(|line| line.strip_prefix(' ')) {
            body.push(content);
            lines.next();
        }
        let content = match words[0] {
            "case" => {
                cases.push((words[1].to_string(), Files::new()));
                continue;
            }
            "hex" => unhex(&body.concat()),
            "text" => body
                .iter()
                .flat_map(|line| [line.as_bytes(), b"\n"].concat())
                .collect(),
            _ => continue,
        };
        let (_, files) = cases.last_mut().expect("a case before its files");
        files.insert(words[1].to_string(), content);
    }
    cases
}

fn unhex(digits: &str) -> Vec<u8> {
    let byte = |at: usize| u8::from_str_radix(&digits[at..at + 2], 16).expect("two digits");
    (0..digits.len()).step_by(2).map(byte).collect()
}

fn text<'a>(files: &'a Files, name: &str) -> Option<&'a str> {
    files
        .get(name)
        .map(|bytes| std::str::from_utf8(bytes).expect("an answer is text"))
}

/// A known answer is what the call printed, whatever its status.
fn answers(files: &Files, name: &str, words: &[&str]) {
    if let Some(wanted) = text(files, name) {
        assert_eq!(run(words).out, wanted, "{words:?}");
    }
}

/// `check` says what reading says: `ok ..`, or the first line of a refusal.
fn checks(words: &[&str], wanted: &str) {
    let done = run(words);
    if wanted.starts_with("ok") {
        done.good();
    } else {
        let said = done.refused();
        assert!(said.starts_with(wanted.trim_end()), "{words:?}: {said}");
    }
}

/// A trace of a model without Due and End.
fn without_due_and_end(trace: &str) -> String {
    let shown = |word: &&str| match word.split_once('=') {
        Some((variable, _)) => !(64..96).contains(&variable.parse::<i32>().unwrap_or(0)),
        None => true,
    };
    let line = |line: &str| line.split(' ').filter(shown).collect::<Vec<_>>().join(" ") + "\n";
    trace.lines().map(line).collect()
}

/// `size` tells what is known of the table, `ok` and its bytes, starts, rules,
/// clauses, atoms and updates; or the refusal.
fn sizes(model: &str, wanted: &str) {
    let words: Vec<&str> = wanted.split_whitespace().collect();
    let ["ok", bytes, _, rules, clauses, atoms, updates] = words[..] else {
        return checks(&["size", model], wanted);
    };
    let line =
        format!("bytes {bytes} rules {rules} clauses {clauses} atoms {atoms} updates {updates}\n");
    assert_eq!(run(&["size", model]).good(), line);
}

fn model_case(folder: &Folder, files: &Files) {
    let (Some(model), Some(script)) = (files.get("model.bin"), files.get("script.bin")) else {
        return;
    };
    let (model, script) = (folder.write("model", model), folder.write("script", script));
    answers(files, "steps.txt", &["steps", "--limit", &model, &script]);
    answers(files, "rules.txt", &["rules", "--limit", &model, &script]);
    let Some(read) = text(files, "translate.txt") else {
        return;
    };
    checks(&["check", &model], read);
    sizes(&model, read);
    if read.starts_with("ok") {
        let out = folder.path("table");
        assert_eq!(run(&["table", &model, &out]).good(), "");
        if let Some(table) = files.get("table.bin") {
            assert_eq!(&bytes_of(&out), table);
        }
        run(&["compare", &model, &out]).good();
        if let Some(trace) = text(files, "trace.txt") {
            assert_eq!(
                run(&["trace", &model, &script]).good(),
                without_due_and_end(trace)
            );
        }
    }
}

fn table_case(folder: &Folder, files: &Files) {
    let (Some(table), Some(script)) = (files.get("table.bin"), files.get("script.bin")) else {
        return;
    };
    let (table, script) = (folder.write("table", table), folder.write("script", script));
    if let Some(read) = text(files, "read.txt") {
        checks(&["check", "--table", &table], read);
        if read.starts_with("ok") {
            answers(files, "trace.txt", &["trace", "--table", &table, &script]);
        }
    }
}

#[test]
fn answers_of_the_commands() {
    let folder = Folder::new("vectors");
    let cases = cases();
    assert!(cases.len() > 100, "{} cases", cases.len());
    for (group, files) in &cases {
        match group.as_str() {
            "models" => model_case(&folder, files),
            _ => table_case(&folder, files),
        }
    }
}

#[test]
fn text_there_and_back() {
    for (_, files) in cases() {
        for sort in ["model", "table", "script"] {
            if let Some(bytes) = files.get(&format!("{sort}.bin")) {
                text_of(bytes, Some(&format!("--{sort}")));
            }
        }
    }
}
