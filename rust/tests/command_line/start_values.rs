//! Input ports with a written start value, kind 0B, among those of kind 03, which
//! start at 0.

use crate::round_trips::text_of;
use crate::tools::{bytes_of, bytes_with, example, run, run_with, Folder};

const PORT: [u8; 2] = [0x03, 0];
const OUTPUT: [u8; 2] = [0x04, 0];

/// A port of thread 0 that starts there.
fn started(start: i32) -> Vec<u8> {
    [&[0x0B, 0], &start.to_le_bytes()[..]].concat()
}

/// Model M with more records behind.
fn m_with(more: &[&[u8]]) -> Vec<u8> {
    [bytes_of(&example("m/model.bin")), more.concat()].concat()
}

/// M as text, with more lines behind.
fn m_in_words(more: &str) -> String {
    let thread = "thread 0 period 5 deadline 4 min 1 max 5 modes 0";
    format!("model\nhead modes 1 initial 0\n{thread}\n{more}")
}

fn packed(text: &str) -> Vec<u8> {
    bytes_with(&["pack", "-", "-"], text.as_bytes())
}

/// A written 0 stays written, and both kinds are numbered together.
#[test]
fn text_and_bytes() {
    let ports = "\
input 0 thread 0 start -1
input 1 thread 0
input 2 thread 0 start 0
input 3 thread 0
";
    let bytes = m_with(&[&started(-1), &PORT, &started(0), &PORT]);
    assert_eq!(packed(&m_in_words(ports)), bytes);
    assert_eq!(text_of(&bytes, None), m_in_words(ports));
    for start in [i32::MIN, -256, 1, i32::MAX] {
        let line = format!("input 0 thread 0 start {start}\n");
        assert_eq!(
            text_of(&m_with(&[&started(start)]), None),
            m_in_words(&line)
        );
    }
}

/// What `pack` says of M with these lines behind.
fn assert_not_understood(lines: &str, wanted: &str) {
    let done = run_with(&["pack", "-", "-"], m_in_words(lines).as_bytes());
    assert_eq!(done.out, "");
    assert_eq!(done.refused(), format!("-: {wanted}\n"));
}

#[test]
fn words_that_are_none() {
    for (line, wanted) in [
        ("input 0 thread 0 strat 5", "5 'strat': expected 'start'"),
        ("input 0 thread 0 5", "5 '5': expected 'start'"),
        ("input 0 start 5 thread 0", "3 'start': expected 'thread'"),
        (
            "input 0 thread 0 start 1 2",
            "7 '2': expected the end of the line",
        ),
        (
            "output 0 thread 0 start 1",
            "5 'start': expected the end of the line",
        ),
    ] {
        assert_not_understood(line, &format!("line 4, word {wanted}"));
    }
}

#[test]
fn starts_that_are_none() {
    let line = "input 0 thread 0 start";
    let number = "expected a number from -2147483648 to 2147483647";
    assert_not_understood(line, &format!("line 4, at its end: {number}"));
    for word in ["left", "2147483648", "-2147483649"] {
        let wanted = format!("line 4, word 6 '{word}': {number}");
        assert_not_understood(&format!("{line} {word}"), &wanted);
    }
}

/// The second port is number 1, whatever the kinds.
#[test]
fn one_row_of_numbers() {
    let [plain, written] = ["input 0 thread 0", "input 0 thread 0 start 1"];
    let numbered = "this is input 1, for items are numbered from 0 in their order";
    for lines in [[plain, written], [written, plain]] {
        let wanted = format!("line 5, word 2 '0': {numbered}");
        assert_not_understood(&lines.join("\n"), &wanted);
    }
}

/// What `check` says of a refused model: the first line, the item and the fault.
fn assert_refused(model: &[u8], first: &str, item: &str, fault: &str) {
    let said = run_with(&["check", "-"], model).refused();
    assert!(said.starts_with(&format!("refused {first} -\n")), "{said}");
    assert!(said.contains(&format!(": {item}\n")), "{item}\n{said}");
    let fault = format!("\n  at fault: {fault}\n");
    assert!(said.contains(&fault), "{fault}{said}");
}

/// 32 ports over both kinds, whichever the one too many is of.
#[test]
fn one_port_too_many() {
    let full = [started(7), PORT.to_vec()].concat().repeat(16);
    assert_eq!(
        run_with(&["check", "-"], &m_with(&[&full])).good(),
        "-: accepted\n"
    );
    let fault = "there are at most 32 inputs in a model";
    let (written, plain) = (m_with(&[&full, &started(7)]), m_with(&[&full, &PORT]));
    assert_refused(&written, "3 151 157", "input 32", fault);
    assert_refused(&plain, "3 151 153", "input 32", fault);
}

#[test]
fn refused_ports() {
    let behind_an_output = m_with(&[&OUTPUT, &started(1)]);
    let fault = "no input may follow an output";
    assert_refused(&behind_an_output, "2 25 31", "input 0", fault);
    let said = run_with(&["check", "-"], &behind_an_output).refused();
    let places = "  record 4, bytes 25 to 31: input 0\n    input 0 thread 0 start 1\n";
    assert!(said.contains(places), "{said}");

    let nobodys = m_with(&[&PORT, &[0x0B, 1, 0, 0, 0, 0]]);
    let fault = "thread 1, but there is only thread 0";
    assert_refused(&nobodys, "14 25 31", "input 1", fault);

    let cut = m_with(&[&started(1)[..5]]);
    let fault = "it has 6 bytes, and the file ends after 5 of them";
    assert_refused(&cut, "1 23 28", "input 0", fault);

    let fault = "an input stands first, where the head must";
    assert_refused(&started(1), "2 0 6", "input 0", fault);
}

/// Files with M and these ports, and with its table.
fn model_and_table(folder: &Folder, name: &str, ports: &[&[u8]]) -> [String; 2] {
    let model = folder.write(name, &m_with(ports));
    let table = folder.path(&format!("{name}.table"));
    run(&["table", &model, &table]).good();
    [model, table]
}

#[test]
fn a_written_zero_is_none_in_the_table() {
    let folder = Folder::new("start-zero");
    let [_, plain] = model_and_table(&folder, "plain", &[&PORT, &PORT]);
    let [zero, of_zero] = model_and_table(&folder, "zero", &[&started(0), &PORT]);
    assert_eq!(bytes_of(&of_zero), bytes_of(&plain));
    let same = format!("{plain} is the table of {zero}\n");
    assert_eq!(run(&["compare", &zero, &plain]).good(), same);
}

/// Port and buffer have a start record each, and all else is as without them.
#[test]
fn starts_of_a_table() {
    let folder = Folder::new("start-table");
    let [plain, of_plain] = model_and_table(&folder, "plain", &[&PORT, &PORT]);
    let [pen, of_pen] = model_and_table(&folder, "pen", &[&PORT, &started(-1)]);
    let records = "start Input(1) := -1\nstart Buffer(1) := -1\n";
    let [without, with] = [&of_plain, &of_pen].map(|table| run(&["show", table]).good());
    assert_eq!(with.replace(records, ""), without);
    assert!(with.contains(&format!("\nstart Active(0) := 1\n{records}\nrule 0 ")));

    let difference = run(&["compare", &pen, &of_plain]).out;
    let wanted = "in record 4\n  of the model   start Input(1) := -1\n";
    assert!(difference.contains(wanted), "{difference}");

    let [less, more] = [&plain, &pen].map(|model| run(&["size", model]).good());
    let length = bytes_of(&of_plain).len();
    let sizes = |bytes: usize| format!("bytes {bytes} rules ");
    assert_eq!(more, less.replace(&sizes(length), &sizes(length + 2 * 7)));
    assert_eq!(bytes_of(&of_pen).len(), length + 2 * 7);
}

/// M with a port that nothing feeds: where it starts decides what its behaviour does.
fn looking_at_its_port(start: &str) -> Vec<u8> {
    packed(&m_in_words(&format!(
        "\
input 0 thread 0{start}
output 0 thread 0
behaviour 0 thread 0 from state 0 to state 1
  if input 0 < 0
  set output 0 := input 0 - 1
"
    )))
}

#[test]
fn runs() {
    let folder = Folder::new("start-runs");
    let script = example("m/script.bin");
    let model = folder.write("model.bin", &looking_at_its_port(" start -1"));
    let trace = run(&["trace", &model, &script]).good();
    let line = |number: usize| trace.lines().nth(number).unwrap_or("").to_string();
    assert_eq!(line(0), "- 0 0 3=255 5=255 16=1 160=-1 192=-1");
    assert_eq!(
        line(5),
        "0 13 15 0=2 3=255 5=255 16=1 32=4 96=1 160=-1 192=-1 224=-2"
    );
    for command in ["steps", "rules"] {
        let values = run(&[command, "--values", &model, &script]).good();
        let completed = values.lines().nth(4).unwrap_or("");
        let changed = " Behaviour(0)=1 Output(0)=-2";
        assert!(completed.ends_with(changed), "{command}: {values}");
    }

    let unwritten = folder.write("unwritten.bin", &looking_at_its_port(""));
    let trace = run(&["trace", &unwritten, &script]).good();
    assert!(
        !trace.contains("96=1") && !trace.contains("224="),
        "{trace}"
    );
}

#[test]
fn explored() {
    let until = "output(0)=-2 and input(0)=-1";
    let words = ["explore", "--depth", "6", "--until", until, "-"];
    let explored = |start: &str| run_with(&words, &looking_at_its_port(start));
    let found = explored(" start -1").good();
    assert!(
        found.contains("holds after 5 events, at clock 1\n"),
        "{found}"
    );
    for start in ["", " start 0"] {
        assert_eq!(explored(start).status, 1);
    }
}

#[test]
fn in_promela() {
    let folder = Folder::new("start-promela");
    let model = folder.write(
        "model.bin",
        &m_with(&[&started(-1), &PORT, &started(i32::MIN)]),
    );
    let table = folder.path("table.bin");
    run(&["table", &model, &table]).good();
    let text = run(&["promela", &table, "-"]).good();
    for name in ["Input", "Buffer"] {
        for (port, value) in [(0, "(-1)"), (1, "0"), (2, "(-2147483647 - 1)")] {
            let line = format!("\nint {name}_{port} = {value};\n");
            assert!(text.contains(&line), "{line}{text}");
        }
    }
}
