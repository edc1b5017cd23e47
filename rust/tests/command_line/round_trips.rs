//! `pack` of `show` is the file to the byte: for the examples, for random
//! records with any fields, for damaged files and for any bytes.

use crate::random::{Random, MODEL, SCRIPT, TABLE};
use crate::tools::{bytes_of, bytes_with, example, run, run_with};

const SORTS: [&str; 3] = ["--model", "--table", "--script"];

/// The text of some bytes, which stands for those very bytes.
pub fn text_of(bytes: &[u8], sort: Option<&str>) -> String {
    let words: Vec<&str> = ["show"].into_iter().chain(sort).chain(["-"]).collect();
    let text = run_with(&words, bytes).good();
    let packed = bytes_with(&["pack", "-", "-"], text.as_bytes());
    assert_eq!(packed, bytes, "{sort:?}\n{text}");
    text
}

/// Whether some row is in hexadecimal.
fn has_hexadecimal(text: &str) -> bool {
    let is_byte = |word: &str| word.len() == 2 && word.chars().all(|c| c.is_ascii_hexdigit());
    text.lines()
        .any(|line| line.split(' ').next().is_some_and(is_byte))
}

/// The lesson, M and their tables.
fn example_files() -> Vec<(Vec<u8>, &'static str)> {
    let mut files = Vec::new();
    for name in ["lesson", "m"] {
        let model = bytes_of(&example(&format!("{name}/model.bin")));
        let table = futonkestrel::translate_to_vec(&model).expect("examples are accepted");
        files.push((model, "model"));
        files.push((table, "table"));
        files.push((bytes_of(&example(&format!("{name}/script.bin"))), "script"));
    }
    files
}

#[test]
fn examples() {
    for (bytes, sort) in example_files() {
        let text = text_of(&bytes, None);
        assert!(text.starts_with(&format!("{sort}\n")), "{text}");
        assert!(!has_hexadecimal(&text) && !text.contains('#'), "{text}");
    }
}

/// Commented hexadecimal, as that of the examples, is text too.
#[test]
fn hexadecimal_of_the_examples() {
    for file in ["lesson/model", "lesson/script", "m/model", "m/script"] {
        let packed = bytes_with(&["pack", &example(&format!("{file}.hex")), "-"], &[]);
        assert_eq!(packed, bytes_of(&example(&format!("{file}.bin"))), "{file}");
    }
}

#[test]
fn random_records() {
    let mut random = Random::new(1);
    for case in 0..60 {
        for (sort, kinds) in SORTS.iter().zip([MODEL, TABLE, SCRIPT]) {
            let bytes = random.records(kinds);
            let text = text_of(&bytes, Some(sort));
            assert!(!has_hexadecimal(&text), "case {case}: {text}");
        }
    }
}

#[test]
fn damaged_examples() {
    let mut random = Random::new(2);
    for (bytes, sort) in example_files() {
        for _ in 0..20 {
            let damaged = random.damaged(&bytes);
            text_of(&damaged, Some(&format!("--{sort}")));
            text_of(&damaged, None);
        }
    }
}

#[test]
fn any_bytes() {
    let mut random = Random::new(3);
    for case in 0..40 {
        let bytes = random.bytes(40);
        text_of(&bytes, None);
        text_of(&bytes, Some(SORTS[case % 3]));
    }
}

#[test]
fn a_cut_record_is_hexadecimal() {
    let model = bytes_of(&example("m/model.bin"));
    let text = text_of(&model[..10], None);
    let wanted = "\
model
head modes 1 initial 0
# refused 1: a record's body runs past the end
# at fault: it has 20 bytes, and the file ends after 7 of them
02 05 00 00 00 04 00
";
    assert_eq!(text, wanted);
    assert_eq!(text_of(&[], None), "# an empty file\n");
    assert!(text_of(&[0x55, 1], None).ends_with("\n55 01\n"));
}

/// Whatever the fields hold that the usual words have no room for.
#[test]
fn odd_fields() {
    let odd = |sort: &str, bytes: &[u8], line: &str| {
        let text = text_of(bytes, Some(sort));
        assert!(
            text.lines().any(|found| found.trim() == line),
            "{line}\n{text}"
        );
    };
    let mut thread = vec![2];
    thread.extend([255; 16]);
    thread.extend([0, 7, 9]);
    let line = "thread 0 period 4294967295 deadline 4294967295 min 4294967295 max 4294967295 modes none critical 7 first state 9";
    odd("--model", &thread, line);
    odd(
        "--model",
        &[6, 4, 1, 2, 128],
        "connection 0 type 4 output 1 to input 2 modes 7",
    );
    odd(
        "--model",
        &[9, 8, 3, 1, 9, 255, 255, 255, 255],
        "if output 1 op 8 tag 9 -1",
    );
    let copy = [10, 2, 1, 0, 0, 5, 0, 0, 0, 1, 3, 0, 0, 0];
    odd("--model", &copy, "set local 1 := 5 unused input 3");
    odd("--table", &[0x22], "if false");
    odd(
        "--table",
        &[0x23, 9, 7, 0, 2, 1, 0, 0, 0],
        "or variable(7) op 9 length(1)",
    );
    odd(
        "--table",
        &[0x21, 77, 3, 1, 0, 0, 0, 2, 0, 0, 0],
        "rule 0 kind 77 3 length 1..2",
    );
    let update = [0x24, 255, 255, 3, 5, 0, 0, 0, 255, 0, 0, 0, 0, 0, 0, 0, 0];
    odd("--table", &update, "then Cpu := none if none = 3");
}

/// Which sort a file is, its first byte tells, or a word.
#[test]
fn sorts() {
    let sort = |bytes: &[u8]| text_of(bytes, None).lines().next().map(str::to_string);
    assert_eq!(sort(&[1, 1, 0]).as_deref(), Some("model"));
    assert_eq!(sort(&[1, 1, 3, 1]).as_deref(), Some("script"));
    assert_eq!(sort(&[3, 1]).as_deref(), Some("script"));
    assert_eq!(sort(&[0x21, 1]).as_deref(), Some("table"));
    let model = example("m/model.bin");
    for sort in ["model", "table", "script"] {
        let text = run(&["show", &format!("--{sort}"), &model]).good();
        assert!(text.starts_with(&format!("{sort}\n")), "{text}");
    }
}
