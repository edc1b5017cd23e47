//! Every command on damaged and random files: it answers or refuses, whatever
//! it is given.

use crate::random::{Random, MODEL, SCRIPT, TABLE};
use crate::tools::{bytes_of, example, run, Folder};

/// Damaged, or records of any fields behind a good beginning.
fn changed(random: &mut Random, whole: &[u8], kinds: &[(u8, usize)]) -> Vec<u8> {
    match random.below(3) {
        0 => [whole, &random.records(kinds)].concat(),
        _ => random.damaged(whole),
    }
}

/// Done, or refused with the line for programs; `compare` tells on standard output.
fn answers(words: &[&str]) {
    let done = run(words);
    let told = done.err.starts_with("refused ") || words[0] == "compare";
    let refused = done.status == 1 && told;
    assert!(refused || done.status == 0, "{words:?}: {done:?}");
    assert_eq!(
        done.err.is_empty(),
        done.status == 0 || words[0] == "compare" && !done.out.is_empty()
    );
}

/// A number and why, and notes on what the script passed over.
fn tests_start(model: &str, script: &str, thread: usize) {
    let done = run(&["start", model, script, &thread.to_string(), "2"]);
    let number = done.out.split(' ').next().unwrap_or("");
    let noted = done.err.lines().all(|line| line.starts_with("note: "));
    let told = done.status == 0 && ["0", "1", "2", "3", "4"].contains(&number) && noted;
    let refused = done.status == 1 && done.out.is_empty() && done.err.starts_with("refused ");
    assert!(told || refused, "{done:?}");
}

#[test]
fn every_command_answers() {
    let folder = Folder::new("any");
    let mut random = Random::new(4);
    let model = bytes_of(&example("lesson/model.bin"));
    let script = bytes_of(&example("lesson/script.bin"));
    let table = futonkestrel::translate_to_vec(&model).expect("it is accepted");
    let good_model = example("lesson/model.bin");
    for _ in 0..60 {
        let model = folder.write("model", &changed(&mut random, &model, MODEL));
        let script = folder.write("script", &changed(&mut random, &script, SCRIPT));
        let table = folder.write("table", &changed(&mut random, &table, TABLE));
        let out = folder.path("out");
        for words in [
            &["check", &model][..],
            &["check", "--table", &table],
            &["table", &model, &out],
            &["size", &model],
            &["compare", &good_model, &table],
            &["steps", "--words", "--values", &model, &script],
            &["rules", "--words", "--values", &good_model, &script],
            &["run", "--words", "--values", &table, &script],
            &["trace", "--table", &table, &script],
            &["timeline", &model, &script, &out],
            &["timeline", &good_model, &script, &out],
            &["show", &model],
        ] {
            answers(words);
        }
        for model in [&model, &good_model] {
            tests_start(model, &script, random.below(5));
        }
    }
}
