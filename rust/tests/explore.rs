//! The worked example, run on the models of the examples.

use std::process::{Command, Output};

fn explore(arguments: &[&str]) -> Output {
    Command::new(env!("CARGO_BIN_EXE_explore"))
        .args(arguments)
        .output()
        .expect("the example runs")
}

fn model_file(example: &str) -> String {
    format!(
        "{}/../examples/{example}/model.bin",
        env!("CARGO_MANIFEST_DIR")
    )
}

fn report(arguments: &[&str]) -> String {
    let output = explore(arguments);
    assert!(output.status.success(), "{output:?}");
    String::from_utf8(output.stdout).expect("the report is text")
}

/// A job of M that takes all of its Max of 5 misses its Deadline of 4. In 20
/// events that can happen twice.
#[test]
fn m_can_miss_twice() {
    let report = report(&[&model_file("m"), "20"]);
    let last = "57 states, 57 events taken, largest clock 11, largest Missed 2\n\
                model and table agreed in all of them\n";
    assert!(report.ends_with(last), "{report}");
}

#[test]
fn the_lesson_step_by_step() {
    let wanted = "\
5605 bytes of table
depth 1: 5 new states
depth 2: 15 new states
depth 3: 36 new states
depth 4: 69 new states
depth 5: 112 new states
depth 6: 144 new states
depth 7: 150 new states
depth 8: 122 new states
654 states, 3004 events taken, largest clock 0, largest Missed 0
model and table agreed in all of them
";
    assert_eq!(report(&[&model_file("lesson"), "8"]), wanted);
}

/// Without arguments it is the lesson, up to a depth where a deadline is missed.
#[test]
fn the_lesson_can_miss() {
    let report = report(&[]);
    let last = "1933 states, 7410 events taken, largest clock 10, largest Missed 1\n\
                model and table agreed in all of them\n";
    assert!(report.ends_with(last), "{report}");
}

#[test]
fn a_file_that_is_no_model_is_refused() {
    let script = model_file("lesson").replace("model.bin", "script.bin");
    let output = explore(&[&script]);
    assert_eq!(output.status.code(), Some(1));
    let problem = String::from_utf8_lossy(&output.stderr);
    assert!(
        problem.contains("refused 14 at bytes 0 to 3: "),
        "{problem}"
    );
    assert_eq!(explore(&["no such file"]).status.code(), Some(1));
    assert_eq!(explore(&[&script, "deep"]).status.code(), Some(1));
}
