//! Which fields are told of a refused record: those that name nothing (14), the
//! times of a thread (15), or the others (4), and only the first of these sorts.

use crate::tools::{run, Folder};

/// `check` refuses with this number and tells these fields and no others.
fn assert_told(words: &[&str], number: u32, faults: &[&str]) {
    let said = run(words).refused();
    assert!(said.starts_with(&format!("refused {number} ")), "{said}");
    let told = said
        .lines()
        .filter_map(|line| line.strip_prefix("  at fault: "));
    assert_eq!(told.collect::<Vec<_>>(), faults, "{said}");
}

/// The lesson with one change.
fn of_lesson(folder: &Folder, from: &str, to: &str, number: u32, faults: &[&str]) {
    let file = folder.edited("lesson/model.bin", from, to);
    assert_told(&["check", &file], number, faults);
}

#[test]
fn modes_of_the_head() {
    let folder = Folder::new("fields-head");
    let of = |to: &str, number: u32, fault: &str| {
        of_lesson(&folder, "modes 2 initial 0", to, number, &[fault]);
    };
    let none = "initial 0, but there is no mode, by the count as written";
    of("modes 0 initial 0", 14, none);
    let of_nine = "initial 9, but there are only modes 0 to 8, by the count as written";
    of("modes 9 initial 9", 14, of_nine);
    of("modes 9 initial 8", 4, "modes 9, which must be from 1 to 8");
    let of_eight = "initial 8, but there are only modes 0 to 7";
    of("modes 8 initial 8", 14, of_eight);
}

#[test]
fn times_of_a_thread() {
    let folder = Folder::new("fields-times");
    let from = "period 10 deadline 10 min 1 max 3 modes 0,1 critical";
    let of = |to: &str, number: u32, faults: &[&str]| {
        of_lesson(&folder, from, to, number, faults);
    };
    // A bound that is at fault itself bounds nothing.
    of(
        "period 0 deadline 10 min 1 max 3 modes 0,1 critical",
        15,
        &["period 0, which must be from 1 to 1000000"],
    );
    of(
        "period 1000001 deadline 0 min 4 max 3 modes 0,3 critical 2",
        15,
        &[
            "period 1000001, which must be from 1 to 1000000",
            "deadline 0, which must be from 1 to 1000000",
            "min 4, which must be from 1 to the max, 3",
        ],
    );
    of(
        "period 10 deadline 10 min 1 max 3 modes 0,3 critical 2 first state 8",
        4,
        &[
            "modes 0,3, but there are only modes 0 to 1",
            "critical 2, which must be from 0 to 1",
            "first state 8, which must be from 0 to 7",
        ],
    );
}

#[test]
fn items_of_a_model() {
    let folder = Folder::new("fields-items");
    of_lesson(
        &folder,
        "immediate output 0 to input 0 modes 0,1",
        "type 2 output 9 to input 3 modes 0,5",
        14,
        &[
            "output 9, but there are only outputs 0 to 1",
            "to input 3, but there are only inputs 0 to 2",
        ],
    );
    of_lesson(
        &folder,
        "transition 0 from mode 0 to mode 1",
        "transition 0 from mode 2 to mode 255",
        14,
        &[
            "from mode 2, but there are only modes 0 to 1",
            "to mode 255, but there are only modes 0 to 1",
        ],
    );
    of_lesson(
        &folder,
        "thread 0 from state 0",
        "thread 4 from state 9",
        14,
        &["thread 4, but there are only threads 0 to 3"],
    );
}

/// A number is told only behind a tag that may stand there.
#[test]
fn tags_of_a_model() {
    let folder = Folder::new("fields-tags");
    let of = |from: &str, to: &str, number: u32, faults: &[&str]| {
        of_lesson(&folder, from, to, number, faults);
    };
    of(
        "if input 0 >= 5",
        "if output 77 op 9 output 99",
        4,
        &[
            "op 9, which must be from 0 to 5",
            "left tag 3, an output; must be 1 (an input) or 2 (a local)",
            "right tag 3, an output; must be 0 (a constant) or 1 (an input) or 2 (a local)",
        ],
    );
    of(
        "if input 0 >= 5",
        "if input 3 op 9 local 2",
        14,
        &[
            "left number 3, but there are only inputs 0 to 2",
            "right number 2, but there are only locals 0 to 1",
        ],
    );
    of(
        "set output 1 := input 0\n",
        "set input 99 := input 0 unused local -1\n",
        14,
        &["second number -1, but there are only locals 0 to 1"],
    );
    of(
        "set output 1 := input 0\n",
        "set input 99 := input 0\n",
        4,
        &["target tag 1, an input; must be 2 (a local) or 3 (an output)"],
    );
}

/// A table of these lines.
fn of_table(folder: &Folder, lines: &str, number: u32, faults: &[&str]) {
    let file = folder.pack("table.bin", &format!("table\n{lines}"));
    assert_told(&["check", "--table", &file], number, faults);
}

#[test]
fn variables_of_a_table() {
    let folder = Folder::new("fields-variables");
    let of = |lines: &str, number: u32, faults: &[&str]| of_table(&folder, lines, number, faults);
    let missing = |field: &str| format!("{field}, but the variables are 0 to 287");
    // One that is there stands before it; it neither rises nor is there.
    let starts = "start Local(31) := 1\nstart variable(65535) := 1\n";
    of(starts, 14, &[&missing("variable 65535")]);
    let starts = "start Local(31) := 1\nstart Local(31) := 1\n";
    let not_above = "variable 287, which must be above 287, the one started before";
    of(starts, 4, &[not_above]);
    let rule = "rule 0 ACTIVATE thread 0\n";
    of(
        &format!("{rule}then Now := length + variable(288) if variable(65534) = 1\n"),
        14,
        &[&missing("condition 65534"), &missing("second number 288")],
    );
    of(
        &format!("{rule}then variable(288) := variable(-1)\n"),
        14,
        &[&missing("target 288"), &missing("first number -1")],
    );
    of(
        &format!("{rule}then Now := length(288)\n"),
        4,
        &[
            "target 0, but the clock goes by TICK alone",
            "first tag 2, the chosen length; must be 0 (a constant) or 1 (a variable)",
        ],
    );
}

/// Beside a multiple no variable may stand; beside an op that there is not one may.
#[test]
fn atoms_of_a_table() {
    let folder = Folder::new("fields-atoms");
    let of = |atom: &str, number: u32, faults: &[&str]| {
        let lines = format!("rule 0 START thread 0\nif {atom}\n");
        of_table(&folder, &lines, number, faults);
    };
    let tag = "right tag 1, a variable; must be 0 (a constant) for a multiple (mod)";
    for variable in ["Cpu", "variable(288)"] {
        of(&format!("Now mod {variable} = 0"), 4, &[tag]);
        of(&format!("Now mod {variable} != 0"), 4, &[tag]);
    }
    let above = "right number -5, but a multiple (mod) wants a constant above 0";
    of("Now mod -5 = 0", 4, &[above]);
    let missing = "right number 288, but the variables are 0 to 287";
    of("Now op 8 variable(288)", 14, &[missing]);
    of("Now op 8 Cpu", 4, &["op 8, which must be from 0 to 7"]);
    let missing = "variable 288, but the variables are 0 to 287";
    of("variable(288) mod 0 = 0", 14, &[missing]);
}
