//! What is said about refused records and events, and about text that cannot
//! be understood.

use crate::tools::{bytes_of, example, run, run_with, Folder};

/// The lines that are said about a refusal.
fn said(err: &str) -> Vec<&str> {
    err.lines().map(str::trim).collect()
}

#[test]
fn a_refused_model_in_full() {
    let folder = Folder::new("full");
    let file = folder.edited("lesson/model.bin", "deadline 10", "deadline 11");
    let wanted = format!(
        "\
refused 15 3 23 {file}
  cause: a thread's Period, Deadline, Min or Max is out of bounds
  record 2, bytes 3 to 23: thread 0
    thread 0 period 10 deadline 11 min 1 max 3 modes 0,1 critical
  at fault: deadline 11, which must be from 1 to the period, 10
  what to do: let Deadline be from 1 to Period, Min from 1 to Max, Period and Max at most 1,000,000
"
    );
    assert_eq!(run(&["check", &file]).refused(), wanted);
    let script = example("lesson/script.bin");
    for command in ["steps", "rules"] {
        let done = run(&[command, "--words", &file, &script]);
        assert_eq!(done.out, "end 0 15 0  the model is refused\n");
        assert_eq!(done.refused(), wanted);
    }
    for words in [
        &["trace", &file, &script][..],
        &["compare", &file, &script],
        &["table", &file, "-"],
        &["size", &file],
        &["start", &file, &script, "0", "1"],
    ] {
        let done = run(words);
        assert_eq!(done.out, "");
        assert_eq!(done.refused(), wanted);
    }
}

/// Number, place and fault after one change in the lesson.
#[test]
fn faults_of_models() {
    let folder = Folder::new("faults");
    let cases = [
        (
            "period 10",
            "period 0",
            15,
            "thread 0",
            "period 0, which must be from 1 to 1000000",
        ),
        (
            "min 1",
            "min 4",
            15,
            "thread 0",
            "min 4, which must be from 1 to the max, 3",
        ),
        (
            "initial 0",
            "initial 2",
            14,
            "head",
            "initial 2, but there are only modes 0 to 1",
        ),
        (
            "modes 0,1",
            "modes 0,3",
            4,
            "thread 0",
            "modes 0,3, but there are only modes 0 to 1",
        ),
        (
            "critical",
            "critical 2",
            4,
            "thread 0",
            "critical 2, which must be from 0 to 1",
        ),
        (
            "input 0 thread 1",
            "input 0 thread 9",
            14,
            "input 0",
            "thread 9, but there are only threads 0 to 3",
        ),
        (
            "delayed output 1",
            "delayed output 2",
            14,
            "connection 1",
            "output 2, but there are only outputs 0 to 1",
        ),
        (
            "immediate",
            "type 2",
            4,
            "connection 0",
            "type 2, which must be from 0 to 1",
        ),
        (
            "to input 1",
            "to input 0",
            6,
            "connection 1",
            "input 0 is fed by connection 0 already",
        ),
        (
            "to state 1",
            "to state 8",
            4,
            "behaviour 1",
            "to state 8, which must be from 0 to 7",
        ),
        (
            "if input 0",
            "if input 3",
            14,
            "guard atom 0 of behaviour 1",
            "left number 3, but there are only inputs 0 to 2",
        ),
        (
            "if input 0",
            "if output 0",
            4,
            "guard atom 0 of behaviour 1",
            "left tag 3, an output; must be 1 (an input) or 2 (a local)",
        ),
        (
            "if input 0",
            "if input 1",
            5,
            "guard atom 0 of behaviour 1",
            "input 1 belongs to thread 2, the behaviour to thread 1",
        ),
        (
            "set output 0",
            "set local 0",
            6,
            "assignment 1 of behaviour 0",
            "local 0 is set by this behaviour already",
        ),
        (
            ":= input 0 - local 1",
            ":= input 0 - local -1",
            14,
            "assignment 0 of behaviour 2",
            "second number -1, but there are only locals 0 to 1",
        ),
        (
            "output 0 thread 0\n",
            "head modes 1 initial 0\noutput 0 thread 0\n",
            2,
            "head",
            "this is a second head",
        ),
        (
            "behaviour 2 ",
            "input 3 thread 0\nbehaviour 2 ",
            2,
            "input 3",
            "no input may follow an assignment",
        ),
    ];
    for (from, to, number, place, fault) in cases {
        let file = folder.edited("lesson/model.bin", from, to);
        let err = run(&["check", &file]).refused();
        let lines = said(&err);
        assert!(lines[0].starts_with(&format!("refused {number} ")), "{err}");
        assert!(lines[2].ends_with(&format!(": {place}")), "{place}\n{err}");
        assert!(
            lines.contains(&format!("at fault: {fault}").as_str()),
            "{fault}\n{err}"
        );
        assert!(
            lines
                .last()
                .is_some_and(|line| line.starts_with("what to do: ")),
            "{err}"
        );
    }
}

#[test]
fn other_faults_of_models() {
    let check = |bytes: &[u8]| run_with(&["check", "-"], bytes).refused();
    let model = bytes_of(&example("m/model.bin"));
    let empty = check(&[]);
    assert!(empty.starts_with("refused 2 0 0 -\n"), "{empty}");
    assert!(empty.contains("at fault: the file is empty; a model begins with a head\n"));
    let cut = check(&model[..20]);
    assert!(cut.starts_with("refused 1 3 20 -\n"), "{cut}");
    assert!(
        cut.contains("at fault: it has 20 bytes, and the file ends after 17 of them\n"),
        "{cut}"
    );
    let unknown = check(&[1, 1, 0, 0x24, 5]);
    assert!(unknown.starts_with("refused 2 3 5 -\n"), "{unknown}");
    assert!(
        unknown.contains("no record of a model begins with 24; is it a table?\n"),
        "{unknown}"
    );
    let many = check(&[&[1, 1, 0][..], &model[3..].repeat(17)].concat());
    assert!(many.starts_with("refused 3 323 343 -\n"), "{many}");
    assert!(
        many.contains("at fault: there are at most 16 threads in a model\n"),
        "{many}"
    );
    let script = check(&bytes_of(&example("lesson/script.bin")));
    assert!(
        script.contains("all of the file reads as a script; is it one?\n"),
        "{script}"
    );
    assert!(
        script.ends_with(
            "what to do: name the model here, and the script behind it where one is wanted\n"
        ),
        "{script}"
    );
}

/// Two long critical periods in a mode that a transition leaves.
#[test]
fn a_long_hyperperiod() {
    let text = "\
model
head modes 1 initial 0
thread 0 period 999983 deadline 1 min 1 max 1 modes 0 critical
thread 1 period 999979 deadline 1 min 1 max 1 modes 0 critical
transition 0 from mode 0 to mode 0
";
    let folder = Folder::new("hyperperiod");
    let file = folder.pack("model.bin", text);
    let err = run(&["check", &file]).refused();
    assert!(err.starts_with("refused 7 43 46 "), "{err}");
    let fault = "at fault: the critical threads of mode 0 have the periods 999983, 999979\n";
    assert!(err.contains(fault), "{err}");
}

#[test]
fn faults_of_tables() {
    let folder = Folder::new("tables");
    let file = folder.path("table.bin");
    let cases = [
        (
            "start Now := 1\n",
            4,
            "start 0",
            "variable 0, but the clock always starts at 0",
        ),
        (
            "start Cpu := 1\nstart Mode := 1\n",
            4,
            "start 1",
            "variable 1, which must be above 5, the one started before",
        ),
        (
            "start variable(288) := 1\n",
            14,
            "start 0",
            "variable 288, but the variables are 0 to 287",
        ),
        (
            "rule 0 kind 11 0\n",
            4,
            "rule 0",
            "event kind 11, which must be from 1 to 10",
        ),
        (
            "rule 0 ACTIVATE thread 0 length 0..1\n",
            4,
            "rule 0",
            "high 1, which is for START alone and 0 elsewhere",
        ),
        (
            "rule 0 START thread 0 length 3..2\n",
            4,
            "rule 0",
            "low 3, which is above high, 2",
        ),
        (
            "rule 0 START thread 0\nif Now = length\n",
            4,
            "atom 0 of clause 0 of rule 0",
            "right tag 2, the chosen length; must be 0 (a constant) or 1 (a variable)",
        ),
        (
            "rule 0 ACTIVATE thread 0\nif Now mod 0 = 0\n",
            4,
            "atom 0 of clause 0 of rule 0",
            "right number 0, but a multiple (mod) wants a constant above 0",
        ),
        (
            "rule 0 ACTIVATE thread 0\nthen Now := 0\n",
            4,
            "update 0 of rule 0",
            "target 0, but the clock goes by TICK alone",
        ),
        (
            "rule 0 ACTIVATE thread 0\nthen Cpu := length\n",
            4,
            "update 0 of rule 0",
            "first tag 2, the chosen length; must be 0 (a constant) or 1 (a variable)",
        ),
        (
            "rule 0 ACTIVATE thread 0\nthen Cpu := 0\nif false\n",
            2,
            "clause 0 of rule 0",
            "no clause may follow an update",
        ),
    ];
    for (text, number, place, fault) in cases {
        run_with(&["pack", "-", &file], format!("table\n{text}").as_bytes()).good();
        let err = run(&["check", "--table", &file]).refused();
        let lines = said(&err);
        assert!(lines[0].starts_with(&format!("refused {number} ")), "{err}");
        assert!(lines[2].ends_with(&format!(": {place}")), "{place}\n{err}");
        assert!(
            lines.contains(&format!("at fault: {fault}").as_str()),
            "{fault}\n{err}"
        );
        assert!(run(&["show", &file])
            .good()
            .contains(&format!("# at fault: {fault}\n")));
    }
}

#[test]
fn a_table_that_is_too_long() {
    let table = [0x20, 1, 0, 0, 0, 0, 0].repeat(142_858);
    let err = run_with(&["check", "--table", "-"], &table).refused();
    assert!(err.starts_with("refused 3 0 1000006 -\n"), "{err}");
    assert!(
        err.contains("at fault: the table has 1000006 bytes, and 1000000 are allowed\n"),
        "{err}"
    );
}

/// One change in the script of the lesson: what is said about the event. Why START is
/// refused has tests of its own.
#[test]
fn refused_events() {
    let folder = Folder::new("events");
    let model = example("lesson/model.bin");
    let cases = [
        ("TICK 2", "TICK 3", 10, "step 10: TICK 3 refused (10) at clock 0: COMPLETE 0 is due at clock 2", None),
        ("COMPLETE thread 0\n", "TICK 5\n", 10, "step 11: TICK 5 refused (10) at clock 2: COMPLETE 0 is enabled", None),
        ("TICK 2", "TICK 1", 10, "step 11: COMPLETE 0 refused (10) at clock 1: COMPLETE 0 is due at clock 2", Some("it wants End(0) = Now, but Now is 1, End(0) is 2")),
        ("ACTIVATE thread 0\n", "", 10, "step 4: DISPATCH 0 refused (10) at clock 0: ACTIVATE 0, DISPATCH 1, DISPATCH 2 and DISPATCH 3 are enabled", Some("it wants State(0) = waiting_dispatch, but State(0) is waiting_mode")),
        ("for 2", "for 9", 10, "step 9: START 0 for 9 refused (10) at clock 0: START 0 for 1 to 3, START 2 for 2 to 6 and START 3 for 1 to 5 are enabled", None),
        ("START thread 0", "START thread 7", 10, "step 9: START 7 for 2 refused (10) at clock 0: START 0 for 1 to 3, START 2 for 2 to 6 and START 3 for 1 to 5 are enabled", None),
        ("TICK 2", "LEAVE transition 1", 10, "step 10: LEAVE 1 refused (10) at clock 0: COMPLETE 0 is due at clock 2", Some("it wants Phase = 2, but Phase is 0")),
        ("TICK 2", "TICK 0", 9, "step 10: TICK 0 refused (9) at clock 0: the ticks must be at least 1", None),
        ("TICK 2", "55 66", 9, "step 10: event of kind 55 refused (9) at clock 0: no event has the kind 55", None),
    ];
    for (from, to, number, line, why) in cases {
        let script = folder.edited("lesson/script.bin", from, to);
        for command in ["steps", "rules"] {
            let done = run(&[command, &model, &script]);
            let end = format!("end {} {number} ", done.out.lines().count() - 1);
            assert!(
                done.out
                    .lines()
                    .last()
                    .is_some_and(|last| last.starts_with(&end)),
                "{}",
                done.out
            );
            let err = done.refused();
            assert!(err.starts_with(&format!("refused {number} ")), "{err}");
            assert_eq!(said(&err)[1], line);
            assert!(why.is_none_or(|why| said(&err)[2] == why), "{err}");
        }
    }
}

#[test]
fn the_file_of_a_refused_event_is_the_script() {
    let folder = Folder::new("file");
    let script = folder.write("script.bin", &[3, 0]);
    let err = run(&["steps", &example("m/model.bin"), &script]).refused();
    assert!(
        err.starts_with(&format!("refused 10 0 2 {script}\n")),
        "{err}"
    );
    let cut = folder.write("script.bin", &[1, 0, 4, 0, 1]);
    let err = run(&["steps", &example("m/model.bin"), &cut]).refused();
    assert!(err.starts_with(&format!("refused 9 2 5 {cut}\n")), "{err}");
    assert_eq!(
        said(&err)[1],
        "step 2: START refused (9) at clock 0: START has 6 bytes, and the script ends after 3"
    );
}

#[test]
fn the_last_clock() {
    let folder = Folder::new("clock");
    let model = folder.write("model.bin", &[1, 1, 0]);
    let script = folder.write("script.bin", &[0x0B, 0xFF, 0xFF].repeat(15_260));
    let err = run(&["steps", &model, &script]).refused();
    assert!(err.starts_with("refused 11 45777 45780 "), "{err}");
    assert_eq!(
        said(&err)[1],
        "step 15260: TICK 65535 refused (11) at clock 999998565: the last clock is 1000000000"
    );
}

/// Rules that overlap, and a rule that sets a variable twice.
#[test]
fn tables_of_others() {
    let folder = Folder::new("others");
    let script = folder.write("script.bin", &[1, 0]);
    let table = folder.path("table.bin");
    let refused = |text: &str| {
        run_with(&["pack", "-", &table], text.as_bytes()).good();
        run(&["run", &table, &script]).refused()
    };
    let err = refused("table\nrule 0 ACTIVATE thread 0\nrule 1 ACTIVATE thread 0\n");
    assert_eq!(
        said(&err)[1],
        "step 1: ACTIVATE 0 refused (12) at clock 0: rules 0 and 1 are enabled"
    );
    let err = refused("table\nrule 0 ACTIVATE thread 0\nthen Cpu := 1\nthen Cpu := 1\n");
    assert_eq!(
        said(&err)[1],
        "step 1: ACTIVATE 0 refused (13) at clock 0: rule 0 sets a variable twice"
    );
    let err = refused("table\nrule 0 ACTIVATE thread 0\nif false\n");
    assert_eq!(
        said(&err)[1],
        "step 1: ACTIVATE 0 refused (10) at clock 0: nothing but TICK and REQUEST is enabled"
    );
    let err = refused("table\nrule 0 DISPATCH thread 9\nrule 1 DISPATCH thread 9\n");
    assert_eq!(
        said(&err)[1..3],
        [
            "step 1: ACTIVATE 0 refused (10) at clock 0: DISPATCH 9 (by two rules) is enabled",
            "the table has no rule for this thread"
        ]
    );
}

/// Of several rules for an event, what those want that lack least: all of it up to a
/// number, the others counted.
#[test]
fn rules_that_want_different_things() {
    let folder = Folder::new("wanted");
    let (table, script) = (
        folder.path("table.bin"),
        folder.write("script.bin", &[1, 0]),
    );
    let said_of = |rules: &str| {
        run_with(&["pack", "-", &table], format!("table\n{rules}").as_bytes()).good();
        said(&run(&["run", &table, &script]).refused())[2].to_string()
    };
    let rule = |at: usize, value: usize| {
        let wants = format!("if Local(0) = {value}\nand Local(1) = 0\nand Local(2) = 0\n");
        format!("rule {at} ACTIVATE thread 0\n{wants}")
    };
    let far = "rule 2 ACTIVATE thread 0\nif Local(3) = 1\nand Local(2) = 1\n";
    let two = [rule(0, 7), rule(1, 8), far.to_string(), rule(3, 7)].concat();
    let wanted = "it wants Local(0) = 7 or Local(0) = 8, but Local(0) is 0";
    assert_eq!(said_of(&two), wanted);
    for (many, more) in [
        (16, ""),
        (17, " or 1 more clause"),
        (19, " or 3 more clauses"),
    ] {
        let rules: String = (0..many).map(|at| rule(at, at + 1)).collect();
        let end = format!(" or Local(0) = 16{more}, but Local(0) is 0");
        assert!(said_of(&rules).ends_with(&end), "{}", said_of(&rules));
    }
}

/// A table with very many rules: some are told, the others counted.
#[test]
fn many_rules_at_once() {
    let rule = |number: usize| format!("rule {number} DISPATCH thread {}\n", number % 256);
    let text: String = (0..2_000).map(rule).collect();
    let folder = Folder::new("many");
    let table = folder.pack("table.bin", &format!("table\n{text}"));
    let script = folder.write("script.bin", &[0x0B, 1, 0]);
    let err = run(&["run", &table, &script]).refused();
    assert!(
        said(&err)[1].ends_with("DISPATCH 15 (by two rules) and 240 more are enabled"),
        "{err}"
    );
}

/// Text that cannot be understood: line, word, and what was expected.
#[test]
fn text_that_is_none() {
    let cases = [
        ("modle\n", "line 1, word 1 'modle': expected 'model', 'table' or 'script' first, or rows of hexadecimal"),
        ("model\nport 0 thread 0\n", "line 2, word 1 'port': expected a record of a model: head, thread, input, output, local, connection, transition, behaviour, if, and, set"),
        ("model\nhead modes 300 initial 0\n", "line 2, word 3 '300': expected a number from 0 to 255"),
        ("model\n\n# remark\nhead modes 1\n", "line 4, at its end: expected 'initial'"),
        ("model\nhead modes 1 initial 0 or so\n", "line 2, word 6 'or': expected the end of the line"),
        ("model\nhead modes 1 initial 0\nthread 1 period 5\n", "line 3, word 2 '1': this is thread 0, for items are numbered from 0 in their order"),
        ("model\nhead modes 1 initial 0\nthread 0 perod 5\n", "line 3, word 3 'perod': expected 'period'"),
        ("model\ninput 0 thread 0\nif imput 0 = 1\n", "line 3, word 2 'imput': expected a number, 'input', 'local' or 'output'"),
        ("model\nif input 0 => 1\n", "line 2, word 4 '=>': expected a number, 'input', 'local' or 'output'"),
        ("model\nset local 0 = 1\n", "line 2, word 4 '=': expected ':='"),
        ("model\nconnection 0 sudden\n", "line 2, word 3 'sudden': expected 'immediate' or 'delayed'"),
        ("script\nSTOP thread 0\n", "line 2, word 1 'STOP': expected a record of a script: ACTIVATE, DEACTIVATE, DISPATCH, START, COMPLETE, DEADLINE, MISS, REQUEST, ENTER, LEAVE, TICK"),
        ("script\nTICK 70000\n", "line 2, word 2 '70000': expected a number from 0 to 65535"),
        ("table\nrule 0 PAINT 0\n", "line 2, word 3 'PAINT': expected an event, as ACTIVATE"),
        ("table\nstart Colour := 1\n", "line 2, word 2 'Colour': expected a variable, as Now or State(0)"),
        ("table\nstart State(16) := 1\n", "line 2, word 2 'State(16)': expected a variable, as Now or State(0)"),
        ("table\nrule 0 ACTIVATE thread 0\nif Now mod 2 > 0\n", "line 3, word 5 '>': expected '= 0' or '!= 0'"),
        ("table\nrule 0 ACTIVATE thread 0\nif (Now = 1 or Cpu = 1\n", "line 3, at its end: expected ')'"),
        ("01 02 0x3\n", "line 1, word 3 '0x3': expected a byte as two hexadecimal digits"),
    ];
    for (text, wanted) in cases {
        let done = run_with(&["pack", "-", "/nowhere/out"], text.as_bytes());
        assert_eq!(done.out, "");
        assert_eq!(done.refused(), format!("-: {wanted}\n"));
    }
    let done = run_with(&["pack", "-", "-"], b"model\nhead \xff\n");
    assert_eq!(
        done.refused(),
        "-: line 2, word 2: no text (bytes that are not UTF-8)\n"
    );
}
