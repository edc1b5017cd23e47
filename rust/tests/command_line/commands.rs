//! Each command on files that are as they should be.

use crate::tools::{bytes_of, example, run, run_with, Folder};

/// The names that the lesson's comments give.
const NAMES: &str = "\
# who is who
thread 0 sample
thread 1 smooth
thread 2 send
thread 3 draw
mode 0 lesson
mode 1 exam
input 0 raw position
";

fn lesson() -> [String; 2] {
    [example("lesson/model.bin"), example("lesson/script.bin")]
}

fn m() -> [String; 2] {
    [example("m/model.bin"), example("m/script.bin")]
}

#[test]
fn listings() {
    let folder = Folder::new("listings");
    for name in ["lesson", "m"] {
        let file = |file: &str| example(&format!("{name}/{file}"));
        let (model, script) = (file("model.bin"), file("script.bin"));
        let wanted = String::from_utf8(bytes_of(&file("listing.txt"))).expect("text");
        let table = folder.path("table.bin");
        run(&["table", &model, &table]).good();
        assert_eq!(run(&["steps", &model, &script]).good(), wanted);
        assert_eq!(run(&["rules", &model, &script]).good(), wanted);
        assert_eq!(run(&["run", &table, &script]).good(), wanted);
        assert_eq!(
            run_with(&["steps", "-", &script], &bytes_of(&model)).good(),
            wanted
        );
        assert_eq!(
            run_with(&["run", &table, "-"], &bytes_of(&script)).good(),
            wanted
        );
    }
}

#[test]
fn words() {
    let [model, script] = m();
    let wanted = "\
1 0 1 0    ACTIVATE thread 0
2 0 3 0    DISPATCH thread 0
3 0 4 0    START thread 0 for 2
4 2 11 2   TICK 2
5 2 5 0    COMPLETE thread 0
6 4 11 2   TICK 2
7 4 6 0    DEADLINE thread 0
end 7 0 4  7 events taken, all of them; the clock is 4
";
    assert_eq!(run(&["steps", "--words", &model, &script]).good(), wanted);
    assert_eq!(run(&["rules", "--words", &model, &script]).good(), wanted);
}

#[test]
fn values() {
    let [model, script] = m();
    let wanted = "\
1 0 1 0    State(0)=waiting_dispatch
2 0 3 0    State(0)=waiting_execution
3 0 4 0    Cpu=0 State(0)=execution
4 2 11 2   Now=2
5 2 5 0    Cpu=none State(0)=completed
6 4 11 2   Now=4
7 4 6 0    State(0)=waiting_dispatch
end 7 0 4
";
    assert_eq!(run(&["steps", "--values", &model, &script]).good(), wanted);
    // The table has Due and End beside these.
    let of_table = run(&["rules", "--words", "--values", &model, &script]).good();
    let line = "3 0 4 0    START thread 0 for 2: Cpu=0 State(0)=execution End(0)=2";
    assert_eq!(of_table.lines().nth(2), Some(line));
}

#[test]
fn names() {
    let folder = Folder::new("names");
    let names = folder.write("names.txt", NAMES.as_bytes());
    let [model, script] = lesson();
    let words = [
        "steps", "--words", "--values", "--names", &names, &model, &script,
    ];
    let text = run(&words).good();
    let line = |number: usize| text.lines().nth(number - 1).unwrap_or("");
    assert_eq!(
        line(9),
        "9 0 4 0    START sample for 2: Cpu=sample State(sample)=execution"
    );
    assert_eq!(
        line(12),
        "12 2 4 1   START smooth for 3: Cpu=smooth State(smooth)=execution Input(raw position)=3"
    );
    assert_eq!(
        line(19),
        "19 9 8 0   REQUEST transition 0 (lesson to exam): Phase=1 Pending=0"
    );
    let said = text
        .lines()
        .filter(|line| line.contains("Mode=exam"))
        .count();
    assert_eq!(said, 1);
}

#[test]
fn names_that_are_none() {
    let folder = Folder::new("bad-names");
    let [model, script] = m();
    let says = |names: &str, text: &str| {
        let names = folder.write("names.txt", names.as_bytes());
        let done = run(&["steps", "--words", "--names", &names, &model, &script]);
        assert_eq!(done.out, "");
        assert_eq!(done.refused(), format!("{names}: {text}\n"));
    };
    says("thread 0 a\nthraed 1 b\n", "line 2, word 1 'thraed': expected one of thread, mode, input, output, local, connection, transition");
    says(
        "thread zero a\n",
        "line 1, word 2 'zero': expected a number from 0 to 65535",
    );
    says("thread 0\n", "line 1, at its end: expected a name");
}

/// An option's value may stand behind an equals sign; a transition may have a name.
#[test]
fn names_of_transitions() {
    let folder = Folder::new("transitions");
    let names = folder.write("names.txt", b"transition 1 to_lesson\n");
    let option = format!("--names={names}");
    let [model, _] = lesson();
    let text = run_with(&["steps", "--words", &option, &model, "-"], &[8, 1]).good();
    let line = "1 0 8 1    REQUEST to_lesson ignored";
    assert_eq!(text.lines().next(), Some(line));
    run(&["steps", "--words=all", &model, &model]).wrong_call();
}

/// A request that changes nothing is taken all the same.
#[test]
fn an_ignored_request() {
    let [model, _] = lesson();
    let text = run_with(&["steps", "--words", &model, "-"], &[8, 1]).good();
    let line = "1 0 8 1    REQUEST transition 1 (mode 1 to mode 0) ignored";
    assert_eq!(text.lines().next(), Some(line));
}

/// Whole files of any length, or as much as the programs read.
#[test]
fn limit() {
    let folder = Folder::new("limit");
    let model = folder.write("model.bin", &[1, 1, 0]);
    let script = folder.write("script.bin", &[0x0B, 1, 0].repeat(30_000));
    let last = |text: &str| text.lines().last().unwrap_or("").to_string();
    assert_eq!(
        last(&run(&["steps", &model, &script]).good()),
        "end 30000 0 30000"
    );
    let table = folder.path("table.bin");
    run(&["table", &model, &table]).good();
    for words in [["steps", &model], ["rules", &model], ["run", &table]] {
        let done = run(&[words[0], "--limit", words[1], &script]);
        assert_eq!(last(&done.out), "end 21845 9 21845");
        let first = format!("refused 9 65535 65536 {script}\n");
        assert!(done.refused().starts_with(&first));
    }
}

/// `rules` has room for 65,536 bytes of table as a program, and for all here.
#[test]
fn room_for_the_table() {
    let model = format!(
        "{}/../harness/tests/data/long_table.bin",
        env!("CARGO_MANIFEST_DIR")
    );
    let script = Folder::new("room").write("script.bin", &[0x0B, 1, 0]);
    let done = run(&["rules", "--limit", &model, &script]);
    assert_eq!(done.out, "end 0 8 0\n");
    let length = bytes_of(&model).len();
    let wanted = format!(
        "\
refused 8 {length} {length} {model}
  cause: the output is shorter than the table
  what to do: give more room: 'futonkestrel size MODEL' tells how much, at most 174,485 bytes
"
    );
    assert_eq!(done.refused(), wanted);
    let whole = run(&["steps", &model, &script]);
    assert_eq!(run(&["rules", &model, &script]).out, whole.out);
}

#[test]
fn table() {
    let folder = Folder::new("table");
    let [model, _] = lesson();
    let out = folder.path("table.bin");
    assert_eq!(run(&["table", &model, &out]).good(), "");
    let made = futonkestrel::translate_to_vec(&bytes_of(&model)).expect("it is accepted");
    assert_eq!(bytes_of(&out), made);
    assert_eq!(folder.files(), ["table.bin"]);
}

/// Nothing is written, and `table` then writes so many bytes.
#[test]
fn size() {
    let folder = Folder::new("size");
    let table = folder.path("table.bin");
    for (name, bytes, records) in [
        ("lesson", 5605, "rules 61 clauses 178 atoms 195 updates 172"),
        ("m", 1065, "rules 14 clauses 38 atoms 38 updates 30"),
    ] {
        let model = example(&format!("{name}/model.bin"));
        let wanted = format!("bytes {bytes} {records}\n");
        assert_eq!(run(&["size", &model]).good(), wanted);
        assert_eq!(run_with(&["size", "-"], &bytes_of(&model)).good(), wanted);
        assert!(folder.files().is_empty());
        run(&["table", &model, &table]).good();
        assert_eq!(bytes_of(&table).len(), bytes);
        std::fs::remove_file(&table).expect("it was written");
    }
}

#[test]
fn check() {
    let folder = Folder::new("check");
    let [model, _] = lesson();
    assert_eq!(
        run(&["check", &model]).good(),
        format!("{model}: accepted\n")
    );
    let table = folder.path("table.bin");
    run(&["table", &model, &table]).good();
    let accepted = format!("{table}: accepted\n");
    assert_eq!(run(&["check", "--table", &table]).good(), accepted);
    assert_eq!(
        run_with(&["check", "-"], &bytes_of(&model)).good(),
        "-: accepted\n"
    );
}

#[test]
fn compare() {
    let folder = Folder::new("compare");
    let [model, _] = lesson();
    let table = folder.path("table.bin");
    run(&["table", &model, &table]).good();
    let same = format!("{table} is the table of {model}\n");
    assert_eq!(run(&["compare", &model, &table]).good(), same);

    let text = run(&["show", &table])
        .good()
        .replacen("Now mod 10 = 0", "Now mod 11 = 0", 1);
    run_with(&["pack", "-", &table], text.as_bytes()).good();
    let done = run(&["compare", &model, &table]);
    let wanted = format!(
        "\
{table} is not the table of {model}: they part at byte 854, in record 106
  behind         rule 14 DISPATCH thread 0
  of the model   Now mod 10 = 0
  in the table   Now mod 11 = 0
"
    );
    assert_eq!((done.status, done.out), (1, wanted));
}

#[test]
fn compare_with_a_table_that_ends_early() {
    let folder = Folder::new("compare-cut");
    let [model, _] = m();
    let table = folder.path("table.bin");
    run(&["table", &model, &table]).good();
    let bytes = bytes_of(&table);
    folder.write("table.bin", &bytes[..14]);
    let done = run(&["compare", &model, &table]);
    assert_eq!(done.status, 1);
    assert!(
        done.out.contains("they part at byte 14, in record 3\n"),
        "{}",
        done.out
    );
    assert!(
        done.out.contains("  of the model   start Active(0) := 1\n"),
        "{}",
        done.out
    );
    assert!(
        done.out.contains("  in the table   (ends here)\n"),
        "{}",
        done.out
    );
    folder.write("table.bin", &[&bytes[..], &[0x22]].concat());
    let done = run(&["compare", &model, &table]);
    assert!(
        done.out.contains("  of the model   (ends here)\n"),
        "{}",
        done.out
    );
    assert!(
        done.out.contains("the table is refused 2 at bytes"),
        "{}",
        done.out
    );
}

/// Refused events among the others, the last one cut.
#[test]
fn trace() {
    let folder = Folder::new("trace");
    let [model, _] = m();
    let script = folder.write("script.bin", &[1, 0, 1, 0, 3, 0, 4]);
    let wanted = "\
- 0 0 3=255 5=255 16=1
0 0 2 3=255 5=255 16=1 32=1
10 2 4 3=255 5=255 16=1 32=1
0 4 6 3=255 5=255 16=1 32=2
9 6 7 3=255 5=255 16=1 32=2
taken 1
";
    assert_eq!(run(&["trace", &model, &script]).good(), wanted);
    let table = folder.path("table.bin");
    run(&["table", &model, &table]).good();
    let of_table = wanted.replace("32=2", "32=2 64=4");
    assert_eq!(run(&["trace", "--table", &table, &script]).good(), of_table);
}

#[test]
fn show_a_model() {
    let wanted = "\
model
head modes 2 initial 0
thread 0 period 10 deadline 10 min 1 max 3 modes 0,1 critical
thread 1 period 10 deadline 10 min 1 max 4 modes 0,1 critical
thread 2 period 20 deadline 20 min 2 max 6 modes 0,1
thread 3 period 20 deadline 15 min 1 max 5 modes 0
input 0 thread 1 start -1
input 1 thread 2
input 2 thread 3
output 0 thread 0
output 1 thread 1
local 0 thread 0 start 0
local 1 thread 1 start 0
connection 0 immediate output 0 to input 0 modes 0,1
connection 1 delayed output 1 to input 1 modes 0,1
connection 2 delayed output 1 to input 2 modes 0
transition 0 from mode 0 to mode 1
transition 1 from mode 1 to mode 0
behaviour 0 thread 0 from state 0 to state 0
  set local 0 := local 0 + 3
  set output 0 := local 0 + 3
behaviour 1 thread 1 from state 0 to state 1
  if input 0 >= 5
  set output 1 := input 0
  set local 1 := input 0
behaviour 2 thread 1 from state 1 to state 1
  if input 0 != local 1
  set output 1 := input 0 - local 1
  set local 1 := input 0
";
    assert_eq!(run(&["show", &lesson()[0]]).good(), wanted);
}

#[test]
fn show_a_script() {
    let wanted = "\
script
ACTIVATE thread 0
DISPATCH thread 0
START thread 0 for 2
TICK 2
COMPLETE thread 0
TICK 2
DEADLINE thread 0
";
    assert_eq!(run(&["show", &m()[1]]).good(), wanted);
}

#[test]
fn show_a_table() {
    let folder = Folder::new("show-table");
    let table = folder.path("table.bin");
    run(&["table", &lesson()[0], &table]).good();
    let text = run(&["show", &table]).good();
    let start = "\
table
start Pending := none
start Cpu := none
start Active(0) := 1
";
    assert!(text.starts_with(start), "{text}");
    assert!(text.contains("\nstart Input(0) := -1\n"), "{text}");
    let rule = "

rule 19 START thread 1 length 1..4
  if State(1) = waiting_execution
  and Cpu = none
  and Due(1) != Now
  and (Flag(0) = 0 or State(0) < 2 or State(0) = completed or DispatchTime(0) != DispatchTime(1))
  and (Flag(0) = 0 or Active(0) = 0 or State(0) >= 2 or DispatchTime(1) != Now or Now mod 10 != 0)
  then State(1) := execution
  ⊗ Cpu := 1
  ⊗ End(1) := Now + length
  ⊗ Input(0) := Buffer(0) if Flag(0) = 1

";
    assert!(text.contains(rule), "{text}");
}

/// Signs that people type, remarks, and other words for the same.
#[test]
fn pack_understands() {
    let folder = Folder::new("pack");
    let text = "\
# an example
table   # of nothing

rule 0 ACTIVATE thread 0
  and State(0) ≠ 3
  then Local(0) := Local(0)   - -1
  with State(0) := 1
21 01 01 00 00 00 00 00 00 00 00
";
    let out = folder.pack("out.bin", text);
    let wanted = "\
table

rule 0 ACTIVATE thread 0
  if State(0) != execution
  then Local(0) := Local(0) - -1
  ⊗ State(0) := waiting_dispatch

rule 1 ACTIVATE thread 1
";
    assert_eq!(run(&["show", &out]).good(), wanted);
}

/// What README promises: a period changed in an editor shows in the words.
#[test]
fn a_changed_period() {
    let folder = Folder::new("period");
    let [model, script] = lesson();
    let changed = folder.edited(
        "lesson/model.bin",
        "thread 2 period 20",
        "thread 2 period 40",
    );
    let before = run(&["steps", "--words", &model, &script]).good();
    let done = run(&["steps", "--words", &changed, &script]);
    let last = done.out.lines().last().unwrap_or("");
    assert_ne!(done.out, before);
    assert!(last.contains("the next one refused"), "{last}");
    assert!(done
        .refused()
        .contains("DISPATCH 2 refused (10) at clock 20"));
}
