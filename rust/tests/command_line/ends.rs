//! Sums and differences that do not fit into 32 bits stop at an end: the values, and what
//! listings and pictures say of it.

use crate::timeline::picture;
use crate::tools::{readme_example, run, Folder};

/// The total can be raised once; the other local, and what is sent to a thread that is in no
/// mode, are at their ends with the first job.
const MODEL: &str = "\
model
head modes 1 initial 0
thread 0 period 5 deadline 4 min 1 max 5 modes 0
thread 1 period 5 deadline 5 min 1 max 1 modes none
input 0 thread 1
output 0 thread 0
local 0 thread 0 start 2147483646
local 1 thread 0 start -2147483648
connection 0 immediate output 0 to input 0 modes 0
behaviour 0 thread 0 from state 0 to state 0
  set local 0 := local 0 + 1
  set local 1 := local 1 - 1
  set output 0 := 0 - local 1
";

const TWO_JOBS: &str = "\
script
ACTIVATE thread 0
DISPATCH thread 0
START thread 0 for 1
TICK 1
COMPLETE thread 0
TICK 3
DEADLINE thread 0
TICK 1
DISPATCH thread 0
START thread 0 for 1
TICK 1
COMPLETE thread 0
";

const NAMES: &[u8] = b"thread 0 press\nlocal 0 total\noutput 0 force\n";

/// The lines of both COMPLETEs, in numbers and with some names.
const FIRST: &str = "5 1 5 0    COMPLETE thread 0, Output(0) and Buffer(0) stop at 2147483647, \
                     Local(1) stops at -2147483648";
const SECOND: &str = "12 6 5 0   COMPLETE press, Local(total), Output(force) and Buffer(0) stop \
                      at 2147483647, Local(1) stops at -2147483648";

/// Model and table have the same values, and the same is said of both.
#[test]
fn in_words() {
    let folder = Folder::new("ends-words");
    let model = folder.pack("model.bin", MODEL);
    let script = folder.pack("script.bin", TWO_JOBS);
    let (table, names) = (folder.path("table.bin"), folder.write("names", NAMES));
    run(&["table", &model, &table]).good();
    for (command, file, end) in [
        ("steps", &model, ""),
        ("rules", &model, " End(0)=0"),
        ("run", &table, " End(0)=0"),
    ] {
        let text = run(&[command, "--words", "--values", file, &script]).good();
        let values = "Buffer(0)=2147483647 Output(0)=2147483647 Local(0)=2147483647";
        let wanted = format!("{FIRST}: Cpu=none State(0)=completed{end} {values}");
        assert_eq!(text.lines().nth(4), Some(wanted.as_str()), "{command}");
        let text = run(&[command, "--words", "--names", &names, file, &script]).good();
        assert_eq!(text.lines().nth(11), Some(SECOND), "{command}");
        assert_eq!(text.matches(" stop").count(), 4, "{command}");
        // Without words there are values alone.
        let text = run(&[command, "--values", file, &script]).good();
        assert_eq!(text.matches(" stop").count(), 0, "{command}");
    }
}

/// The last line of a trace, of the model and of its table: both ends.
#[test]
fn in_traces() {
    let folder = Folder::new("ends-traces");
    let model = folder.pack("model.bin", MODEL);
    let script = folder.pack("script.bin", TWO_JOBS);
    let table = folder.path("table.bin");
    run(&["table", &model, &table]).good();
    for words in [
        &["trace", &model, &script][..],
        &["trace", "--table", &table, &script],
    ] {
        let trace = run(words).good();
        let ends = "192=2147483647 224=2147483647 256=2147483647 257=-2147483648";
        let last = trace.lines().nth(12).unwrap_or("");
        assert!(last.ends_with(ends), "{last}");
    }
}

#[test]
fn in_pictures() {
    let folder = Folder::new("ends-drawn");
    let model = folder.pack("model.bin", MODEL);
    let script = folder.pack("script.bin", TWO_JOBS);
    let drawn = picture(&model, &script, &["--names", &folder.write("names", NAMES)]);
    let (_, words) = SECOND.split_once("   ").expect("there");
    let title = format!("step 12, clock 6: {words}");
    assert!(drawn
        .iter()
        .any(|one| one.name == "title" && one.text == title));
}

/// A table from elsewhere: any update may stop, those of instants and of lengths among
/// them. A REQUEST whose sum stays where it is does not count as ignored.
#[test]
fn of_other_tables() {
    let folder = Folder::new("ends-others");
    let table = "\
table
start Due(3) := 2147483600
rule 0 START thread 3 length 1..90
  then Due(3) := Due(3) + length
  with End(3) := -2147483640 - length
  with Missed(3) := Missed(3) + 1 if Due(3) = 7
rule 1 REQUEST transition 0
  then Due(3) := Due(3) - -1
rule 2 REQUEST transition 1
";
    let table = folder.pack("table.bin", table);
    let script = "\
script
START thread 3 for 8
START thread 3 for 39
REQUEST transition 0
START thread 3 for 1
REQUEST transition 1
";
    let script = folder.pack("script.bin", script);
    let text = run(&["run", "--words", &table, &script]).good();
    let words = text.lines().map(|line| line[9..].trim_start());
    let wanted = [
        "START thread 3 for 8",
        "START thread 3 for 39, End(3) stops at -2147483648",
        "REQUEST transition 0, Due(3) stops at 2147483647",
        "START thread 3 for 1, Due(3) stops at 2147483647",
        "REQUEST transition 1 ignored",
    ];
    assert_eq!(words.take(5).collect::<Vec<_>>(), wanted);
}

#[test]
fn the_example_of_the_readme() {
    readme_example("### To add up values\n");
}
