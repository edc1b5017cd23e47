//! A refused START: `steps` and `timeline` tell the step of its test that `start` tells,
//! `rules` and `run` a clause of the table's rule.

use crate::start_test::{start, DISPATCHED};
use crate::tools::{bytes_of, example, run, Folder};

/// DISPATCHED, then thread 0 started for so long, then more.
fn running(length: u32, more: &[u8]) -> Vec<u8> {
    [DISPATCHED, &start(0, length), more].concat()
}

/// Why a START is refused in the lesson, behind a script that is taken.
struct Case {
    before: Vec<u8>,
    thread: u8,
    length: u32,
    /// The step that fails, as `start` tells it, and the clause, as `rules` does.
    step: &'static str,
    clause: &'static str,
}

fn case(
    before: &[u8],
    (thread, length): (u8, u32),
    step: &'static str,
    clause: &'static str,
) -> Case {
    Case {
        before: before.to_vec(),
        thread,
        length,
        step,
        clause,
    }
}

/// Step 1: no such thread, another code, and the deadline twice. Where the processor is
/// held beside that, its clause comes first.
fn cases_of_state() -> [Case; 4] {
    let late = "1 state: the deadline of thread 1, clock 10, is now";
    [
        case(
            DISPATCHED,
            (7, 2),
            "1 state: START names thread 7, but there are only threads 0 to 3",
            "there is no thread 7",
        ),
        case(
            &running(2, &[]),
            (0, 2),
            "1 state: thread 0 has code 3, execution, where START wants 2, waiting_execution",
            "it wants State(0) = waiting_execution, but State(0) is execution",
        ),
        case(
            &running(30, &[0x0B, 10, 0]),
            (1, 2),
            late,
            "it wants Cpu = none, but Cpu is 0",
        ),
        case(
            &running(10, &[0x0B, 10, 0, 5, 0]),
            (1, 2),
            late,
            "it wants Due(1) != Now, but Now is 10, Due(1) is 10",
        ),
    ]
}

/// Steps 2 to 4. Thread 1 has an input from thread 0.
fn later_cases() -> [Case; 4] {
    [
        case(
            &running(2, &[]),
            (1, 9),
            "2 processor: thread 0 holds it at clock 0",
            "it wants Cpu = none, but Cpu is 0",
        ),
        case(
            DISPATCHED,
            (1, 9),
            "3 connections: connection 0 waits for thread 0, \
             which was dispatched at the same clock, 0, and is not done",
            "it wants Flag(0) = 0 or State(0) < 2 or State(0) = completed \
             or DispatchTime(0) != DispatchTime(1), but State(0) is waiting_execution, \
             DispatchTime(0) is 0, DispatchTime(1) is 0, Flag(0) is 1",
        ),
        case(
            &[1, 0, 1, 1, 3, 1],
            (1, 9),
            "3 connections: connection 0 waits for thread 0, \
             which is still to be dispatched at this clock, 0",
            "it wants Flag(0) = 0 or Active(0) = 0 or State(0) >= 2 \
             or DispatchTime(1) != Now or Now mod 10 != 0, but Now is 0, Active(0) is 1, \
             State(0) is waiting_dispatch, DispatchTime(1) is 0, Flag(0) is 1",
        ),
        case(
            DISPATCHED,
            (2, 9),
            "4 length: thread 2 may run for 2 to 6, not for 9",
            "its length must be from 2 to 6",
        ),
    ]
}

/// The lesson, its first thread being allowed to run for long, and files for scripts.
struct Lesson {
    folder: Folder,
    model: String,
    names: String,
}

impl Lesson {
    fn new(name: &str) -> Lesson {
        let folder = Folder::new(name);
        Lesson {
            model: folder.edited("lesson/model.bin", "min 1 max 3", "min 1 max 30"),
            names: example("lesson/names.txt"),
            folder,
        }
    }

    /// What `start` says of a case.
    fn start(&self, case: &Case, options: &[&str]) -> String {
        let before = self.folder.write("before.bin", &case.before);
        let asked = [case.thread.to_string(), case.length.to_string()];
        let operands = [&self.model, &before, &asked[0], &asked[1]].map(String::as_str);
        run(&[&["start"], options, &operands].concat()).good()
    }

    /// A file with its START behind its script.
    fn script(&self, case: &Case) -> String {
        let whole = [&case.before[..], &start(case.thread, case.length)].concat();
        self.folder.write("script.bin", &whole)
    }

    /// What a command says about that, line by line.
    fn refused(&self, case: &Case, words: &[&str]) -> Vec<String> {
        let script = self.script(case);
        let said = run(&[words, &[&self.model, &script]].concat()).refused();
        let (start, end) = (case.before.len(), case.before.len() + 6);
        let first = format!("refused 10 {start} {end} {script}\n");
        assert!(said.starts_with(&first), "{said}");
        said.lines().map(str::to_string).collect()
    }
}

/// Words with the names of the lesson's threads in place of their numbers.
fn with_names(words: &str) -> String {
    let names = ["sample", "smooth", "send", "draw"].iter().enumerate();
    names.fold(words.to_string(), |words, (number, name)| {
        words.replace(&format!("thread {number}"), name)
    })
}

#[test]
fn steps_says_what_start_says() {
    let lesson = Lesson::new("refused-starts");
    for case in cases_of_state().into_iter().chain(later_cases()) {
        assert_eq!(lesson.start(&case, &[]), format!("{}\n", case.step));
        let steps = lesson.refused(&case, &["steps"]);
        assert_eq!(steps[2], format!("  START's test fails at {}", case.step));
        let words = ["steps", "--words", "--values", "--limit"];
        assert_eq!(lesson.refused(&case, &words), steps);
        let named = with_names(case.step);
        let names = ["--names", &lesson.names];
        assert_eq!(lesson.start(&case, &names), format!("{named}\n"));
        let steps = lesson.refused(&case, &[&["steps"], &names[..]].concat());
        assert_eq!(steps[2], format!("  START's test fails at {named}"));
    }
}

/// All else that is said is the same.
#[test]
fn rules_says_the_clause() {
    let lesson = Lesson::new("refused-starts-rules");
    let names = ["--names", &lesson.names];
    for case in cases_of_state().into_iter().chain(later_cases()) {
        for options in [&[][..], &names] {
            let said = |command| lesson.refused(&case, &[&[command], options].concat());
            let (mut steps, rules) = (said("steps"), said("rules"));
            assert!(!rules[2].contains("test"), "{rules:?}");
            steps[2].clone_from(&rules[2]);
            assert_eq!(steps, rules);
        }
        let clause = format!("  {}", case.clause);
        assert_eq!(lesson.refused(&case, &["rules"])[2], clause);
    }
}

#[test]
fn run_says_the_clause() {
    let lesson = Lesson::new("refused-starts-run");
    let table = lesson.folder.path("table.bin");
    run(&["table", &lesson.model, &table]).good();
    for case in cases_of_state().into_iter().chain(later_cases()) {
        let said = run(&["run", &table, &lesson.script(&case)]).refused();
        let clause = match case.thread {
            7 => "the table has no rule for this thread",
            _ => case.clause,
        };
        assert_eq!(said.lines().nth(2), Some(&*format!("  {clause}")), "{said}");
    }
}

/// `timeline` explains a refusal as `steps` does; the picture has the first line alone.
#[test]
fn timeline_says_what_steps_says() {
    let lesson = Lesson::new("refused-starts-timeline");
    let out = lesson.folder.path("out.svg");
    for case in cases_of_state().into_iter().chain(later_cases()) {
        let steps = lesson.refused(&case, &["steps"]);
        let script = lesson.script(&case);
        let said = run(&["timeline", &lesson.model, &script, &out]).refused();
        assert_eq!(said.lines().collect::<Vec<_>>(), steps);
        let picture = String::from_utf8(bytes_of(&out)).expect("text");
        assert!(!picture.contains("test fails"), "{picture}");
    }
}

/// Of several STARTs the first that is refused, in the state before it.
#[test]
fn the_first_refused_start() {
    let lesson = Lesson::new("refused-starts-first");
    let behind = [start(2, 9), start(1, 2)].concat();
    let script = lesson.folder.write("script.bin", &running(2, &behind));
    let said = run(&["steps", &lesson.model, &script]).refused();
    let wanted = format!(
        "\
refused 10 22 28 {script}
  step 10: START 2 for 9 refused (10) at clock 0: COMPLETE 0 is due at clock 2
  START's test fails at 2 processor: thread 0 holds it at clock 0
  cause: the event is not enabled, names no item, or START's length lies outside Min and Max
  what to do: do first what is due, or wait until the clock is there
"
    );
    assert_eq!(said, wanted);
}
