//! All orders of events: what is counted, what is found, and what is told.

use std::collections::{BTreeSet, HashSet};
use std::path::Path;

use futonkestrel::{translate_to_vec, Table, Variables};

use crate::promela::{conflicts, events, reached, small_lesson, small_model, table_of, States};
use crate::random::Random;
use crate::stops::changing;
use crate::tools::{bytes_of, example, run, Done, Folder};
use crate::xml::elements;

const REQUEST: u8 = 8;
const TICK: u8 = 11;
const NOW: usize = 0;

fn m() -> String {
    example("m/model.bin")
}

fn lesson() -> String {
    example("lesson/model.bin")
}

/// The line of a report that begins with this.
fn line<'a>(report: &'a str, start: &str) -> &'a str {
    let found = report.lines().find(|line| line.starts_with(start));
    found.unwrap_or_else(|| panic!("no line '{start}': {report}"))
}

/// States, depth, steps and clock that a report tells.
fn figures(report: &str) -> [u64; 4] {
    let told = report.lines().find(|line| line.contains(", depth "));
    let told = told.unwrap_or_else(|| panic!("no figures: {report}"));
    let digits = told.replace(',', "");
    let numbers: Vec<u64> = digits
        .split(' ')
        .filter_map(|word| word.parse().ok())
        .collect();
    numbers.try_into().expect("four figures")
}

fn explore(options: &[&str], file: &str) -> Done {
    let mut done = run(&[&["explore"], options, &[file]].concat());
    // How far it has come is told where it takes long.
    let told = done.err.lines().filter(|line| !is_progress(line));
    done.err = told.map(|line| format!("{line}\n")).collect();
    done
}

fn is_progress(line: &str) -> bool {
    line.starts_with("explore: ") && line.contains(" s, depth ")
}

/// What is told of an exploration that does its work.
fn explored(options: &[&str], file: &str) -> String {
    explore(options, file).good()
}

/// A job of M that takes its Max of 5 misses its Deadline of 4.
const MISS_OF_M: &[u8] = &[1, 0, 3, 0, 4, 0, 5, 0, 0, 0, 11, 4, 0, 7, 0];

#[test]
fn a_miss_is_found_and_replayed() {
    let folder = Folder::new("explore-miss");
    let trail = folder.path("miss.bin");
    let options = ["--until", "missed(0)>0", "--trail", &trail];
    let report = explored(&options, &m());
    let wanted = "\
found: missed(0)>0 holds after 5 events, at clock 4
  ACTIVATE 0, DISPATCH 0, START 0 for 5, TICK 4, MISS 0
9 states, depth 5, 8 steps, clock up to 4
stopped: where the condition holds
";
    assert!(report.starts_with(wanted), "{report}");
    assert_eq!(
        line(&report, "thread 0"),
        "thread 0: a miss is found after 5 events"
    );
    assert_eq!(bytes_of(&trail), MISS_OF_M);
    let listing = run(&["steps", &m(), &trail]).good();
    assert!(listing.ends_with("5 4 7 0\nend 5 0 4\n"), "{listing}");
    let table = folder.write("table.bin", &table_of(&m()));
    assert_eq!(run(&["run", &table, &trail]).good(), listing);
    let picture = elements(&run(&["timeline", &m(), &trail, "-"]).good());
    let misses = picture
        .iter()
        .filter(|one| one.attribute("class") == "in-miss");
    // One is in the legend.
    assert_eq!(misses.count(), 2);
    let of_table = explored(&[&options[..], &["--table"]].concat(), &table);
    assert!(of_table.starts_with(wanted), "{of_table}");
}

/// The lesson's first miss, by name; its trail ends in the miss.
#[test]
fn a_miss_of_the_lesson() {
    let folder = Folder::new("explore-lesson");
    let trail = folder.path("miss.bin");
    let names = example("lesson/names.txt");
    let until = "missed(smooth) > 0 and mode = lesson";
    let options = ["--until", until, "--names", &names, "--trail", &trail];
    let report = explored(&options, &lesson());
    let found = format!("found: {until} holds after 14 events, at clock 10");
    assert_eq!(line(&report, "found"), found);
    assert_eq!(
        line(&report, "smooth"),
        "smooth: a miss is found after 14 events"
    );
    assert_eq!(
        line(&report, "draw"),
        "draw: no miss found within this bound"
    );
    let listing = run(&["steps", "--words", "--names", &names, &lesson(), &trail]).good();
    assert!(listing.contains("14 10 7 1  MISS smooth\n"), "{listing}");
}

/// A machine that knows nothing but the library's steps.
struct Naive<'a> {
    table: Table<'a>,
    others: Vec<Vec<u8>>,
    last: i32,
}

impl Naive<'_> {
    fn after(&self, at: &Variables, event: &[u8]) -> Option<Variables> {
        let mut after = *at;
        self.table.step(&mut after, event).ok().map(|()| after)
    }

    /// Whether an event can be taken, REQUEST and TICK aside.
    fn is_busy(&self, at: &Variables) -> bool {
        let others = self.others.iter().filter(|event| event[0] != REQUEST);
        others
            .into_iter()
            .any(|event| self.after(at, event).is_some())
    }

    /// Whether it is busy, or would be after a REQUEST.
    fn is_busy_if_asked(&self, at: &Variables) -> bool {
        let requests = self.others.iter().filter(|event| event[0] == REQUEST);
        let mut asked = requests.filter_map(|event| self.after(at, event));
        self.is_busy(at) || asked.any(|asked| self.is_busy(&asked))
    }

    /// The state at the next instant that matters.
    fn later(&self, at: &Variables) -> Option<Variables> {
        let tick = |at: &Variables| {
            let may = at[NOW] < self.last;
            may.then(|| self.after(at, &[TICK, 1, 0])).flatten()
        };
        let mut later = tick(at)?;
        while !self.is_busy_if_asked(&later) {
            let Some(next) = tick(&later) else {
                return Some(later);
            };
            later = next;
        }
        Some(later)
    }

    /// The states that it reaches from instant to instant, the start with them.
    fn states(&self) -> HashSet<Variables> {
        let mut seen = HashSet::from([self.table.start()]);
        let mut left = vec![self.table.start()];
        while let Some(at) = left.pop() {
            let others = self
                .others
                .iter()
                .filter_map(|event| self.after(&at, event));
            for after in others.chain(self.later(&at)) {
                if seen.insert(after) {
                    left.push(after);
                }
            }
        }
        seen
    }
}

fn naive(bytes: &[u8], last: i32) -> Naive<'_> {
    let others = events(bytes).into_iter().filter(|event| event[0] != TICK);
    Naive {
        table: Table::read(bytes).expect("it is accepted"),
        others: others.collect(),
        last,
    }
}

/// The states that are reached tick by tick, the start with them.
fn all_reached(table: &[u8], last: i32) -> States {
    let start = Table::read(table).expect("it is accepted").start();
    let mut states = reached(table, last);
    states.insert(start.to_vec());
    states
}

/// Counts of states, tick by tick and from instant to instant, are those that
/// are found without the program; and the instants between are quiet.
fn assert_counted(name: &str, file: &str, is_table: bool, table: &[u8], last: i32) {
    let clock = last.to_string();
    let sort: &[&str] = if is_table { &["--table"] } else { &[] };
    let options = [sort, &["--lengths", "all", "--clock", &clock]].concat();
    let report = |ticks: &str| explored(&[&options[..], &["--tick", ticks]].concat(), file);
    let every = all_reached(table, last);
    let by_one = report("1");
    assert_eq!(figures(&by_one)[0], every.len() as u64, "{name}");
    assert!(line(&by_one, "stopped").contains("every list was tried"));
    let naive = naive(table, last);
    let leaping = naive.states();
    assert_eq!(figures(&report("next"))[0], leaping.len() as u64, "{name}");
    for state in every {
        let state: Variables = state.try_into().expect("all variables");
        let is_kept = leaping.contains(&state);
        assert!(is_kept || !naive.is_busy(&state), "{name}: {state:?}");
    }
}

#[test]
fn states_are_counted() {
    let folder = Folder::new("explore-counts");
    assert_counted("m", &m(), false, &table_of(&m()), 12);
    let lesson = small_lesson(&folder);
    assert_counted("lesson", &lesson, false, &table_of(&lesson), 21);
    let stops = changing(&folder);
    assert_counted("stops", &stops, false, &table_of(&stops), 9);
    let mut random = Random::new(7);
    for number in 0..12 {
        let model = small_model(&mut random);
        let table = translate_to_vec(&model).expect("it is accepted");
        let file = folder.write("model.bin", &model);
        assert_counted(&format!("{number}"), &file, false, &table, 6);
    }
}

/// States of a table from elsewhere, and events that meet.
#[test]
fn tables_from_elsewhere() {
    let folder = Folder::new("explore-conflicts");
    let table = conflicts(&folder);
    let file = folder.write("table.bin", &table);
    let options = ["--table", "--tick", "1", "--lengths", "all", "--clock", "7"];
    let report = explored(&options, &file);
    assert_eq!(figures(&report)[0], all_reached(&table, 7).len() as u64);
    assert!(
        line(&report, "refused").ends_with(" events, where two rules or two updates meet"),
        "{report}"
    );
    let none = explored(&["--depth", "3"], &m());
    assert!(!none.contains("refused"), "{none}");
}

/// Each of these is found in M after so many events, or not.
#[test]
fn conditions() {
    let after = |until: &str| {
        let done = explore(&["--depth", "8", "--until", until], &m());
        let found = done.out.lines().find(|line| line.starts_with("found: "))?;
        assert!(
            found.starts_with(&format!("found: {until} holds ")),
            "{found}"
        );
        let (_, told) = found.split_once(" after ").unwrap_or(("", "0 "));
        told.split(' ')
            .next()
            .and_then(|word| word.parse::<u32>().ok())
    };
    let wanted: &[(&str, Option<u32>)] = &[
        ("state(0)=0", Some(0)),
        ("State(0) = 1", Some(1)),
        ("state(0)==waiting_execution", Some(2)),
        ("state(0)=3 and now=0", Some(3)),
        ("cpu!=none", Some(3)),
        ("cpu ≠ 255", Some(3)),
        ("cpu=0 and not now=0", Some(4)),
        ("end(0)=5", Some(3)),
        ("end(0)=4", None),
        ("due(0)=now and now>0", Some(4)),
        ("4 = now", Some(4)),
        ("now>=4", Some(4)),
        ("now>4", Some(6)),
        ("now<0", None),
        ("now<=-1 or missed(0)=1", Some(5)),
        ("dispatchtime(0)=5", Some(7)),
        ("variable(48)=5", Some(7)),
        ("none enabled", Some(3)),
        ("none enabled and cpu=none", Some(5)),
        ("not (none enabled or state(0)<2)", Some(2)),
        ("state(0)=0 or state(0)=1 and now=9", Some(0)),
        ("(state(0)=0 or state(0)=1) and now=9", None),
        ("stuck", None),
        (
            "active(0)=1 and mode=0 and phase=0 and pending=none and behaviour(0)=0",
            Some(0),
        ),
    ];
    for (until, events) in wanted {
        assert_eq!(after(until), *events, "{until}");
    }
}

/// A table that is stuck: its one rule is enabled and refused.
#[test]
fn stuck() {
    let folder = Folder::new("explore-stuck");
    let text = "\
table
rule 0 START thread 0 length 1..2
  if Now >= 3
  then Local(0) := 1
  with Local(0) := 2
";
    let table = folder.pack("table.bin", text);
    let report = explored(&["--table", "--until", "stuck"], &table);
    assert!(
        report.starts_with("found: stuck holds after 1 event, at clock 3\n  TICK 3\n"),
        "{report}"
    );
}

/// What is wrong with a condition, with the place below it.
#[test]
fn conditions_that_are_none() {
    let names = example("lesson/names.txt");
    let says = |until: &str, fault: &str, mark: usize| {
        let options = ["--names", &names, "--until", until];
        let said = explore(&options, &m()).wrong_call();
        let wanted = format!(
            "futonkestrel: explore: --until: {fault}\n  {until}\n  {}^\n",
            " ".repeat(mark)
        );
        assert!(said.starts_with(&wanted), "{said}");
    };
    let start = "expected a variable, as missed(0), 'none enabled', 'not' or '('";
    says("", start, 0);
    says("missed(0)>0 and", start, 15);
    says(">3", start, 0);
    says("mised(0)>0", "there is no variable 'mised'", 0);
    says("nau=0", "there is no variable 'nau'", 0);
    says("missed>0", "there is no variable 'missed'", 0);
    says("missed(1)>0", "there is no thread 1", 7);
    says("missed(-1)>0", "there is no thread -1", 7);
    says("missed(ü)>0", "no thread has the name 'ü'", 7);
    says("missed()>0", "expected the number or name of a thread", 7);
    says("ü=ü", "there is no variable 'ü'", 0);
    says("missed(0>0", "expected ')'", 8);
    says("missed(0)", "expected a comparison, as = or >=", 9);
    says(
        "missed(0)=>0",
        "expected a number, a name or a variable",
        10,
    );
    says(
        "missed(0)>0 missed(0)>1",
        "expected 'and', 'or' or the end",
        12,
    );
    says(
        "missed(0)>0 && now=1",
        "expected 'and', 'or' or the end",
        12,
    );
    says("(now=0", "expected ')'", 6);
    says("none", "expected 'enabled'", 4);
    says("state(0)=none", "State(sample) has no value 'none'", 9);
    says("now=sample", "Now has no value 'sample'", 4);
    says("cpu=\"sample", "the name in quotes does not end", 4);
    says("now=99999999999", "expected a number of 32 bits", 4);
    says("variable(288)=0", "there is no such variable", 9);
    let deep = format!("{}now=0", "(".repeat(1_000));
    says(&deep, "too many parentheses within each other", 100);
}

/// Names of a file, also of several words.
#[test]
fn conditions_by_name() {
    let folder = Folder::new("explore-names");
    let text = "thread 0 the pen\nmode 0 lesson\n";
    let names = folder.write("names.txt", text.as_bytes());
    let until = "cpu=\"the pen\" and end(\"the pen\")=5 and mode=lesson";
    let report = explored(&["--names", &names, "--until", until], &m());
    assert!(
        report.contains("\n  ACTIVATE the pen, DISPATCH the pen, START the pen for 5\n"),
        "{report}"
    );
    assert_eq!(
        line(&report, "the pen"),
        "the pen: no miss found within this bound"
    );
}

/// A bound that is reached is told, and nothing is said of what lies behind it.
#[test]
fn bounds() {
    let stopped = |options: &[&str]| {
        let report = explored(options, &m());
        (
            figures(&report),
            line(&report, "stopped: ")[9..].to_string(),
        )
    };
    let (told, why) = stopped(&["--depth", "4"]);
    assert_eq!(told, [7, 4, 6, 4]);
    assert_eq!(why, "at depth 4, the bound; longer lists were not tried");
    let report = explored(&["--depth", "4"], &m());
    assert_eq!(
        line(&report, "thread 0"),
        "thread 0: no miss found within this bound"
    );
    let (told, why) = stopped(&["--states", "6"]);
    assert_eq!(told, [6, 4, 6, 1]);
    assert_eq!(
        why,
        "at 6 states, the bound; lists of more than 3 events were not all tried"
    );
    let (told, why) = stopped(&["--clock", "4"]);
    assert_eq!((told[0], told[3]), (11, 4));
    assert_eq!(why, "every list was tried; no new state is left");
    assert_eq!(stopped(&["--depth", "0"]).0, [1, 0, 0, 0]);
    let report = explored(&["--clock", "4", "--tick=1", "--lengths=all"], &m());
    assert_eq!(
        line(&report, "tried"),
        "tried: STARTs of every length; ticks one by one; no tick past clock 4"
    );
    let seconds = report.lines().last().unwrap_or("");
    assert!(
        seconds.contains(" s: ") && seconds.ends_with(" steps a second"),
        "{report}"
    );
}

/// What is not found writes no trail, and what stood there stays.
#[test]
fn not_found() {
    let folder = Folder::new("explore-not-found");
    let trail = folder.write("trail.bin", b"old");
    let options = ["--depth", "4", "--until", "missed(0)>0", "--trail", &trail];
    let done = explore(&options, &m());
    assert_eq!(figures(&done.out), [7, 4, 6, 4]);
    assert!(!done.out.contains("found:"), "{}", done.out);
    let said = "not found: the condition holds in no state within this bound\n";
    assert_eq!(done.refused(), said);
    assert_eq!(bytes_of(&trail), b"old");
    let of_instant = ["--depth", "8", "--until", "now=3"];
    let done = explore(&of_instant, &m()).refused();
    assert!(done.contains("'--tick 1' stops at each"), "{done}");
    let report = explored(&[&of_instant[..], &["--tick", "1"]].concat(), &m());
    assert!(
        report.starts_with("found: now=3 holds after 6 events"),
        "{report}"
    );
}

#[test]
fn a_trail_on_standard_output() {
    let done = run(&["explore", "--until", "now=4", "--trail", "-", &m()]);
    assert_eq!(done.status, 0);
    assert_eq!(done.out.as_bytes(), &MISS_OF_M[..13]);
    assert!(
        done.err.starts_with("found: now=4 holds after 4 events"),
        "{}",
        done.err
    );
    let done = run(&["explore", "--until", "now=0", "--trail", "-", &m()]);
    assert_eq!((done.status, done.out.as_str()), (0, ""));
    assert!(
        done.err.starts_with("found: now=0 holds at the start\n"),
        "{}",
        done.err
    );
}

#[test]
fn wrong_calls() {
    let folder = Folder::new("explore-wrong");
    let model = folder.write("model.bin", &bytes_of(&m()));
    let says = |options: &[&str], text: &str| {
        let said = explore(options, &model).wrong_call();
        assert!(said.contains(text), "{options:?}: {said}");
    };
    says(&["--depth", "x"], "--depth wants a number, not 'x'");
    says(&["--depth", ""], "--depth wants a number, not ''");
    says(&["--depth", "+1"], "--depth wants a number, not '+1'");
    says(
        &["--states", "0"],
        "--states wants a number from 1 to 4000000000, not '0'",
    );
    says(
        &["--clock", "1000000001"],
        "--clock wants a number from 0 to 1000000000",
    );
    says(
        &["--lengths", "some"],
        "--lengths wants ends or all, not 'some'",
    );
    says(&["--tick", "2"], "--tick wants next or 1, not '2'");
    says(&["--trail", "t"], "--trail wants --until");
    says(
        &["--table", "--fold"],
        "--fold is sound for a model and its own table only",
    );
    says(&["--table", "--beside", "t"], "--beside wants a model");
    says(
        &["--fold", "--until", "due(0)=4"],
        "--until asks for Due(0), which --fold does not tell apart",
    );
    says(
        &["--names", "-", "--beside", "-"],
        "only one of the files can be standard input",
    );
    says(
        &["--until", "now=0", "--trail", &model],
        "write to another file",
    );
    let no_folder = folder.path("no/trail.bin");
    explore(&["--until", "now=0", "--trail", &no_folder], &model).no_file();
    assert_eq!(folder.files(), ["model.bin"]);
}

#[test]
fn refused_files() {
    let folder = Folder::new("explore-refused");
    let model = folder.write("model.bin", &[1, 1]);
    let trail = folder.path("trail.bin");
    let options = ["--until", "now=0", "--trail", &trail];
    let said = explore(&options, &model).refused();
    assert!(
        said.starts_with(&format!("refused 1 0 2 {model}\n")),
        "{said}"
    );
    assert!(!Path::new(&trail).exists());
    let table = folder.write("table.bin", &[0x22]);
    let said = explore(&["--table"], &table).refused();
    assert!(
        said.starts_with(&format!("refused 2 0 1 {table}\n")),
        "{said}"
    );
    let said = explore(&["--beside", &table], &m()).refused();
    assert!(
        said.starts_with(&format!("refused 2 0 1 {table}\n")),
        "{said}"
    );
    explore(&[], "no such file").no_file();
}

/// A table that is not the model's is found out, with the list that shows it.
#[test]
fn a_table_with_a_fault() {
    let folder = Folder::new("explore-fault");
    let own = folder.write("own.bin", &table_of(&m()));
    let text = run(&["show", &own]).good();
    let faults = [
        (
            "Due(0) := Now + 4",
            "Due(0) := Now + 3",
            2,
            "Due(0) is 4 in the model, 3 in the table",
        ),
        (
            "State(0) := completed",
            "State(0) := execution",
            5,
            "State(0) is 4 in the model, 3 in the table",
        ),
        (
            "length 1..5",
            "length 1..4",
            2,
            "the model offers START 0 for 1 to 5, the table START 0 for 1 to 4",
        ),
        (
            "Now mod 5 = 0",
            "Now mod 4 = 0",
            5,
            "the model offers nothing more, the table DISPATCH 0",
        ),
    ];
    for (right, wrong, events, how) in faults {
        assert!(text.contains(right), "no '{right}': {text}");
        let table = folder.pack("table.bin", &text.replacen(right, wrong, 1));
        let trail = folder.path("trail.bin");
        let options = ["--depth", "9", "--beside", &table, "--trail", &trail];
        let said = explore(&options, &m()).refused();
        let wanted = format!("{} and {table} part after {events} events: {how}\n", m());
        assert!(said.starts_with(&wanted), "{said}");
    }
    assert_eq!(
        figures(&explored(&["--beside", &own, "--depth", "9"], &m())),
        figures(&explored(&["--depth", "9"], &m()))
    );
}

/// A state as it is told apart when it is folded.
fn folded(state: &Variables, hyperperiod: i32) -> Vec<i32> {
    let mut folded = state.to_vec();
    let now = state[NOW];
    folded[NOW] = now % hyperperiod;
    folded[4] = if state[2] == 2 { state[4] - now } else { 0 };
    for thread in 0..16 {
        let code = state[32 + thread];
        let instants = [(48, code > 1), (64, code > 1), (80, code == 3)];
        for (first, counts) in instants {
            folded[first + thread] = if counts {
                state[first + thread] - now
            } else {
                0
            };
        }
        folded[112 + thread] = 0;
    }
    folded
}

/// Folded states are those of a long time, folded.
#[test]
fn states_are_folded() {
    let folder = Folder::new("explore-fold");
    let mut random = Random::new(11);
    for number in 0..8 {
        let model = small_model(&mut random);
        let table = translate_to_vec(&model).expect("it is accepted");
        let file = folder.write("model.bin", &model);
        let report = explored(&["--fold", "--lengths", "all"], &file);
        assert!(line(&report, "stopped").contains("every list was tried"));
        let (_, told) = line(&report, "tried")
            .split_once("hyperperiod of ")
            .expect("told");
        let hyperperiod: i32 = told
            .split(' ')
            .next()
            .and_then(|word| word.parse().ok())
            .expect("a number");
        let states = naive(&table, 5 * hyperperiod).states();
        let states: BTreeSet<Vec<i32>> = states
            .iter()
            .map(|state| folded(state, hyperperiod))
            .collect();
        assert_eq!(figures(&report)[0], states.len() as u64, "{number}");
    }
}

/// What is found among folded states is as near as among all, and can be replayed.
#[test]
fn folded_trails() {
    let folder = Folder::new("explore-folded-trail");
    let trail = folder.path("trail.bin");
    let until = ["--until", "missed(0)>3", "--trail", &trail];
    let all = explored(&until, &m());
    let folded = explored(&[&until[..], &["--fold"]].concat(), &m());
    assert_eq!(line(&folded, "found"), line(&all, "found"));
    assert!(figures(&folded)[0] < figures(&all)[0]);
    let listing = run(&["steps", &m(), &trail]).good();
    assert!(listing.ends_with("20 19 7 0\nend 20 0 19\n"), "{listing}");
    // All that M can do is over after one hyperperiod.
    let closed = explored(&["--fold"], &m());
    assert_eq!(figures(&closed), [10, 7, 11, 4]);
}
