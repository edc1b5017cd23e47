//! `start`: the first step of START's test that fails, by number and in words.

use std::collections::BTreeSet;

use futonkestrel::{events, Model, State, Variables};

use crate::random::{self, Random};
use crate::tools::{bytes_of, example, readme_example, run, run_with, Folder};

/// ACTIVATE and DISPATCH of all four threads of the lesson.
pub const DISPATCHED: &[u8] = &[1, 0, 1, 1, 1, 2, 1, 3, 3, 0, 3, 1, 3, 2, 3, 3];

pub fn start(thread: u8, length: u32) -> Vec<u8> {
    [&[0x04, thread], &length.to_le_bytes()[..]].concat()
}

fn lesson() -> [String; 3] {
    ["model.bin", "script.bin", "names.txt"].map(|name| example(&format!("lesson/{name}")))
}

/// What is said of a thread and a length in the lesson, after a script without
/// refused events.
fn assert_said(script: &[u8], asked: &str, wanted: &str) {
    let [model, ..] = lesson();
    let (thread, length) = asked.split_once(' ').expect("two numbers");
    let said = run_with(&["start", &model, "-", thread, length], script).good();
    assert_eq!(said, format!("{wanted}\n"), "{asked}");
}

/// Thread 0 runs for 2; and is done.
fn running_and_done() -> [Vec<u8>; 2] {
    let running = [DISPATCHED, &start(0, 2)].concat();
    let done = [&running[..], &[0x0B, 2, 0, 0x05, 0]].concat();
    [running, done]
}

#[test]
fn each_step() {
    let [running, done] = running_and_done();
    let taken = "0 none fails: START of thread 0 for 2 would be taken at clock 0";
    assert_said(DISPATCHED, "0 2", taken);
    let taken = "0 none fails: START of thread 1 for 4 would be taken at clock 2";
    assert_said(&done, "1 004", taken);
    let held = "2 processor: thread 0 holds it at clock 0";
    assert_said(&running, "1 9", held);
    let outside = "4 length: thread 2 may run for 2 to 6, not for 9";
    assert_said(&done, "2 9", outside);
    let outside = "4 length: thread 0 may run for 1 to 3, not for 4294967295";
    assert_said(DISPATCHED, "0 4294967295", outside);
}

/// Thread 1 has an input from thread 0.
#[test]
fn a_connection_that_waits() {
    let waits = "3 connections: connection 0 waits for thread 0, which";
    let same = format!("{waits} was dispatched at the same clock, 0, and is not done");
    assert_said(DISPATCHED, "1 2", &same);
    assert_said(DISPATCHED, "1 0", &same);
    let still = format!("{waits} is still to be dispatched at this clock, 0");
    assert_said(&[1, 0, 1, 1, 3, 1], "1 2", &still);
    assert_said(&[1, 1, 3, 1], "1 2", &still);
}

#[test]
fn what_fails_of_the_state() {
    let said = |script: &[u8], thread: &str, wanted: &str| {
        assert_said(
            script,
            &format!("{thread} 2"),
            &format!("1 state: {wanted}"),
        );
    };
    let wants = "where START wants 2, waiting_execution";
    let code = |code: &str| format!("thread 0 has code {code}, {wants}");
    said(&[], "0", &code("0, waiting_mode"));
    said(&[1, 0], "0", &code("1, waiting_dispatch"));
    let [running, done] = running_and_done();
    said(&running, "0", &code("3, execution"));
    said(&done, "0", &code("4, completed"));
    for thread in ["4", "16", "255", "256", "4294967295"] {
        let wanted = format!("START names thread {thread}, but there are only threads 0 to 3");
        said(DISPATCHED, thread, &wanted);
    }
}

/// Thread 0 is done at its deadline, so that both fail.
#[test]
fn a_code_and_a_deadline() {
    let script = bytes_of(&lesson()[1]);
    let first: Vec<u8> = events(&script).take(20).flatten().copied().collect();
    let wanted = "1 state: \
                  thread 0 has code 4, completed, where START wants 2, waiting_execution; \
                  the deadline of thread 0, clock 10, is now";
    assert_said(&first, "0 2", wanted);
}

/// A deadline that is now comes before the processor, which is held too.
#[test]
fn a_deadline_that_is_now() {
    let folder = Folder::new("start-deadline");
    let model = folder.edited("lesson/model.bin", "min 1 max 3", "min 1 max 30");
    let script = [DISPATCHED, &start(0, 30), &[0x0B, 10, 0]].concat();
    let script = folder.write("script.bin", &script);
    let said = |thread: &str| run(&["start", &model, &script, thread, "2"]).good();
    assert_eq!(
        said("1"),
        "1 state: the deadline of thread 1, clock 10, is now\n"
    );
    assert_eq!(said("2"), "2 processor: thread 0 holds it at clock 10\n");
}

/// Two sources, a connection that is not live, a delayed one, and one from the thread itself.
#[test]
fn several_connections() {
    let folder = Folder::new("start-connections");
    let thread =
        |number: u8| format!("thread {number} period 4 deadline 4 min 2 max 2 modes 0,1\n");
    let ports: String = (0..5).map(|n| format!("input {n} thread 2\n")).collect();
    let text = [
        "model\nhead modes 2 initial 0\n",
        &[0, 1, 2].map(thread).concat(),
        &ports,
        "output 0 thread 0\noutput 1 thread 1\noutput 2 thread 2\n",
        "connection 0 immediate output 0 to input 4 modes 1\n",
        "connection 1 immediate output 0 to input 0 modes 0\n",
        "connection 2 delayed output 1 to input 1 modes 0\n",
        "connection 3 immediate output 1 to input 2 modes 0\n",
        "connection 4 immediate output 2 to input 3 modes 0\n",
    ];
    let model = folder.pack("model.bin", &text.concat());
    let script = folder.write("script.bin", &[1, 0, 1, 1, 1, 2, 3, 2, 3, 0]);
    let wanted = "3 connections: \
                  connection 1 waits for thread 0, which was dispatched at the same clock, 0, and is not done; \
                  connection 3 waits for thread 1, which is still to be dispatched at this clock, 0; \
                  connection 4 waits for thread 2 itself, which was dispatched at the same clock, 0, and is not done\n";
    assert_eq!(run(&["start", &model, &script, "2", "2"]).good(), wanted);
    let names = folder.write(
        "names.txt",
        b"thread 0 a b\nthread 2 me\nconnection 3 wire\n",
    );
    let named = run(&["start", "--names", &names, &model, &script, "me", "2"]).good();
    let with_names = wanted
        .replace("connection 3", "wire")
        .replace("thread 0", "a b")
        .replace("thread 2", "me");
    assert_eq!(named, with_names);
    let length = run(&["start", "--names", &names, &model, &script, "a b", "3"]).good();
    assert_eq!(length, "4 length: a b may run for 2 only, not for 3\n");
}

/// Five connections into thread 2 and two into thread 4.
const JOINED: &str = "\
model
head modes 2 initial 0
thread 0 period 4 deadline 4 min 4 max 4 modes 0
thread 1 period 8 deadline 8 min 1 max 1 modes 0
thread 2 period 4 deadline 4 min 1 max 1 modes 0
thread 3 period 4 deadline 4 min 1 max 1 modes 1
thread 4 period 8 deadline 8 min 1 max 1 modes 0
thread 5 period 8 deadline 4 min 1 max 1 modes 0
thread 6 period 4 deadline 4 min 1 max 1 modes 0
input 0 thread 2
input 1 thread 2
input 2 thread 2
input 3 thread 2
input 4 thread 2
input 5 thread 4
input 6 thread 4
output 0 thread 0
output 1 thread 1
output 2 thread 3
output 3 thread 5
output 4 thread 6
connection 0 immediate output 0 to input 0 modes 0
connection 1 immediate output 1 to input 1 modes 0
connection 2 immediate output 2 to input 2 modes 0
connection 3 immediate output 3 to input 3 modes 0
connection 4 immediate output 4 to input 4 modes 0
connection 5 immediate output 0 to input 5 modes 0
connection 6 immediate output 1 to input 6 modes 0
";

/// Of several live connections those are told that wait, and no others.
#[test]
fn connections_that_do_not_wait() {
    let folder = Folder::new("start-others");
    let model = folder.pack("model.bin", JOINED);
    // All but thread 3, which is not in this mode, begin; thread 0 runs up to clock 4.
    // There it is done, threads 2 and 5 miss, and thread 2 is dispatched again.
    let here = [0, 1, 2, 4, 5, 6];
    let [active, dispatched] = [1, 3].map(|kind| here.map(|thread| [kind, thread]).concat());
    let later = [0x0B, 4, 0, 5, 0, 6, 0, 7, 2, 7, 5, 3, 2];
    let script = [&active, &dispatched, &start(0, 4), &later[..]].concat();
    let script = folder.write("script.bin", &script);
    let said = |thread: &str| run(&["start", &model, &script, thread, "1"]).good();
    // Threads 1 and 6 were dispatched before thread 2, thread 3 is not active, and no
    // period of thread 5 begins.
    let still = "connection 0 waits for thread 0, which is still to be dispatched at this clock, 4";
    assert_eq!(said("2"), format!("3 connections: {still}\n"));
    // Thread 0 is still to be dispatched, but thread 4 was dispatched before this clock.
    let same = "connection 6 waits for thread 1, which was dispatched at the same clock, 0, and is not done";
    assert_eq!(said("4"), format!("3 connections: {same}\n"));
}

/// Models with one thread and with none.
#[test]
fn threads_that_are_not_there() {
    let [m, script] = ["m/model.bin", "m/script.bin"].map(example);
    let said = run(&["start", &m, &script, "1", "1"]).good();
    let wanted = "1 state: START names thread 1, but there is only thread 0\n";
    assert_eq!(said, wanted);
    let said = run_with(&["start", "-", "/dev/null", "0", "1"], &[1, 1, 0]).good();
    assert_eq!(
        said,
        "1 state: START names thread 0, but there is no thread\n"
    );
}

#[test]
fn by_name() {
    let [model, script, names] = lesson();
    let said = |thread: &str| {
        let words = ["start", "--names", &names, &model, &script, thread, "2"];
        run(&words)
    };
    let wanted = "2 processor: sample holds it at clock 62\n";
    assert_eq!(said("smooth").good(), wanted);
    assert_eq!(said("1").good(), wanted);
    let wanted_name = format!(
        "THREAD wants a number from 0 to 4294967295, or a thread's name in {names}, not 'smoth'\n"
    );
    let wrong = said("smoth").wrong_call();
    assert!(wrong.contains(&wanted_name), "{wrong}");
    // A name of something else, and names that are not given.
    said("raw").wrong_call();
    run(&["start", &model, &script, "smooth", "2"]).wrong_call();
    // Names from standard input.
    let words = ["start", "--names", "-", &model, &script, "smooth", "2"];
    assert_eq!(run_with(&words, &bytes_of(&names)).good(), wanted);
    let words = ["start", "--names", "-", &model, "-", "smooth", "2"];
    run_with(&words, &bytes_of(&names)).wrong_call();
}

/// A call that is wrong, and what is said about it.
fn assert_wrong(words: &[&str], wanted: &str) {
    let said = run(&[&["start"], words].concat()).wrong_call();
    assert!(said.contains(wanted), "{words:?}: {said}");
    let usage = "usage: futonkestrel start [OPTION].. MODEL SCRIPT THREAD LENGTH\n";
    assert!(said.contains(usage), "{words:?}: {said}");
}

#[test]
fn wrong_calls() {
    let [model, script, _] = &lesson();
    assert_wrong(&[], "4 arguments wanted, 0 given");
    assert_wrong(&[model, script, "0"], "4 arguments wanted, 3 given");
    let one_more = [model, script, "0", "1", "2"];
    assert_wrong(&one_more, "4 arguments wanted, 5 given");
    assert_wrong(&[model, script, "-1", "1"], "no option '-1'");
    let limited = ["--limit", model, script, "0", "1"];
    assert_wrong(&limited, "no option '--limit'");
    // That is told before any file is read.
    assert_wrong(&["0", "2", model, script], "LENGTH wants a number");
    let nowhere = ["nowhere", "nowhere", "zero", "2"];
    assert_wrong(&nowhere, "THREAD wants a number");
    let said = run(&["start", "-", "-", "0", "1"]).wrong_call();
    assert!(said.contains("only one of the files"), "{said}");
}

#[test]
fn numbers_that_are_none() {
    let [model, script, _] = &lesson();
    let (long, longer) = ("4294967296", "99999999999999999999");
    for word in ["", "-", "+1", "1.5", "0x1", " 1", "one", long, longer] {
        let wanted = format!("wants a number from 0 to 4294967295, not '{word}'");
        assert_wrong(&[model, script, "0", word], &format!("LENGTH {wanted}"));
        assert_wrong(&[model, script, word, "0"], &format!("THREAD {wanted}"));
    }
}

/// A refused model has no number, whatever script it is given.
#[test]
fn refused_models() {
    let folder = Folder::new("start-refused");
    let [model, script, _] = lesson();
    let cut = folder.write("cut.bin", &bytes_of(&model)[..30]);
    let done = run(&["start", &cut, &script, "0", "2"]);
    assert_eq!(done.out, "");
    assert_eq!(done.refused(), run(&["check", &cut]).refused());
    // The two files exchanged.
    let done = run(&["start", &script, &model, "0", "2"]);
    assert_eq!(done.out, "");
    let said = done.refused();
    assert!(said.starts_with("refused 14 0 3 "), "{said}");
    assert!(said.contains("reads as a script; is it one?"), "{said}");
}

/// A state that is not that after all of the script is noted.
#[test]
fn notes() {
    let [model, ..] = lesson();
    let noted = |script: &[u8], wanted: &str| {
        let done = run_with(&["start", &model, "-", "0", "2"], script);
        let taken = "0 none fails: START of thread 0 for 2 would be taken at clock 0\n";
        assert_eq!((done.status, done.out.as_str()), (0, taken), "{script:?}");
        assert_eq!(done.err, wanted, "{script:?}");
    };
    let then = |more: &[u8]| [DISPATCHED, more].concat();
    noted(DISPATCHED, "");
    let one = "\
note: event 9 of -, DISPATCH 0, is refused (10; 'steps' says why) and passed over
";
    noted(&then(&[3, 0]), one);
    let two = "\
note: 2 events of - are refused and passed over, the first of them event 1, COMPLETE 0 (10; 'steps' says why)
";
    noted(&[&[5, 0], &then(&[0x0B, 0, 0])[..]].concat(), two);
    let cut = "\
note: - is read up to byte 16 only: START has 6 bytes, and the script ends after 5
";
    noted(&then(&start(0, 2)[..5]), cut);
    let unknown = "\
note: event 9 of -, DISPATCH 0, is refused (10; 'steps' says why) and passed over
note: - is read up to byte 18 only: no event has the kind 0c
";
    noted(&then(&[&[3, 0, 0x0C], &start(0, 2)[..]].concat()), unknown);
}

/// A model as its bytes say, to look at START without the program.
struct Plain {
    /// Period, Deadline, Min and Max.
    threads: Vec<[i32; 4]>,
    /// Source and target; none for a delayed one.
    connections: Vec<Option<(usize, usize)>>,
}

impl Plain {
    fn of(model: &[u8]) -> Plain {
        let (mut threads, mut connections) = (Vec::new(), Vec::new());
        let (mut inputs, mut outputs) = (Vec::new(), Vec::new());
        let mut rest = model;
        while let Some((kind, behind)) = rest.split_first() {
            let length = random::MODEL.iter().find(|(known, _)| known == kind);
            let (body, others) = behind.split_at(length.expect("a kind").1);
            let figure =
                |at: usize| i32::from_le_bytes([0, 1, 2, 3].map(|byte| body[4 * at + byte]));
            match kind {
                0x02 => threads.push([0, 1, 2, 3].map(figure)),
                0x03 | 0x0B => inputs.push(usize::from(body[0])),
                0x04 => outputs.push(usize::from(body[0])),
                0x06 => {
                    let [output, input] = [1, 2].map(|at| usize::from(body[at]));
                    connections.push((body[0] == 0).then(|| (outputs[output], inputs[input])));
                }
                _ => {}
            }
            rest = others;
        }
        Plain {
            threads,
            connections,
        }
    }

    /// What fails at each of the four steps, in the program's words.
    fn failing(&self, at: &Variables, thread: usize, length: u32) -> [Vec<String>; 4] {
        let Some(&[_, _, min, max]) = self.threads.get(thread) else {
            return [vec![self.not_there(thread)], vec![], vec![], vec![]];
        };
        let (now, cpu) = (at[0], at[5]);
        let held = (cpu != 255).then(|| format!("thread {cpu} holds it at clock {now}"));
        let waits = (0..self.connections.len()).filter_map(|number| self.waits(at, thread, number));
        let is_allowed = i64::from(min) <= length.into() && i64::from(length) <= max.into();
        let allowed = match max - min {
            0 => format!("{min} only"),
            _ => format!("{min} to {max}"),
        };
        let outside = format!("thread {thread} may run for {allowed}, not for {length}");
        let outside = (!is_allowed).then_some(outside);
        [
            of_state(at, thread),
            held.into_iter().collect(),
            waits.collect(),
            outside.into_iter().collect(),
        ]
    }

    fn not_there(&self, thread: usize) -> String {
        let there = match self.threads.len() {
            1 => "is only thread 0".to_string(),
            count => format!("are only threads 0 to {}", count - 1),
        };
        format!("START names thread {thread}, but there {there}")
    }

    fn waits(&self, at: &Variables, thread: usize, number: usize) -> Option<String> {
        let (source, _) = self.connections[number]
            .filter(|(_, target)| *target == thread && at[128 + number] == 1)?;
        let [period, ..] = self.threads[source];
        let (now, code) = (at[0], at[32 + source]);
        let [theirs, own] = [source, thread].map(|one| at[48 + one]);
        let why = match code {
            2 | 3 if theirs == own => {
                format!("which was dispatched at the same clock, {own}, and is not done")
            }
            0 | 1 if own == now && at[16 + source] == 1 && now % period == 0 => {
                format!("which is still to be dispatched at this clock, {now}")
            }
            _ => return None,
        };
        let itself = if source == thread { " itself" } else { "" };
        Some(format!(
            "connection {number} waits for thread {source}{itself}, {why}"
        ))
    }

    /// Lengths around Min and Max.
    fn lengths(&self, thread: usize) -> BTreeSet<u32> {
        let [.., min, max] = self.threads.get(thread).copied().unwrap_or([0, 0, 1, 1]);
        BTreeSet::from([min - 1, min, max, max + 1].map(|length| length as u32))
    }
}

fn of_state(at: &Variables, thread: usize) -> Vec<String> {
    let (now, code, due) = (at[0], at[32 + thread], at[64 + thread]);
    let word = match code {
        0 => "waiting_mode",
        1 => "waiting_dispatch",
        3 => "execution",
        _ => "completed",
    };
    let other =
        format!("thread {thread} has code {code}, {word}, where START wants 2, waiting_execution");
    let late = format!("the deadline of thread {thread}, clock {now}, is now");
    let causes = [
        (code != 2).then_some(other),
        (code >= 2 && due == now).then_some(late),
    ];
    causes.into_iter().flatten().collect()
}

/// Threads whose periods begin together, in two modes, joined in many ways.
fn joined_model(random: &mut Random) -> Vec<u8> {
    let threads = 2 + random.below(3);
    let mut model = vec![0x01, 2, 0];
    for _ in 0..threads {
        let period = [2, 4, 4, 8][random.below(4)];
        let deadline = 1 + random.below(period as usize) as u32;
        let min = 1 + random.below(2) as u32;
        let max = min + random.below(5) as u32;
        let figures = [period, deadline, min, max].map(u32::to_le_bytes).concat();
        let mask = [1, 2, 3, 3][random.below(4)];
        model.extend([&[0x02], &figures[..], &[mask, random.below(2) as u8, 0]].concat());
    }
    let ports = 1 + random.below(6);
    for kind in [0x03, 0x04] {
        for _ in 0..ports {
            model.extend([kind, random.below(threads) as u8]);
        }
    }
    for input in 0..ports {
        let is_delayed = u8::from(random.below(4) == 0);
        let mask = [1, 2, 3, 3][random.below(4)];
        model.extend([
            0x06,
            is_delayed,
            random.below(ports) as u8,
            input as u8,
            mask,
        ]);
    }
    model.extend([0x07, 0, 1, 0x07, 1, 0]);
    model
}

/// Some events that are taken, now and then one that is not; the state left, and
/// whether an event was refused.
fn wandering(model: &Model, random: &mut Random, many: usize) -> (Vec<u8>, State, bool) {
    let (mut state, mut script, mut refused) = (model.start(), Vec::new(), false);
    for _ in 0..many {
        let enabled = model.enabled(&state);
        let mut offered: Vec<Vec<u8>> = Vec::new();
        for offer in enabled.events {
            let lengths = (offer.high - offer.low) as usize + 1;
            offered.push(offer.event(offer.low + random.below(lengths) as u32));
        }
        if enabled.tick {
            offered.extend([vec![0x0B, 1, 0], vec![0x0B, 1, 0]]);
        }
        let kind = [1, 2, 3, 5, 6, 7, 8, 9, 10][random.below(9)];
        let event = match random.below(40) {
            0 => vec![kind, random.below(5) as u8],
            _ => offered.swap_remove(random.below(offered.len())),
        };
        refused |= model.step(&mut state, &event).is_err();
        script.extend(event);
    }
    (script, state, refused)
}

/// Files of a model and a script, and whether an event of the script is refused.
struct Case {
    model: String,
    script: String,
    refused: bool,
}

impl Case {
    /// The number that is printed, which is that of the first step with something that
    /// fails, and the line with it; the words tell all of that and nothing else.
    fn assert_words(
        &self,
        failing: &[Vec<String>; 4],
        thread: usize,
        length: u32,
    ) -> (usize, String) {
        let (id, figure) = (thread.to_string(), length.to_string());
        let done = run(&["start", &self.model, &self.script, &id, &figure]);
        assert_eq!(done.status, 0, "{done:?}");
        assert_eq!(done.err.starts_with("note: "), self.refused, "{done:?}");
        let first = failing.iter().position(|causes| !causes.is_empty());
        let number = first.map_or(0, |at| at + 1);
        let words = ["none fails", "state", "processor", "connections", "length"];
        let told = format!("{number} {}: ", words[number]);
        let line = done.out.strip_prefix(&told);
        let line = line.unwrap_or_else(|| panic!("{told}{done:?}"));
        match first {
            Some(at) => assert_eq!(line, format!("{}\n", failing[at].join("; "))),
            None => assert!(line.starts_with(&format!("START of thread {thread} for {length} "))),
        }
        (number, done.out)
    }

    /// START behind the script is taken by `trace`, and by `steps`, exactly at 0. Where it
    /// is the first to be refused, `steps` says the same about it.
    fn assert_taken(&self, folder: &Folder, event: &[u8], (number, line): (usize, &str)) {
        let longer = [&bytes_of(&self.script)[..], event].concat();
        let longer = folder.write("longer.bin", &longer);
        let trace = run(&["trace", &self.model, &longer]).good();
        let last = trace.lines().rev().nth(1).unwrap_or("");
        let answer = if number == 0 { "0 " } else { "10 " };
        assert!(last.starts_with(answer), "{last}");
        let steps = run(&["steps", &self.model, &longer]);
        let all_taken = number == 0 && !self.refused;
        assert_eq!(steps.status == 0, all_taken, "{steps:?}");
        let same = steps
            .err
            .contains(&format!("\n  START's test fails at {line}"));
        assert!(all_taken || self.refused || same, "{line}{steps:?}");
    }
}

/// After random scripts, on the examples and on random models.
#[test]
fn words_and_numbers() {
    let folder = Folder::new("start-random");
    let mut random = Random::new(44);
    let examples = ["lesson", "m"].map(|name| bytes_of(&example(&format!("{name}/model.bin"))));
    let mut seen = [0; 5];
    for number in 0..45 {
        let bytes = match number {
            0..8 => examples[number % 2].clone(),
            _ => joined_model(&mut random),
        };
        let (model, plain) = (Model::read(&bytes).expect("accepted"), Plain::of(&bytes));
        let many = random.below(50);
        let (script, state, refused) = wandering(&model, &mut random, many);
        let variables = model.variables(&state);
        let case = Case {
            model: folder.write("model.bin", &bytes),
            script: folder.write("script.bin", &script),
            refused,
        };
        for thread in 0..=plain.threads.len() {
            for length in plain.lengths(thread) {
                let failing = plain.failing(&variables, thread, length);
                let (number, line) = case.assert_words(&failing, thread, length);
                case.assert_taken(&folder, &start(thread as u8, length), (number, &line));
                seen[number] += 1;
            }
        }
    }
    assert!(seen.iter().all(|&times| times > 9), "{seen:?}");
}

/// The examples that README has of it.
#[test]
fn examples_in_readme() {
    let said = readme_example("### To teach START");
    let numbers: BTreeSet<&str> = said.lines().map(|answer| &answer[..1]).collect();
    assert_eq!(numbers, BTreeSet::from(["0", "1", "2", "3", "4"]));
}
