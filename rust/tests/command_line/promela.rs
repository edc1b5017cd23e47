//! Tables as Promela models: SPIN reaches the very states that the library does.

use std::collections::{BTreeSet, HashSet};
use std::fs;
use std::path::Path;
use std::process::Command;
use std::thread;

use futonkestrel::{translate_to_vec, Table, Variables};

use crate::random::Random;
use crate::stops::changing;
use crate::tools::{bytes_of, example, run, Folder};

const START: u8 = 4;
const RULE: u8 = 0x21;
const NOW: usize = 0;

/// A state by its variables.
pub type States = BTreeSet<Vec<i32>>;

/// All states that the library reaches up to a clock, the start aside.
pub fn reached(bytes: &[u8], last: i32) -> States {
    let table = Table::read(bytes).expect("it is accepted");
    let events = events(bytes);
    let mut seen = HashSet::new();
    let mut found = States::new();
    let mut left = vec![table.start()];
    while let Some(variables) = left.pop() {
        for event in &events {
            let mut after: Variables = variables;
            let past_last = event[0] == 11 && variables[NOW] >= last;
            if !past_last && table.step(&mut after, event).is_ok() && seen.insert(after) {
                found.insert(after.to_vec());
                left.push(after);
            }
        }
    }
    found
}

/// Each event that a table has a rule for, with all lengths, and TICK 1.
pub fn events(table: &[u8]) -> BTreeSet<Vec<u8>> {
    let mut events = BTreeSet::from([vec![11, 1, 0]]);
    let mut rest = table;
    while let [kind, body @ ..] = rest {
        let length = match kind {
            0x20 => 6,
            0x21 => 10,
            0x22 => 0,
            0x23 => 8,
            _ => 16,
        };
        let figure =
            |at: usize| u32::from_le_bytes([body[at], body[at + 1], body[at + 2], body[at + 3]]);
        match (*kind, body.first()) {
            (RULE, Some(&START)) => events.extend(
                (figure(2)..=figure(6))
                    .map(|length| [&[START, body[1]], &length.to_le_bytes()[..]].concat()),
            ),
            (RULE, Some(event)) => drop(events.insert(vec![*event, body[1]])),
            _ => {}
        }
        rest = &body[length..];
    }
    events
}

/// All states that SPIN prints, in a folder of its own.
fn checked(folder: &Folder, name: &str, table: &[u8], last: i32) -> States {
    let last = format!("-DLAST={last}");
    let (said, _) = spin(folder, name, table, &[&last, "-DSHOW"]);
    assert!(said.contains("errors: 0"), "{name}: {said}");
    said.lines().filter_map(state).collect()
}

/// What the checker says of a table, and where it left its files.
fn spin(folder: &Folder, name: &str, table: &[u8], options: &[&str]) -> (String, String) {
    let place = folder.path(name);
    fs::create_dir_all(&place).expect("a folder");
    let file = |name: &str| format!("{place}/{name}");
    fs::write(file("table.bin"), table).expect("written");
    run(&["promela", &file("table.bin"), &file("table.pml")]).good();
    done(
        &place,
        "spin",
        &[&["-o2", "-a"], options, &["table.pml"]].concat(),
    );
    // A sum that left 32 bits would end the checker.
    let flags = ["-O0", "-ftrapv", "-w", "-DSAFETY", "-DPRINTF", "-DNOREDUCE"];
    done(
        &place,
        "cc",
        &[&flags[..], &["-o", "pan", "pan.c"]].concat(),
    );
    let said = done(&place, &file("pan"), &["-m1000000", "-w18"]);
    assert!(!said.contains("max search depth too small"), "{name}");
    (said, place)
}

/// What a program prints.
fn done(place: &str, program: &str, words: &[&str]) -> String {
    let output = Command::new(program)
        .args(words)
        .current_dir(place)
        .output();
    let output = output.unwrap_or_else(|error| panic!("{program}: {error}"));
    let said = String::from_utf8_lossy(&output.stdout).into_owned();
    let complaint = String::from_utf8_lossy(&output.stderr).into_owned();
    assert!(output.status.success(), "{place}: {said}{complaint}");
    said
}

/// A line `state 0=1 5=255`; variables that it does not name are 0.
fn state(line: &str) -> Option<Vec<i32>> {
    let mut variables = vec![0; futonkestrel::VARIABLES];
    for value in line.trim().strip_prefix("state ")?.split(' ') {
        let (variable, value) = value.split_once('=')?;
        variables[variable.parse::<usize>().ok()?] = value.parse().ok()?;
    }
    Some(variables)
}

/// A miss of M is found; its trail is a script, which the model takes.
#[test]
fn a_trail_is_replayed() {
    if !has_spin() {
        return;
    }
    let folder = Folder::new("promela-trail");
    let model = example("m/model.bin");
    let options = ["-DLAST=12", "-DENDS", "-DCHECK=Missed_0==0"];
    let (said, place) = spin(&folder, "m", &table_of(&model), &options);
    assert!(said.contains("errors: 1"), "{said}");
    let trail = done(
        &place,
        "spin",
        &[&["-t"], &options[..], &["table.pml"]].concat(),
    );
    let events = trail
        .lines()
        .filter_map(|line| line.trim().strip_prefix("event: "));
    let script: Vec<&str> = ["script"].into_iter().chain(events).collect();
    let out = folder.pack("trail.bin", &script.join("\n"));
    let listing = run(&["steps", &model, &out]).good();
    let last: Vec<&str> = listing.lines().rev().take(2).collect();
    assert!(last[1].ends_with(" 7 0"), "{listing}");
}

/// Whether there is a SPIN; where there is none, it is said.
fn has_spin() -> bool {
    let found = Command::new("spin").arg("-V").output().is_ok();
    if !found {
        eprintln!("passed over: spin is not there");
    }
    found
}

fn assert_same(folder: &Folder, name: &str, table: &[u8], last: i32) {
    let (ours, theirs) = (reached(table, last), checked(folder, name, table, last));
    assert!(ours.len() > 1, "{name}");
    assert!(
        ours == theirs,
        "{name}: {} and {} states",
        ours.len(),
        theirs.len()
    );
}

pub fn table_of(file: &str) -> Vec<u8> {
    translate_to_vec(&bytes_of(file)).expect("it is accepted")
}

#[test]
fn spin_reaches_the_same_states() {
    if !has_spin() {
        return;
    }
    let folder = Folder::new("promela");
    assert_same(&folder, "m", &table_of(&example("m/model.bin")), 12);
    let model = small_lesson(&folder);
    assert_same(&folder, "lesson", &table_of(&model), 21);
    assert_same(&folder, "stops", &table_of(&changing(&folder)), 9);
    assert_same(&folder, "conflicts", &conflicts(&folder), 7);
    assert_same(&folder, "sums", &sums(&folder), 1);
}

/// The lesson with two threads, each of one length.
pub fn small_lesson(folder: &Folder) -> String {
    let text = run(&["show", &example("lesson/model.bin")]).good();
    let small = text
        .replace("min 1 max 3", "min 1 max 1")
        .replace("min 1 max 4", "min 1 max 1")
        .replace("min 2 max 6 modes 0,1", "min 2 max 2 modes none")
        .replace("min 1 max 5 modes 0", "min 1 max 1 modes none");
    folder.pack("lesson.bin", &small)
}

const MOST: i32 = i32::MAX;
const LEAST: i32 = i32::MIN;
/// The first local among the variables.
const LOCAL: usize = 256;

/// Sums and differences at both ends, where Local(0) has 2147483646 and Local(1) the least
/// value: just within, past them by one, and by far.
const SUMS: &[(&str, i32)] = &[
    ("Local(0) + 1", MOST),
    ("Local(0) + 2", MOST),
    ("2147483647 + Local(0)", MOST),
    ("Local(0) + Local(0)", MOST),
    ("Local(0) - -1", MOST),
    ("Local(0) - -2", MOST),
    ("Local(0) - Local(1)", MOST),
    ("-1 - Local(1)", MOST),
    ("0 - Local(1)", MOST),
    ("0 - -2147483648", MOST),
    ("Local(1) - 0", LEAST),
    ("Local(1) - 1", LEAST),
    ("Local(1) + -1", LEAST),
    ("Local(1) + -2147483648", LEAST),
    ("Local(1) + Local(1)", LEAST),
    ("-2 - Local(0)", LEAST),
    ("-3 - Local(0)", LEAST),
    ("Local(1) - Local(0) if Phase = 0", LEAST),
    ("Local(0) + Local(1)", -2),
    ("Local(1) - Local(1)", 0),
];

/// A table that works them out by REQUEST 1, from the third local on. REQUEST 0 counts on to
/// the end, and stays there.
fn sums(folder: &Folder) -> Vec<u8> {
    let mut text = "\
table
start Local(0) := 2147483646
start Local(1) := -2147483648
rule 0 REQUEST transition 0
  if Local(0) > 0
  then Local(0) := Local(0) + 1
rule 1 START thread 0 length 1..3
  if Now = 1
  then Local(30) := Local(0) + length
  with Local(31) := Local(1) - length
rule 2 REQUEST transition 1
  then Phase := 0
"
    .to_string();
    for (number, (sum, _)) in SUMS.iter().enumerate() {
        text += &format!("  with Local({}) := {sum}\n", number + 2);
    }
    bytes_of(&folder.pack("sums.bin", &text))
}

#[test]
fn sums_stop_at_the_ends() {
    let table = sums(&Folder::new("promela-sums"));
    let table = Table::read(&table).expect("it is accepted");
    let mut variables = table.start();
    table.step(&mut variables, &[8, 1]).expect("it is taken");
    for (value, (sum, wanted)) in variables[LOCAL + 2..].iter().zip(SUMS) {
        assert_eq!(value, wanted, "{sum}");
    }
}

/// Rules that meet, updates that meet, values exchanged. REQUESTs do not stop ticks.
pub fn conflicts(folder: &Folder) -> Vec<u8> {
    let text = "\
table
start Local(0) := 2147483646
start Local(1) := -2147483648
rule 0 REQUEST transition 0
  if Local(0) != 0
  and Now >= 1
  and Now <= 3
  and Local(5) = 0
  then Local(0) := Local(0) + 1
  with Local(5) := Now
rule 1 REQUEST transition 0
  if Now = 2
rule 2 REQUEST transition 1
  if Now < 2
  then Local(1) := Local(0)
  with Local(0) := Local(1)
rule 3 REQUEST transition 2
  if Now mod 2 != 0
  and Local(2) < 4
  then Local(2) := Local(2) + Now
  with Local(2) := 7 if Local(3) = 0
  with Local(6) := 1 if Local(3) = 255
  with Local(6) := 2 if Local(2) = 1
rule 4 REQUEST transition 3
  if Local(3) < 2
  and Now > 2
  then Local(3) := Local(3) + 1
rule 5 START thread 0 length 2..4
  if Local(4) = 0
  and Now > 2
  then Local(4) := Now - length
";
    // A last rule with an empty clause: it never holds.
    let never = vec![RULE, 7, 1, 0, 0, 0, 0, 0, 0, 0, 0, 0x22];
    [bytes_of(&folder.pack("conflicts.bin", text)), never].concat()
}

/// A small model: few threads of short periods, all kinds of records.
pub fn small_model(random: &mut Random) -> Vec<u8> {
    let threads = 1 + random.below(2) as u8;
    let modes = 1 + random.below(2) as u8;
    let mut model = vec![1, modes, 0];
    for _ in 0..threads {
        let period = 2 + random.below(3) as u32;
        let deadline = 1 + random.below(period as usize) as u32;
        let least = 1 + random.below(2) as u32;
        let most = least + random.below(2) as u32;
        let figures = [period, deadline, least, most]
            .map(u32::to_le_bytes)
            .concat();
        let mask = random.below(1 << modes) as u8;
        let critical = random.below(2) as u8;
        model.extend([&[2], &figures[..], &[mask, critical, 0]].concat());
    }
    let thread = |random: &mut Random| random.below(threads.into()) as u8;
    let [receiver, sender] = [thread(random), thread(random)];
    // The port of a model with two modes has a start value, -2.
    match modes {
        1 => model.extend([0x03, receiver]),
        _ => model.extend([0x0B, receiver, 0xFE, 0xFF, 0xFF, 0xFF]),
    }
    model.extend([4, sender]);
    model.extend([5, sender, random.below(3) as u8, 0, 0, 0]);
    model.extend([6, random.below(2) as u8, 0, 0, (1 << modes) - 1]);
    if modes == 2 {
        model.extend([7, 0, 1]);
    }
    let op = random.below(6) as u8;
    model.extend([8, sender, 0, 0, 9, op, 2, 0, 0, 1, 0, 0, 0]);
    model.extend([10, 3, 0, 1, 2, 0, 0, 0, 0, 0, 1, 0, 0, 0]);
    model.extend([10, 2, 0, 2, 0, 2, 0, 0, 0, 2, 0, 0, 0, 0]);
    model
}

#[test]
fn spin_reaches_the_same_states_of_random_models() {
    if !has_spin() {
        return;
    }
    let folder = Folder::new("promela-random");
    let mut random = Random::new(18);
    let tables: Vec<Vec<u8>> = (0..50)
        .map(|_| translate_to_vec(&small_model(&mut random)).expect("it is accepted"))
        .collect();
    let folder = &folder;
    thread::scope(|scope| {
        for half in tables.chunks(tables.len() / 2) {
            let first = half.as_ptr() as usize - tables.as_ptr() as usize;
            let first = first / size_of::<Vec<u8>>();
            scope.spawn(move || {
                for (number, table) in half.iter().enumerate() {
                    assert_same(folder, &format!("{}", first + number), table, 5);
                }
            });
        }
    });
}

#[test]
fn a_refused_table_has_no_model() {
    let folder = Folder::new("promela-refused");
    let table = folder.write("table.bin", &[0x22]);
    let out = folder.path("out.pml");
    let said = run(&["promela", &table, &out]).refused();
    assert!(
        said.starts_with(&format!("refused 2 0 1 {table}\n")),
        "{said}"
    );
    assert!(!Path::new(&out).exists());
}

/// What can be seen from the guards alone is not asked again.
#[test]
fn made_tables_have_no_rules_that_meet() {
    let folder = Folder::new("promela-made");
    let table = folder.write("table.bin", &table_of(&example("lesson/model.bin")));
    let text = run(&["promela", &table, "-"]).good();
    let options = text
        .lines()
        .filter(|line| line.contains(":: d_step { HOLDS_"));
    assert!(options.clone().count() > 20);
    for option in options {
        assert_eq!(option.matches("HOLDS_").count(), 1, "{option}");
    }
    assert!(text.contains("#define HOLDS_19 ((State_1 == 2) && (Cpu == 255) && (Due_1 != Now) && ((Flag_0 == 0) || "), "{text}");
}
