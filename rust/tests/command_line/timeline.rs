//! Pictures of runs: well formed, without a script, and with the listing's own
//! numbers.

use futonkestrel::{translate_to_vec, Table};

use crate::tools::{bytes_of, example, run, run_with, Folder};
use crate::xml::{elements, Element};

fn lesson() -> [String; 3] {
    ["model.bin", "script.bin", "names.txt"].map(|name| example(&format!("lesson/{name}")))
}

/// Started for 5 with a deadline of 4; then a job in time, then another miss.
const MISSES: &[u8] = &[
    1, 0, 3, 0, 4, 0, 5, 0, 0, 0, 11, 4, 0, 7, 0, 11, 1, 0, //
    3, 0, 4, 0, 2, 0, 0, 0, 11, 2, 0, 5, 0, 11, 2, 0, 6, 0, 11, 1, 0, //
    3, 0, 4, 0, 5, 0, 0, 0, 11, 4, 0, 7, 0,
];

/// The picture of a run that takes all events.
pub fn picture(model: &str, script: &str, options: &[&str]) -> Vec<Element> {
    let words = [&["timeline"], options, &[model, script, "-"]].concat();
    elements(&run(&words).good())
}

/// The texts of a class.
pub fn texts(elements: &[Element], class: &str) -> Vec<String> {
    let of_class = elements
        .iter()
        .filter(|one| one.name == "text" && one.attribute("class").split(' ').any(|c| c == class));
    of_class.map(|one| one.text.clone()).collect()
}

/// The numbers over the columns; the legend's is a sample.
fn numbers(elements: &[Element]) -> Vec<String> {
    let all = texts(elements, "number");
    let samples = texts(elements, "sample").len();
    all[samples..].to_vec()
}

/// Step and clock after it, as a browser tells them for each column.
fn steps(elements: &[Element]) -> Vec<String> {
    let titles = elements.iter().filter(|one| one.name == "title");
    let told = titles.filter_map(|title| {
        let step = title.text.strip_prefix("step ")?;
        let (number, rest) = step.split_once(", clock ")?;
        Some(format!("{number} {}", rest.split_once(':')?.0))
    });
    told.collect()
}

/// The same of a listing.
fn listed(listing: &str) -> Vec<String> {
    let lines = listing.lines().filter(|line| !line.starts_with("end"));
    let figures = |line: &str| line.split(' ').take(2).collect::<Vec<_>>().join(" ");
    lines.map(figures).collect()
}

fn assert_listed(model: &str, script: &str) {
    let drawn = picture(model, script, &[]);
    let wanted = listed(&run(&["steps", model, script]).good());
    assert_eq!(steps(&drawn), wanted);
    let of_line = |line: &String| line.split(' ').next().unwrap_or("").to_string();
    let wanted: Vec<String> = wanted.iter().map(of_line).collect();
    assert_eq!(numbers(&drawn), wanted);
}

#[test]
fn steps_have_the_numbers_of_the_listing() {
    let folder = Folder::new("timeline-numbers");
    let [model, script, _] = lesson();
    assert_listed(&model, &script);
    let misses = folder.write("misses.bin", MISSES);
    assert_listed(&example("m/model.bin"), &misses);
    let (model, script) = sixteen_threads(&folder);
    assert_listed(&model, &script);
}

/// README shows it.
#[test]
fn the_picture_of_the_lesson() {
    let [model, script, names] = lesson();
    let kept = String::from_utf8(bytes_of(&example("lesson/timeline.svg"))).expect("text");
    let made = run(&["timeline", "--names", &names, &model, &script, "-"]).good();
    assert!(
        made == kept,
        "make it anew: futonkestrel timeline --names {names} {model} {script} OUT.svg"
    );
}

/// Lanes with their names, modes and phases, the processor, values and the clock.
#[test]
fn what_the_lesson_shows() {
    let [model, script, names] = lesson();
    let drawn = picture(&model, &script, &["--names", &names]);
    let lanes = texts(&drawn, "name");
    let wanted = [
        "step",
        "mode",
        "sample",
        "smooth",
        "send",
        "draw",
        "processor",
        "clock",
    ];
    assert_eq!(lanes[..wanted.len()], wanted);
    let band = texts(&drawn, "in-band");
    for words in [
        "lesson",
        "exam?",
        "changing from lesson to exam",
        "exam",
        "exam; lesson asked for",
    ] {
        assert!(band.iter().any(|said| said == words), "{words}: {band:?}");
    }
    let held = texts(&drawn, "in-holds");
    assert_eq!(held[..4], ["sample", "smooth", "send", "draw"]);
    let carried: Vec<&str> = drawn
        .iter()
        .filter(|one| one.name == "title" && one.text.contains("immediate"))
        .map(|one| one.text.as_str())
        .collect();
    assert_eq!(carried[0], "sample to smooth, raw to raw, immediate: 3");
    assert_eq!(carried[1], "sample to smooth, raw to raw, immediate: 6");
    let clock = texts(&drawn, "clock");
    assert_eq!(clock[..5], ["0", "2", "5", "9", "10"]);
    assert_eq!(clock.last().map(String::as_str), Some("62"));
}

/// What colours tell, patterns and letters tell too.
#[test]
fn in_black_and_white() {
    let folder = Folder::new("timeline-letters");
    let misses = folder.write("misses.bin", MISSES);
    let drawn = picture(&example("m/model.bin"), &misses, &[]);
    // The legend has one of each.
    assert_eq!(texts(&drawn, "in-runs")[1..], ["runs", "runs", "runs"]);
    assert_eq!(texts(&drawn, "in-waits")[1..], ["w", "w", "w"]);
    assert_eq!(texts(&drawn, "in-done")[1..], ["done"]);
    assert_eq!(texts(&drawn, "in-miss")[1..], ["MISS", "MISS"]);
    let bad = texts(&drawn, "bad");
    assert_eq!(bad[0], "2 deadlines are missed: steps 5, 17.");
    assert_eq!(bad[1..], ["5", "MISS", "17", "MISS"]);
    let patterns = drawn.iter().filter(|one| one.name == "pattern");
    assert_eq!(patterns.count(), 4);
}

/// Nothing that runs, and nothing from elsewhere.
#[test]
fn no_script() {
    let [model, script, names] = lesson();
    for one in picture(&model, &script, &["--names", &names]) {
        let known = [
            "svg", "title", "style", "defs", "pattern", "rect", "path", "circle", "line", "g",
            "text",
        ];
        assert!(known.contains(&one.name.as_str()), "{one:?}");
        for (name, value) in &one.attributes {
            assert!(!name.starts_with("on") && !name.contains("href"), "{one:?}");
            assert!(!value.contains("//") || name == "xmlns", "{one:?}");
        }
        assert!(one.name != "style" || !one.text.contains("@import"));
    }
}

#[test]
fn from_and_to() {
    let [model, script, _] = lesson();
    let of = |options: &[&str]| {
        let drawn = steps(&picture(&model, &script, options));
        let ends = [drawn.first(), drawn.last()].map(|end| end.cloned().unwrap_or_default());
        (drawn.len(), ends)
    };
    let ends = |first: &str, last: &str| [first.to_string(), last.to_string()];
    assert_eq!(of(&["--from", "12"]), (90, ends("12 2", "101 62")));
    assert_eq!(of(&["--to=step:12"]), (12, ends("1 0", "12 2")));
    // All that happens at a clock, but no tick that leads there or away.
    let at_ten = ["--from", "clock:10", "--to", "clock:10"];
    assert_eq!(of(&at_ten), (7, ends("21 10", "27 10")));
    // A tick that the clock lies within.
    assert_eq!(
        of(&["--from", "clock:4", "--to", "14"]),
        (2, ends("13 5", "14 5"))
    );
    assert_eq!(
        of(&["--from", "96", "--to", "1000"]),
        (6, ends("96 60", "101 62"))
    );
}

#[test]
fn ends_that_are_none() {
    let [model, script, _] = lesson();
    let says = |options: &[&str], text: &str| {
        let words = [&["timeline"], options, &[&model, &script, "-"]].concat();
        let said = run(&words).wrong_call();
        assert!(said.contains(text), "{said}");
    };
    says(&["--from", "102"], "steps 1 to 101 and ends at clock 62");
    says(&["--from", "9", "--to", "8"], "no step lies between");
    for wrong in ["", "x", "-1", "clock:", "clock:x", "time:3", "+3"] {
        says(
            &["--to", wrong],
            "--to wants a step as 41, or a clock as clock:20",
        );
    }
}

#[test]
fn refused_files() {
    let folder = Folder::new("timeline-refused");
    let [_, script, _] = lesson();
    let model = folder.write("model.bin", &[1, 1]);
    let out = folder.path("out.svg");
    let said = run(&["timeline", &model, &script, &out]).refused();
    assert!(
        said.starts_with(&format!("refused 1 0 2 {model}\n")),
        "{said}"
    );
    assert_eq!(folder.files(), ["model.bin"]);
}

/// The events before it are drawn, and what is said is what `steps` says.
#[test]
fn a_refused_event() {
    let folder = Folder::new("timeline-stopped");
    let model = example("m/model.bin");
    let script = folder.write("script.bin", &[1, 0, 3, 0, 4, 0, 2, 0, 0, 0, 11, 3, 0]);
    let out = folder.path("out.svg");
    let said = run(&["timeline", &model, &script, &out]).refused();
    assert_eq!(said, run(&["steps", &model, &script]).refused());
    let drawn = elements(&String::from_utf8(bytes_of(&out)).expect("text"));
    assert_eq!(numbers(&drawn), ["1", "2", "3", "4"]);
    let bad = texts(&drawn, "bad");
    let first = "Refused: step 4: TICK 3 refused (10) at clock 0: COMPLETE 0 is due at clock 2.";
    assert_eq!(bad, [first, "4", "refused"]);
    let part = run(&["timeline", "--to", "2", &model, &script, "-"]).out;
    assert!(texts(&elements(&part), "bad").is_empty());
}

#[test]
fn never_over_a_file_that_is_read() {
    let folder = Folder::new("timeline-over");
    let files = lesson().map(|file| {
        let name = file.rsplit('/').next().unwrap_or("").to_string();
        folder.write(&name, &bytes_of(&file))
    });
    let [model, script, names] = &files;
    for out in &files {
        let before = bytes_of(out);
        let said = run(&["timeline", "--names", names, model, script, out]).wrong_call();
        assert!(said.contains("write to another file"), "{said}");
        assert_eq!(bytes_of(out), before);
    }
    run(&["timeline", model, script, &folder.path("no/out.svg")]).no_file();
    assert_eq!(folder.files(), ["model.bin", "names.txt", "script.bin"]);
}

#[test]
fn names_of_any_letters() {
    let folder = Folder::new("timeline-names");
    let text = "thread 0 <a & \"b\">\u{1}\u{fffe}' of a name that is long\nmode 0 ü→\n";
    let names = folder.write("names.txt", text.as_bytes());
    let m = ["m/model.bin", "m/script.bin"].map(example);
    let drawn = picture(&m[0], &m[1], &["--names", &names]);
    assert_eq!(
        texts(&drawn, "name")[2],
        "<a & \"b\">\u{fffd}\u{fffd}' of a…"
    );
    assert!(texts(&drawn, "in-band").contains(&"ü→".to_string()));
}

#[test]
fn nothing_to_draw() {
    let [model, ..] = lesson();
    let done = run_with(&["timeline", &model, "-", "-"], &[]).good();
    let drawn = elements(&done);
    assert!(numbers(&drawn).is_empty());
    assert_eq!(texts(&drawn, "subtitle")[0], "No step was taken.");
    // A model without threads.
    let folder = Folder::new("timeline-nothing");
    let model = folder.write("model.bin", &[1, 1, 0]);
    let script = folder.write("script.bin", &[11, 1, 0]);
    assert_eq!(numbers(&picture(&model, &script, &[])), ["1"]);
}

/// Long rows of ticks are one column; long ticks are torn.
#[test]
fn quiet_stretches() {
    let folder = Folder::new("timeline-quiet");
    let model = folder.write("model.bin", &[1, 2, 0, 7, 1, 0]);
    let ticks = [11, 1, 0].repeat(100);
    let request = [8, 0];
    let long = [11, 0x10, 0x27];
    let bytes = [
        &request[..],
        &ticks,
        &request,
        &long,
        &[11, 1, 0],
        &[11, 2, 0],
    ]
    .concat();
    let script = folder.write("script.bin", &bytes);
    let drawn = picture(&model, &script, &[]);
    assert_eq!(
        numbers(&drawn),
        ["1", "2 – 101", "102", "103", "104", "105"]
    );
    assert_eq!(texts(&drawn, "level"), ["100 ticks", "TICK 10000"]);
    let tears = drawn.iter().filter(|one| one.attribute("class") == "tear");
    // One is in the legend.
    assert_eq!(tears.count(), 2);
}

/// Of a long run the start, the end and what stands out; the rest is told.
#[test]
fn a_long_run() {
    let folder = Folder::new("timeline-long");
    let model = example("m/model.bin");
    let good = &MISSES[18..39];
    let script = [
        &MISSES[..2],
        &good.repeat(300)[..],
        &MISSES[2..18],
        &good.repeat(400),
    ]
    .concat();
    let script = folder.write("script.bin", &script);
    let drawn = picture(&model, &script, &[]);
    assert_eq!(texts(&drawn, "in-miss").len(), 2);
    let folded = texts(&drawn, "folded");
    assert_eq!(folded[2], "283 jobs done");
    assert_eq!((folded.len(), folded[3].as_str()), (8, "no miss"));
    let shown = numbers(&drawn);
    assert!(shown.len() < 300, "{}", shown.len());
    assert!(shown.contains(&"1".to_string()) && shown.contains(&"4906".to_string()));
    assert!(
        texts(&drawn, "bad").contains(&"2105".to_string()),
        "{:?}",
        texts(&drawn, "bad")
    );
    // What is folded can be looked at.
    let part = picture(&model, &script, &["--from", "1000", "--to", "1100"]);
    assert_eq!(steps(&part).len(), 101);
}

/// Kinds in the order in which [`play`] tries them.
const KINDS: [u8; 9] = [6, 7, 5, 10, 9, 2, 1, 3, 4];

/// A script that does what is due, by kind and number, up to a clock.
fn play(model: &[u8], length: u32, until: i32) -> Vec<u8> {
    let bytes = translate_to_vec(model).expect("it is accepted");
    let table = Table::read(&bytes).expect("it is accepted");
    let mut variables = table.start();
    let mut script = Vec::new();
    let event = |[kind, id]: [u8; 2]| match kind {
        4 => [&[kind, id], &length.to_le_bytes()[..]].concat(),
        _ => vec![kind, id],
    };
    while variables[0] < until {
        let due = KINDS.iter().flat_map(|kind| (0..16).map(|id| [*kind, id]));
        let ticks = (1..=40_u8).rev().map(|ticks| vec![11, ticks, 0]);
        let taken = due
            .map(event)
            .chain(ticks)
            .find(|event| table.step(&mut variables, event).is_ok());
        script.extend(taken.expect("time passes"));
    }
    script
}

/// A model of 16 threads that hand values round, in too short a time, and a run.
fn sixteen_threads(folder: &Folder) -> (String, String) {
    let mut model = vec![1, 2, 0];
    for thread in 0..16_u8 {
        let period: u32 = if thread % 4 < 2 { 40 } else { 80 };
        let deadline = period - u32::from(thread % 3);
        let figures = [period, deadline, 1, 3].map(u32::to_le_bytes).concat();
        let mask = if thread % 4 == 3 { 1 } else { 3 };
        let rest = [mask, u8::from(thread % 4 == 0), 0];
        model.extend([&[2], &figures[..], &rest].concat());
    }
    model.extend((0..16).flat_map(|thread| [3, thread]));
    model.extend((0..16).flat_map(|thread| [4, thread]));
    model.extend((0..16).flat_map(|thread| [5, thread, thread, 1, 0, 0]));
    model.extend((0..16).flat_map(|port| [6, port % 2, port, (port + 1) % 16, 3]));
    for thread in 0..16 {
        let counted = [10, 2, thread, 1, 2, thread, 0, 0, 0, 0, 7, 0, 0, 0];
        let sent = [10, 3, thread, 0, 2, thread, 0, 0, 0, 0, 0, 0, 0, 0];
        model.extend([&[8, thread, 0, 0], &counted[..], &sent].concat());
    }
    let script = play(&model, 3, 100);
    (
        folder.write("model.bin", &model),
        folder.write("script.bin", &script),
    )
}

#[test]
fn lanes_of_sixteen_threads() {
    let folder = Folder::new("timeline-sixteen");
    let (model, script) = sixteen_threads(&folder);
    let drawn = picture(&model, &script, &[]);
    let lanes = texts(&drawn, "name");
    let wanted: Vec<String> = (0..16).map(|thread| format!("thread {thread}")).collect();
    assert_eq!(lanes[2..18], wanted);
    assert_eq!(texts(&drawn, "in-miss").len(), 2);
}
