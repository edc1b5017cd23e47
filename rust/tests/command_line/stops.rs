//! Threads that leave with a job in hand: those that are not critical are stopped, the
//! others finish first. What listings, pictures and refusals say of it.

use crate::timeline::{picture, texts};
use crate::tools::{example, readme_example, run, Folder};
use crate::xml::Element;

/// Threads 1 to 4 are in the first mode alone, and the last of them is critical.
const MODEL: &str = "\
model
head modes 2 initial 0
thread 0 period 10 deadline 10 min 1 max 3 modes 0,1 critical
thread 1 period 20 deadline 20 min 1 max 4 modes 0
thread 2 period 20 deadline 20 min 2 max 6 modes 0
thread 3 period 20 deadline 15 min 1 max 5 modes 0
thread 4 period 10 deadline 10 min 1 max 5 modes 0 critical
transition 0 from mode 0 to mode 1
transition 1 from mode 1 to mode 0
";

/// Up to ENTER at 10: thread 1 is done, thread 2 runs since 9, thread 3 waits, and thread 4 is
/// dispatched again.
const ENTERED: &str = "\
script
ACTIVATE thread 0
ACTIVATE thread 1
ACTIVATE thread 2
ACTIVATE thread 3
ACTIVATE thread 4
DISPATCH thread 0
DISPATCH thread 1
DISPATCH thread 2
DISPATCH thread 3
DISPATCH thread 4
START thread 0 for 2
TICK 2
COMPLETE thread 0
START thread 1 for 4
TICK 4
COMPLETE thread 1
REQUEST transition 0
START thread 4 for 3
TICK 3
COMPLETE thread 4
START thread 2 for 6
TICK 1
DEADLINE thread 0
DEADLINE thread 4
DISPATCH thread 4
ENTER transition 0
";

/// The three stops, and the critical thread up to its deadline.
const LEFT: &str = "\
DEACTIVATE thread 1
DEACTIVATE thread 2
DEACTIVATE thread 3
DISPATCH thread 0
START thread 4 for 2
TICK 2
COMPLETE thread 4
START thread 0 for 3
TICK 3
COMPLETE thread 0
TICK 5
DEADLINE thread 0
DEADLINE thread 4
LEAVE transition 0
";

/// The model, and a script of what is said, as files.
struct Files {
    folder: Folder,
    model: String,
}

impl Files {
    fn new(name: &str) -> Files {
        let folder = Folder::new(name);
        let model = folder.pack("model.bin", MODEL);
        Files { folder, model }
    }

    fn script(&self, parts: &[&str]) -> String {
        self.folder.pack("script.bin", &parts.concat())
    }

    fn table(&self) -> String {
        let table = self.folder.path("table.bin");
        run(&["table", &self.model, &table]).good();
        table
    }

    /// What `command` says of an event that is refused behind a script: why it is.
    fn why(&self, command: &str, parts: &[&str]) -> Vec<String> {
        let said = run(&[command, &self.model, &self.script(parts)]).refused();
        let lines = said.lines().skip(1).map(|line| line.trim().to_string());
        lines
            .take_while(|line| !line.starts_with("cause: "))
            .collect()
    }
}

/// Each code at which a job is stopped, by the model and by its table.
#[test]
fn in_words() {
    let files = Files::new("stops-words");
    let (script, table) = (files.script(&[ENTERED, LEFT]), files.table());
    let wanted = [
        "27 10 2 1  DEACTIVATE thread 1, stopped after it was done: State(1)=waiting_mode",
        "28 10 2 2  DEACTIVATE thread 2, stopped after 1 of 6: Cpu=none State(2)=waiting_mode",
        "29 10 2 3  DEACTIVATE thread 3, stopped before it ran: State(3)=waiting_mode",
    ];
    let of_table = wanted[1].to_string() + " End(2)=0";
    for (command, file) in [
        ("steps", &files.model),
        ("rules", &files.model),
        ("run", &table),
    ] {
        let text = run(&[command, "--words", "--values", file, &script]).good();
        let lines: Vec<&str> = text.lines().skip(26).take(3).collect();
        let second = if command == "steps" {
            wanted[1]
        } else {
            &of_table
        };
        assert_eq!(lines, [wanted[0], second, wanted[2]], "{command}");
        assert_eq!(text.matches("stopped").count(), 3, "{command}");
        assert!(text.contains("\n39 20 6 4  DEADLINE thread 4: State(4)=waiting_mode\n"));
    }
}

/// A thread that only waits for its next period leaves without a word more.
#[test]
fn without_a_job() {
    let files = Files::new("stops-none");
    let script = "script\nACTIVATE thread 1\nREQUEST transition 0\nENTER transition 0\n\
                  DEACTIVATE thread 1\n";
    let script = files.script(&[script]);
    let text = run(&["steps", "--words", &files.model, &script]).good();
    assert!(
        text.contains("\n4 0 2 1    DEACTIVATE thread 1\n"),
        "{text}"
    );
    let drawn = picture(&files.model, &script, &[]);
    assert_eq!(signs(&drawn), 0);
    assert!(!says(&drawn, "subtitle", "stopped"));
}

/// Why DEACTIVATE is refused: to critical threads that have a job by the model's own
/// words, by the table's clause with `rules`.
#[test]
fn refused() {
    let files = Files::new("stops-refused");
    let enabled = "DEACTIVATE 1, DEACTIVATE 2, DEACTIVATE 3 and DISPATCH 0 are enabled";
    let first = |event: &str| format!("step 27: {event} refused (10) at clock 10: {enabled}");
    let critical = "thread 4 is critical: its job in hand (code 2, waiting_execution) goes on \
                    to its deadline, clock 20";
    let clause = "it wants State(4) = waiting_dispatch, but State(4) is waiting_execution";
    for (command, why) in [("steps", critical), ("rules", clause)] {
        let said = files.why(command, &[ENTERED, "DEACTIVATE thread 4\n"]);
        assert_eq!(said, [first("DEACTIVATE 4"), why.to_string()]);
        let active = "it wants Active(0) = 0, but Active(0) is 1";
        let said = files.why(command, &[ENTERED, "DEACTIVATE thread 0\n"]);
        assert_eq!(said, [first("DEACTIVATE 0"), active.to_string()]);
        let said = files.why(command, &[ENTERED, "DEACTIVATE thread 5\n"]);
        assert_eq!(said[1], "there is no thread 5");
    }
}

/// A job in hand of a thread that stays is not stopped; and there is nothing to stop
/// twice.
#[test]
fn refused_to_others() {
    let files = Files::new("stops-others");
    let (before_enter, _) = ENTERED.split_once("DEADLINE").expect("there");
    let any = [
        "waiting_dispatch",
        "waiting_execution",
        "execution",
        "completed",
    ];
    let any = any.map(|code| format!("State(2) = {code}")).join(" or ");
    let twice = format!("it wants {any}, but State(2) is waiting_mode");
    for command in ["steps", "rules"] {
        let said = files.why(command, &[before_enter, "DEACTIVATE thread 2\n"]);
        assert_eq!(said[1], "it wants Active(2) = 0, but Active(2) is 1");
        let again = "DEACTIVATE thread 2\nDEACTIVATE thread 2\n";
        assert_eq!(files.why(command, &[ENTERED, again])[1], twice);
    }
}

/// Time does not go on before all are stopped; what it waits for, `steps` tells.
#[test]
fn a_tick_waits() {
    let files = Files::new("stops-ticks");
    let first = "step 27: TICK 1 refused (10) at clock 10: \
                 DEACTIVATE 1, DEACTIVATE 2, DEACTIVATE 3 and DISPATCH 0 are enabled";
    let all = "the mode of thread 1, thread 2 and thread 3 is over: DEACTIVATE stops their jobs \
               before time goes on";
    assert_eq!(files.why("steps", &[ENTERED, "TICK 1\n"]), [first, all]);
    assert_eq!(files.why("rules", &[ENTERED, "TICK 1\n"]), [first]);
    let two = "DEACTIVATE thread 1\nDEACTIVATE thread 3\nDISPATCH thread 0\nTICK 1\n";
    let last = "the mode of thread 2 is over: DEACTIVATE stops its job before time goes on";
    let said = files.why("steps", &[ENTERED, two]);
    assert!(said[0].ends_with(": DEACTIVATE 2 is enabled"), "{said:?}");
    assert_eq!(said[1..], [last]);
    // Not for critical threads, nor for those that stay.
    let none = "DEACTIVATE thread 1\nDEACTIVATE thread 2\nDEACTIVATE thread 3\nTICK 1\n";
    assert_eq!(files.why("steps", &[ENTERED, none]).len(), 1);
}

/// The signs of a class in the lanes; the legend has one.
fn signs(drawn: &[Element]) -> usize {
    let of_class = |one: &&Element| one.attribute("class") == "stop";
    drawn.iter().filter(of_class).count() - 1
}

fn says(drawn: &[Element], class: &str, words: &str) -> bool {
    texts(drawn, class).iter().any(|text| text.contains(words))
}

fn has_title(drawn: &[Element], words: &str) -> bool {
    let mut titles = drawn.iter().filter(|one| one.name == "title");
    titles.any(|title| title.text == words)
}

/// A sign of its own for each, with its word, in the legend and over the picture.
#[test]
fn in_pictures() {
    let files = Files::new("stops-drawn");
    let drawn = picture(&files.model, &files.script(&[ENTERED, LEFT]), &[]);
    assert_eq!(signs(&drawn), 3);
    assert_eq!(texts(&drawn, "in-stop"), ["STOP"; 4]);
    assert!(says(
        &drawn,
        "meaning",
        "its mode is over and its job stopped"
    ));
    let over = texts(&drawn, "subtitle");
    let wanted = [
        "No deadline is missed.",
        "3 jobs are stopped: steps 27, 28, 29.",
    ];
    assert_eq!(over[1..], wanted);
    for words in [
        "step 28, clock 10: DEACTIVATE 2, stopped after 1 of 6",
        "thread 1 is stopped at 10, after it was done",
        "thread 2 is stopped at 10, after 1 of 6",
        "thread 3 is stopped at 10, before it ran",
    ] {
        assert!(has_title(&drawn, words), "{words}");
    }
    // The shape is not that of a miss, which is a rectangle.
    let sign = drawn.iter().find(|one| one.attribute("class") == "stop");
    assert_eq!(sign.map(|one| one.name.as_str()), Some("path"));
    assert_eq!(texts(&drawn, "in-miss"), ["MISS"]);
}

#[test]
fn the_lesson() {
    let [model, script, names] =
        ["model.bin", "script.bin", "names.txt"].map(|name| example(&format!("lesson/{name}")));
    let drawn = picture(&model, &script, &["--names", &names]);
    assert_eq!(signs(&drawn), 1);
    assert!(says(&drawn, "subtitle", "A job is stopped: step 24."));
    assert!(has_title(&drawn, "draw is stopped at 10, after 1 of 3"));
}

/// Two modes without critical threads, so that they may change at any clock; the thread is
/// in the first one.
const CHANGING: &str = "\
model
head modes 2 initial 0
thread 0 period 4 deadline 4 min 1 max 4 modes 0
transition 0 from mode 0 to mode 1
transition 1 from mode 1 to mode 0
";

pub fn changing(folder: &Folder) -> String {
    folder.pack("changing.bin", CHANGING)
}

/// The mode changes, the thread leaves, and both come back.
macro_rules! there_and_back {
    () => {
        "\
REQUEST transition 0
ENTER transition 0
DEACTIVATE thread 0
TICK 1
LEAVE transition 0
REQUEST transition 1
ENTER transition 1
ACTIVATE thread 0
TICK 1
LEAVE transition 1
TICK 1
"
    };
}

/// One period each, of 7, 14 and 12 steps: a job that is finished; one that is stopped
/// when the mode changes, and back; a change there and back without a job.
const FINISHED: &str = "\
DISPATCH thread 0
START thread 0 for 2
TICK 2
COMPLETE thread 0
TICK 1
TICK 1
DEADLINE thread 0
";
const STOPPED: &str = concat!(
    "DISPATCH thread 0\nSTART thread 0 for 3\nTICK 1\n",
    there_and_back!()
);
const CHANGED: &str = concat!(there_and_back!(), "TICK 1\n");

/// The picture of periods, each so many times.
fn periods(name: &str, periods: &[(&str, usize)]) -> Vec<Element> {
    let folder = Folder::new(name);
    let all: String = periods
        .iter()
        .map(|(one, many)| one.repeat(*many))
        .collect();
    let script = folder.pack("script.bin", &format!("script\nACTIVATE thread 0\n{all}"));
    picture(&changing(&folder), &script, &[])
}

/// The numbers before these words in folded stretches.
fn folded(drawn: &[Element], words: &str) -> Vec<usize> {
    let lines = texts(drawn, "folded");
    let numbers = lines.iter().filter_map(|line| line.strip_suffix(words));
    numbers
        .map(|number| number.replace(',', "").parse().expect("a number"))
        .collect()
}

/// A stop in the middle of a long run is drawn, and only what is folded is told there.
#[test]
fn a_stop_in_a_long_run() {
    let parts = [(FINISHED, 300), (STOPPED, 1), (FINISHED, 300)];
    let drawn = periods("stops-long", &parts);
    assert_eq!(signs(&drawn), 1);
    assert!(says(&drawn, "subtitle", "A job is stopped: step 2107."));
    assert_eq!(folded(&drawn, " steps folded").len(), 2);
    assert!(!says(&drawn, "folded", "stopped"));
}

/// Of very many stops the first are drawn; in the folded stretches the others are counted.
#[test]
fn many_stops() {
    let drawn = periods("stops-many", &[(STOPPED, 100)]);
    let told = folded(&drawn, " jobs stopped");
    assert!(!told.is_empty());
    assert!(signs(&drawn) > 20, "{}", signs(&drawn));
    assert_eq!(signs(&drawn) + told.iter().sum::<usize>(), 100);
    let first = (0..12).map(|number| (7 + 14 * number).to_string());
    let first: Vec<String> = first.collect();
    let all = format!("100 jobs are stopped: steps {}, ...", first.join(", "));
    assert!(says(&drawn, "subtitle", &all), "{all}");
}

/// Where there is no room for all that stands out, stops come before changes of mode.
#[test]
fn stops_before_changes_of_mode() {
    let parts = [(FINISHED, 50), (CHANGED, 60), (STOPPED, 1), (FINISHED, 50)];
    let drawn = periods("stops-first", &parts);
    assert_eq!(signs(&drawn), 1);
    assert!(says(&drawn, "folded", " events of modes"));
    assert!(!says(&drawn, "folded", "stopped"));
}

/// A stop is found: the thread is out of its mode, and its deadline has not come. The
/// trail ends in it.
#[test]
fn explored() {
    let folder = Folder::new("stops-explored");
    let (model, trail) = (changing(&folder), folder.path("trail.bin"));
    let until = "state(0)=waiting_mode and due(0)>now";
    let report = run(&["explore", "--until", until, "--trail", &trail, &model]).good();
    let found = format!("found: {until} holds after 5 events, at clock 0\n");
    assert!(report.starts_with(&found), "{report}");
    let text = run(&["steps", "--words", &model, &trail]).good();
    let last = "5 0 2 0    DEACTIVATE thread 0, stopped before it ran";
    assert_eq!(text.lines().nth(4), Some(last));
}

/// The example that README has of it.
#[test]
fn example_in_readme() {
    let said = readme_example("### To leave a mode");
    assert!(said.contains("stopped after 1 of 3"), "{said}");
}
