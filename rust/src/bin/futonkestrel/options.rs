//! The commands with their options and help, and the words of a call.

use std::ffi::{OsStr, OsString};
use std::os::unix::ffi::OsStrExt;

use crate::commands::{
    check, compare, explore, listing, promela, show, size, start, table, timeline, trace,
};
use crate::figures::counted;
use crate::{files, Failure, Status};

struct Opt {
    word: &'static str,
    /// What stands behind it, if anything.
    value: &'static str,
    about: &'static str,
}

struct Command {
    name: &'static str,
    /// The files and numbers it takes, as the usage line shows them.
    operands: &'static str,
    options: &'static [Opt],
    /// One line for the list of commands.
    about: &'static str,
    help: &'static str,
    example: &'static str,
    run: fn(&Call) -> Result<Status, Failure>,
}

/// What a command was called with.
pub struct Call {
    command: &'static Command,
    pub operands: Vec<OsString>,
    options: Vec<(&'static str, OsString)>,
}

impl Call {
    pub fn has(&self, option: &str) -> bool {
        self.value(option).is_some()
    }

    pub fn value(&self, option: &str) -> Option<&OsStr> {
        let found = self.options.iter().rev().find(|(word, _)| *word == option);
        found.map(|(_, value)| value.as_os_str())
    }

    /// Why the call makes no sense, with how it should be.
    pub fn wrong(&self, text: &str) -> Failure {
        self.command.wrong(text)
    }
}

const NAMES: Opt = opt(
    "--names",
    "FILE",
    "use the names of FILE, a line each as 'thread 0 sample'",
);

const LISTING_OPTIONS: &[Opt] = &[
    opt("--words", "", "say behind each line what happened"),
    opt(
        "--values",
        "",
        "say behind each line which variables it changed",
    ),
    NAMES,
    opt(
        "--limit",
        "",
        "read the first 65,536 bytes of a model or script, as the verified programs do",
    ),
];

const LISTING_HELP: &str = "\
A line is one event taken: step, clock after it, kind, and the thread, mode
transition or number of ticks. The last line is 'end', the events taken, the
refusal that stopped the run (0 for none) and the clock. A refusal is explained
on standard error, and the status is then 1.

A sum that lies outside of 32 bits stops at the nearest end. --words says where that
happened: the value is then not the sum.

A file of names has a line for each item, first its sort (thread, mode, input,
output, local, connection, transition), then its number, then its name.";

const START_HELP: &str = "\
Runs SCRIPT, going on after refused events, and asks in the state that it leaves
whether START of THREAD for LENGTH would be taken. The test takes four steps in
order, and the first that fails is told by its number, with what fails in words:

  0  none fails: START would be taken; otherwise it is refused with 10
  1  state: the thread is not there, does not wait for the processor (code 2), or
     has its deadline now
  2  processor: a thread holds it
  3  connections: an immediate one that is live waits for the thread it comes from
  4  length: it lies outside the thread's Min and Max

The number is the library's; that it is the first step to fail is proved. The words
are this program's own look at the state. The status is 0 whatever the number is,
and 1 for a refused model. Events of SCRIPT that were refused, and an end that is
cut, are noted on standard error. THREAD may be a name that --names gives.

'steps' and 'timeline' say the same about a START that is refused in a script.";

const EXPLORE_OPTIONS: &[Opt] = &[
    opt(
        "--table",
        "",
        "FILE is a table, not a model, and is stepped alone",
    ),
    opt("--depth", "N", "lists of N events at most"),
    opt("--states", "N", "N states at most, 1000000 if not said"),
    opt("--clock", "N", "let no tick pass clock N"),
    opt(
        "--lengths",
        "ends|all",
        "START with its shortest and longest length, or with all",
    ),
    opt(
        "--tick",
        "next|1",
        "let time pass up to the next instant at which something can happen, or tick by tick",
    ),
    opt(
        "--until",
        "CONDITION",
        "stop at the first state where CONDITION holds",
    ),
    opt(
        "--trail",
        "OUT",
        "write the list of events that leads there, the shortest of those tried",
    ),
    opt(
        "--fold",
        "",
        "take a model's states that differ by a shift of time as one",
    ),
    opt(
        "--beside",
        "TABLE",
        "step TABLE beside the model, not the table made from it",
    ),
    NAMES,
];

const EXPLORE_HELP: &str = "\
Goes from the start through all lists of events, the shorter ones first. States
are told apart by their variables. A model and its table are stepped side by
side; where they part, that is told, and the status is 1. Tells how many states
and steps there were, and for each thread whether a miss was found. What is not
found within the bound may still be there.

Time passes up to the next instant at which an event is enabled, or would be if a
REQUEST had come meanwhile. In a model nothing else can happen between, so that
every state is reached in which an event but REQUEST and TICK is enabled, by the
lengths tried. A table from elsewhere may have REQUESTs that look at the clock, and
a condition may ask for an instant: '--tick 1' stops at each.

--fold takes two states of a model as one where they differ by a shift of time by
the hyperperiod, by instants that are over, or by counts of misses that no
condition asks for. README says why nothing is overlooked by that.

A condition compares variables: now, mode, phase, pending, enteredat, cpu;
active(t), state(t), dispatchtime(t), due(t), end(t), behaviour(t), missed(t) of a
thread; flag(c), input(i), buffer(i), output(o), local(v); variable(n). Signs are
= != < <= > >=; values are numbers, variables, 'none', the words for a state
(waiting_dispatch ..) and names; 'and', 'or', 'not' and parentheses join them.
'none enabled' holds where no event but REQUEST and TICK can be taken, 'stuck'
where no tick can pass either. A condition that is not found gives status 1, and
no trail is written.";

const fn opt(word: &'static str, value: &'static str, about: &'static str) -> Opt {
    Opt { word, value, about }
}

const COMMANDS: &[Command] = &[
    Command {
        name: "steps",
        operands: "MODEL SCRIPT",
        options: LISTING_OPTIONS,
        about: "run a model against a script and print the listing",
        help: LISTING_HELP,
        example: "futonkestrel steps --words examples/lesson/model.bin examples/lesson/script.bin",
        run: listing::steps,
    },
    Command {
        name: "rules",
        operands: "MODEL SCRIPT",
        options: LISTING_OPTIONS,
        about: "translate a model, run its table and print the same listing",
        help: LISTING_HELP,
        example: "futonkestrel rules examples/lesson/model.bin examples/lesson/script.bin",
        run: listing::rules,
    },
    Command {
        name: "run",
        operands: "TABLE SCRIPT",
        options: LISTING_OPTIONS,
        about: "run a table against a script and print the listing",
        help: LISTING_HELP,
        example: "futonkestrel run --words --values table.bin examples/lesson/script.bin",
        run: listing::run,
    },
    Command {
        name: "table",
        operands: "MODEL OUT",
        options: &[],
        about: "write the table made from a model",
        help: "Prints nothing. A refused model writes no file.",
        example: "futonkestrel table examples/lesson/model.bin table.bin",
        run: table::table,
    },
    Command {
        name: "size",
        operands: "MODEL",
        options: &[],
        about: "how long is the table made from a model?",
        help: "\
Prints 'bytes B rules R clauses C atoms A updates U' and makes no table: the bytes
that 'table' writes, and the records of each kind among them (start records are
counted in the bytes alone). A refused model is explained on standard error; the
status is then 1.",
        example: "futonkestrel size examples/lesson/model.bin",
        run: size::size,
    },
    Command {
        name: "check",
        operands: "FILE",
        options: &[opt("--table", "", "FILE is a table, not a model")],
        about: "is this an accepted model or table?",
        help: "\
Prints that FILE is accepted, or explains on standard error which record is
refused and why; the status is then 1.",
        example: "futonkestrel check examples/lesson/model.bin",
        run: check::check,
    },
    Command {
        name: "compare",
        operands: "MODEL TABLE",
        options: &[],
        about: "is this the table of that model, and where do they first part?",
        help: "\
Prints that it is, or the first record in which TABLE is not the table made from
MODEL; the status is then 1.",
        example: "futonkestrel compare examples/lesson/model.bin table.bin",
        run: compare::compare,
    },
    Command {
        name: "trace",
        operands: "FILE SCRIPT",
        options: &[opt("--table", "", "FILE is a table, not a model")],
        about: "answer and variables after every event, going on after refusals",
        help: "\
The first line is '- 0 0' and the variables at the start. Then a line for each
event: 0 or the refusal's number, its first and last place in SCRIPT, and
'variable=value' for every variable that is not 0 (for a model without Due and
End). The last line is 'taken' and the events before the first refused one.
Refused events are a part of the trace: the status is 0 all the same, and 1 only
for a refused model or table.",
        example: "futonkestrel trace examples/lesson/model.bin examples/lesson/script.bin",
        run: trace::trace,
    },
    Command {
        name: "start",
        operands: "MODEL SCRIPT THREAD LENGTH",
        options: &[NAMES],
        about: "would START be taken, or which step of its test fails?",
        help: START_HELP,
        example: "futonkestrel start examples/lesson/model.bin examples/lesson/script.bin 1 2",
        run: start::start,
    },
    Command {
        name: "timeline",
        operands: "MODEL SCRIPT OUT.svg",
        options: &[
            opt(
                "--from",
                "STEP",
                "draw from this step on, or from a clock as clock:20",
            ),
            opt(
                "--to",
                "STEP",
                "draw up to this step, or up to a clock as clock:60",
            ),
            NAMES,
        ],
        about: "draw a model's run as a picture",
        help: "\
Writes a picture that any browser opens: a lane for each thread (waiting, running,
done), periods, deadlines, misses (MISS) and jobs that are stopped because their
mode is over (STOP), the values that connections carry, the mode, the processor and
the clock. Each step stands at its instant and has the number that it has in the
listing of 'steps'. Long quiet stretches are folded, and of a long run the steps in
which no deadline is missed, no job is stopped and no mode changes; what is folded
is told, and --from and --to show it.

A refused model writes no file. A refused event ends the picture; it is explained
on standard error, and the status is then 1.",
        example:
            "futonkestrel timeline examples/lesson/model.bin examples/lesson/script.bin lesson.svg",
        run: timeline::timeline,
    },
    Command {
        name: "explore",
        operands: "FILE",
        options: EXPLORE_OPTIONS,
        about: "try all orders of a model's events, breadth first",
        help: EXPLORE_HELP,
        example: "futonkestrel explore --until 'missed(0)>0' --trail miss.bin examples/m/model.bin",
        run: explore::explore,
    },
    Command {
        name: "promela",
        operands: "TABLE OUT.pml",
        options: &[],
        about: "write a table as a model for the checker SPIN",
        help: "\
The Promela model has the table's variables, rules and quiet ticks: its states are
those that the table's events reach. Sums stop at the ends of 32 bits, as they do
here. 'spin -DLAST=60' lets no tick pass clock 60, '-DENDS' gives STARTs their
shortest and longest length only. A refused table writes no file.",
        example: "futonkestrel promela table.bin table.pml",
        run: promela::promela,
    },
    Command {
        name: "show",
        operands: "FILE",
        options: &[
            opt("--model", "", "FILE is a model"),
            opt("--table", "", "FILE is a table"),
            opt("--script", "", "FILE is a script"),
        ],
        about: "print a model, a table or a script as text",
        help: "\
One record a line, in words; 'pack' turns the text back into the same bytes.
Which of the three it is, the first byte tells; 01, which begins models and
scripts, is read as what more of the file fits. What cannot be told apart is
printed in hexadecimal. A remark (behind #) says where a model or a table is
refused; the status is 0 all the same.",
        example: "futonkestrel show examples/lesson/model.bin > lesson.txt",
        run: show::show,
    },
    Command {
        name: "pack",
        operands: "TEXT OUT",
        options: &[],
        about: "turn text, or rows of hexadecimal, into a file",
        help: "\
TEXT is what 'show' prints, changed as you like, or bytes in hexadecimal, two
digits each. What stands behind # is a remark. A word that cannot be understood
is named with its line; the status is then 1 and no file is written. Whether the
file is accepted, 'check' tells.",
        example: "futonkestrel pack lesson.txt lesson.bin",
        run: show::pack,
    },
];

/// Operands that are numbers; all others are files.
const NUMBERS: [&str; 2] = ["THREAD", "LENGTH"];

/// What options do is told from here on, or further to the right.
const OPTION_WIDTH: usize = 13;

const VERSION: &str = concat!("futonkestrel ", env!("CARGO_PKG_VERSION"), "\n");

/// Does what the words of a call ask for.
pub fn run(words: &[OsString]) -> Result<Status, Failure> {
    let Some((first, rest)) = words.split_first() else {
        return Err(Failure::Usage(format!("which command?\n\n{}", help())));
    };
    match first.to_str() {
        Some("--help" | "-h") => print(&help()),
        Some("--version" | "-V") => print(VERSION),
        Some("help") => match rest.first() {
            None => print(&help()),
            Some(name) => print(&command(name)?.help()),
        },
        _ => command(first)?.call(rest),
    }
}

fn print(text: &str) -> Result<Status, Failure> {
    files::print(text.as_bytes())?;
    Ok(Status::Done)
}

fn command(name: &OsStr) -> Result<&'static Command, Failure> {
    let found = COMMANDS.iter().find(|command| name == command.name);
    found.ok_or_else(|| {
        let names: Vec<&str> = COMMANDS.iter().map(|command| command.name).collect();
        let name = name.to_string_lossy();
        Failure::Usage(format!(
            "no command '{name}'; there are {} (see --help)",
            names.join(", ")
        ))
    })
}

fn help() -> String {
    let mut text = String::from(
        "\
usage: futonkestrel COMMAND ..

Timing models of a handwriting pad: runs them, makes their rule tables, runs
those, and shows all of it as text. What is accepted, taken or refused is decided
by the verified library; this program only calls it.

commands:
",
    );
    for command in COMMANDS {
        text += &format!(
            "  {:8} {:26} {}\n",
            command.name, command.operands, command.about
        );
    }
    text + "
'futonkestrel COMMAND --help' tells more about one, with an example. A file '-'
is standard input or output. Files are written whole or not at all, and never
over a file that is read.

status: 0 done; 1 refused, and standard error says why, first in a line
'refused NUMBER START END FILE'; 2 called in a wrong way, nothing done; 3 a file
that cannot be read or written.

example:
  futonkestrel steps --words examples/lesson/model.bin examples/lesson/script.bin
"
}

impl Command {
    fn usage(&self) -> String {
        let dots = if self.options.is_empty() {
            ""
        } else {
            "[OPTION].. "
        };
        format!("futonkestrel {} {dots}{}", self.name, self.operands)
    }

    fn help(&self) -> String {
        let mut text = format!(
            "usage: {}\n\n{}\n\n{}\n",
            self.usage(),
            sentence(self.about),
            self.help
        );
        if !self.options.is_empty() {
            text += "\noptions:\n";
        }
        let words = |option: &Opt| format!("{} {}", option.word, option.value);
        let widest = self.options.iter().map(|option| words(option).len()).max();
        let width = widest.unwrap_or(0).max(OPTION_WIDTH);
        for option in self.options {
            text += &format!("  {:width$} {}\n", words(option), option.about);
        }
        text + &format!("\nexample:\n  {}\n", self.example)
    }

    fn call(&'static self, words: &[OsString]) -> Result<Status, Failure> {
        if words
            .iter()
            .take_while(|word| *word != "--")
            .any(|word| word == "--help" || word == "-h")
        {
            return print(&self.help());
        }
        let call = self.parse(words)?;
        let wanted = self.operands.split(' ').count();
        if call.operands.len() != wanted {
            let (given, sort) = (call.operands.len(), self.sort_of_operands());
            return Err(self.wrong(&format!("{} wanted, {given} given", counted(wanted, sort))));
        }
        (self.run)(&call)
    }

    /// Files, unless some of them are numbers.
    fn sort_of_operands(&self) -> &'static str {
        let mut operands = self.operands.split(' ');
        match operands.any(|operand| NUMBERS.contains(&operand)) {
            true => "argument",
            false => "file",
        }
    }

    fn parse(&'static self, words: &[OsString]) -> Result<Call, Failure> {
        let mut call = Call {
            command: self,
            operands: Vec::new(),
            options: Vec::new(),
        };
        let mut words = words.iter();
        while let Some(word) = words.next() {
            if word == "--" {
                call.operands.extend(words.by_ref().cloned());
            } else if word == "-" || !word.as_bytes().starts_with(b"-") {
                call.operands.push(word.clone());
            } else {
                let (option, value) = self.option(word)?;
                let value = value.or_else(|| words.next().cloned());
                let missing = || self.wrong(&format!("{} wants {}", option.word, option.value));
                call.options.push((option.word, value.ok_or_else(missing)?));
            }
        }
        Ok(call)
    }

    /// The option that a word is, and its value where that stands behind an
    /// equals sign or there is none.
    fn option(&self, word: &OsStr) -> Result<(&'static Opt, Option<OsString>), Failure> {
        let wrong = || self.wrong(&format!("no option '{}'", word.to_string_lossy()));
        let bytes = word.as_bytes();
        if let Some(option) = self.options.iter().find(|option| word == option.word) {
            let none = option.value.is_empty().then(OsString::new);
            return Ok((option, none));
        }
        let sign = bytes
            .iter()
            .position(|byte| *byte == b'=')
            .ok_or_else(wrong)?;
        let (name, value) = (&bytes[..sign], &bytes[sign + 1..]);
        let mut with_value = self
            .options
            .iter()
            .filter(|option| !option.value.is_empty());
        let option = with_value.find(|option| option.word.as_bytes() == name);
        Ok((
            option.ok_or_else(wrong)?,
            Some(OsStr::from_bytes(value).to_os_string()),
        ))
    }

    fn wrong(&self, text: &str) -> Failure {
        let name = self.name;
        Failure::Usage(format!(
            "{name}: {text}\nusage: {}\n('futonkestrel {name} --help' tells more)",
            self.usage()
        ))
    }
}

/// The first letter large and a full stop.
fn sentence(text: &str) -> String {
    let (first, rest) = text.split_at(1);
    let stop = if text.ends_with('?') { "" } else { "." };
    format!("{}{rest}{stop}", first.to_uppercase())
}
