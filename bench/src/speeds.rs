//! The speeds of all sides. How fast code with large copies runs depends on
//! where the system puts its stack and heap, so each measurement is made in
//! several processes. The one with the middle ratio stands for all.

use std::env;
use std::process::{Command, Stdio};

use crate::measure::times;
use crate::subjects::Amounts;
use crate::work::{measurements, names};

/// The argument of a program that measures one thing.
pub const MEASURED: &str = "--measured";

/// How many processes measure the same.
const PROCESSES: usize = 5;

/// Speeds are to be at least such a part of the limit's.
const LIMIT_GOAL: f64 = 0.5;

/// Measures in this process, and prints what [`Speeds::parse`] reads.
pub fn measure(name: &str) {
    let amounts = Amounts {
        events: 60_000,
        ticks: 2_000_000,
    };
    for measurement in measurements(name, amounts) {
        let times = times(&measurement);
        let [our_part, plain_part] = times.reading;
        println!(
            "{}\t{}\t{}\t{}\t{}\t{our_part}\t{plain_part}\t{}",
            measurement.table_bytes,
            measurement.goal.unwrap_or(0.0),
            times.per_second(times.ours),
            times.per_second(times.plain),
            times.limit.map_or(0.0, |limit| times.per_second(limit)),
            measurement.note,
        );
    }
}

/// Prints the speeds of all measurements whose name has a text.
pub fn report(text: &str) -> Result<(), String> {
    println!(
        "{:<40} {:>11} {:>11} {:>7} {:>5}  {:<5}  {:>13}  {:>11} {:>6}  {:<5}  {:>11}",
        "measurement",
        "ours/s",
        "plain/s",
        "ratio",
        "goal",
        "",
        "ratios",
        "limit/s",
        "of it",
        "",
        "reading"
    );
    let (mut short, mut short_of_limit) = (0, 0);
    let mut table_before = 0;
    for name in names(text) {
        let mut all: Vec<Speeds> = (0..PROCESSES)
            .map(|_| measured_apart(&name))
            .collect::<Result<_, _>>()?;
        all.sort_by(|one, other| one.ratio().total_cmp(&other.ratio()));
        let middle = &all[PROCESSES / 2];
        if middle.table_bytes != table_before {
            table_before = middle.table_bytes;
            println!("a table of {table_before} bytes");
        }
        let range = [all[0].ratio(), all[PROCESSES - 1].ratio()];
        println!("{}", middle.line(&name, range).trim_end());
        short += usize::from(middle.falls_short());
        short_of_limit += usize::from(middle.falls_short_of_limit());
    }
    println!("{short} short of their goal, {short_of_limit} of {LIMIT_GOAL} of the limit");
    println!("Of {PROCESSES} processes the one with the middle ratio; ratios: least and greatest.");
    println!("reading: the part of our time and the plain model's that goes without any event.");
    println!("limit: unproved interpreters of decoded models and tables; see docs/SPEED.md.");
    Ok(())
}

/// Measures in a process of its own.
fn measured_apart(name: &str) -> Result<Speeds, String> {
    let program = env::current_exe().map_err(|error| error.to_string())?;
    let measured = Command::new(program)
        .args([MEASURED, name])
        .stderr(Stdio::inherit())
        .output()
        .map_err(|error| error.to_string())?;
    let line = String::from_utf8_lossy(&measured.stdout).into_owned();
    Speeds::parse(line.trim_end_matches('\n')).ok_or_else(|| format!("{name}: not measured"))
}

/// What one process found.
struct Speeds {
    table_bytes: usize,
    /// 0 where there is none.
    goal: f64,
    ours: f64,
    plain: f64,
    /// 0 where there is none.
    limit: f64,
    reading: [f64; 2],
    note: String,
}

impl Speeds {
    fn parse(line: &str) -> Option<Speeds> {
        let fields: Vec<&str> = line.split('\t').collect();
        let [table_bytes, goal, ours, plain, limit, our_part, plain_part, note] = fields[..] else {
            return None;
        };
        Some(Speeds {
            table_bytes: table_bytes.parse().ok()?,
            goal: goal.parse().ok()?,
            ours: ours.parse().ok()?,
            plain: plain.parse().ok()?,
            limit: limit.parse().ok()?,
            reading: [our_part.parse().ok()?, plain_part.parse().ok()?],
            note: note.to_string(),
        })
    }

    fn ratio(&self) -> f64 {
        self.ours / self.plain
    }

    fn falls_short(&self) -> bool {
        self.ratio() < self.goal
    }

    fn falls_short_of_limit(&self) -> bool {
        self.ours < LIMIT_GOAL * self.limit
    }

    fn line(&self, name: &str, [least, greatest]: [f64; 2]) -> String {
        let (goal, word) = if self.goal == 0.0 {
            (String::new(), "")
        } else {
            (format!("{:.1}", self.goal), word(self.falls_short()))
        };
        let [our_part, plain_part] = self.reading;
        let ratios = format!("{least:.3} {greatest:.3}");
        format!(
            "{name:<40} {:>11.0} {:>11.0} {:>7.3} {goal:>5}  {word:<5}  {ratios:>13}  {}  \
             {our_part:>4.1}% {plain_part:>4.1}%  {}",
            self.ours,
            self.plain,
            self.ratio(),
            self.beside_limit(),
            self.note,
        )
    }

    /// The limit's speed, and ours as a part of it.
    fn beside_limit(&self) -> String {
        if self.limit == 0.0 {
            return format!("{:>11} {:>6}  {:<5}", "", "", "");
        }
        let (part, word) = (self.ours / self.limit, word(self.falls_short_of_limit()));
        format!("{:>11.0} {part:>6.3}  {word:<5}", self.limit)
    }
}

fn word(short: bool) -> &'static str {
    match short {
        true => "short",
        false => "ok",
    }
}
