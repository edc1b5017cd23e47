//! Counting instructions: the program runs itself in valgrind.

use std::env;
use std::fs;
use std::path::Path;
use std::process::{Command, Stdio};

use crate::measure::{bench_measured, Measurement};
use crate::subjects::Amounts;
use crate::work::measurements;

/// The argument of the program that is counted.
pub const COUNTED: &str = "--counted";

/// Where the profiles go, for callgrind_annotate --threshold=100 --auto=no. The
/// functions around the measured call come first there, with its whole count.
const FOLDER: &str = "target/bench/instructions";

/// Repetitions of work that has no script.
const TIMES: usize = 2;
/// Tables above this length are given fewer events.
const LONG_TABLE: usize = 65_536;

/// The size of the calls that are counted.
fn size(measurement: &Measurement) -> usize {
    let events = if measurement.table_bytes > LONG_TABLE {
        400
    } else {
        2_000
    };
    match measurement.most {
        usize::MAX => TIMES,
        most => most.min(events),
    }
}

/// The program that is counted: every side without events, then with some. It
/// prints name, side and units of each call, in the order of the profiles.
pub fn be_counted(text: &str) {
    let amounts = Amounts {
        events: 2_000,
        ticks: 70_000,
    };
    for measurement in measurements(text, amounts) {
        let sides = [
            ("ours", Some(&measurement.ours)),
            ("plain", Some(&measurement.plain)),
            ("limit", measurement.limit.as_ref()),
        ];
        for (side, work) in sides {
            let Some(work) = work else { continue };
            for size in [0, size(&measurement)] {
                let done = bench_measured(work, size);
                println!("{}\t{side}\t{}", measurement.name, done.units);
            }
        }
    }
}

/// Runs the counted program and prints the instructions of one unit.
pub fn report(text: &str) -> Result<(), String> {
    let folder = Path::new(FOLDER);
    // No profile of an earlier count is to be left.
    let _ = fs::remove_dir_all(folder);
    fs::create_dir_all(folder).map_err(|error| format!("{FOLDER}: {error}"))?;
    let program = env::current_exe().map_err(|error| error.to_string())?;
    let counted = Command::new("valgrind")
        // A copy by one string instruction would count once for each byte.
        .env("GLIBC_TUNABLES", "glibc.cpu.hwcaps=-ERMS,-FSRM")
        .args(["--tool=callgrind", "--quiet"])
        .args([
            "--toggle-collect=bench_measured",
            "--dump-after=bench_measured",
        ])
        .arg(format!("--callgrind-out-file={FOLDER}/profile"))
        .arg(program)
        .args([COUNTED, text])
        .stderr(Stdio::inherit())
        .output()
        .map_err(|error| format!("valgrind: {error}"))?;
    if !counted.status.success() {
        return Err("the counted program failed".to_string());
    }
    let lines = String::from_utf8_lossy(&counted.stdout).into_owned();
    let lines: Vec<&str> = lines.lines().collect();
    print!(
        "{:<40} {:>12} {:>12} {:>8}",
        "instructions of one unit", "ours", "plain", "ratio"
    );
    println!(" {:>12} {:>8}  profiles", "limit", "of it");
    let counts: Vec<Count> = lines
        .iter()
        .zip(1..)
        .map(|(line, profile)| count(line, &folder.join(format!("profile.{profile}"))))
        .collect::<Result<_, _>>()?;
    let mut first = 0;
    while first < counts.len() {
        let name = &counts[first].name;
        let own = counts[first..]
            .iter()
            .take_while(|count| count.name == *name);
        let sides = own.count() / 2;
        print_line(&counts[first..first + 2 * sides], first + 1);
        first += 2 * sides;
    }
    Ok(())
}

/// One measurement: two counts of each side. `first` is its first profile.
fn print_line(counts: &[Count], first: usize) {
    let sides: Vec<f64> = counts
        .chunks(2)
        .map(|side| side[1].per_unit(&side[0]))
        .collect();
    let (ours, plain) = (sides[0], sides[1]);
    print!(
        "{:<40} {ours:>12.1} {plain:>12.1} {:>8.3}",
        counts[0].name,
        plain / ours
    );
    match sides.get(2) {
        Some(limit) => print!(" {limit:>12.1} {:>8.3}", limit / ours),
        None => print!(" {:>12} {:>8}", "", ""),
    }
    let profiles: Vec<String> = (1..counts.len())
        .step_by(2)
        .map(|at| (first + at).to_string())
        .collect();
    println!("  {}", profiles.join(" "));
}

/// The units of a call and its instructions.
struct Count {
    name: String,
    units: u64,
    instructions: u64,
}

impl Count {
    /// The instructions of each unit beyond those of the call without any.
    fn per_unit(&self, none: &Count) -> f64 {
        let more = self.instructions.saturating_sub(none.instructions);
        more as f64 / (self.units - none.units).max(1) as f64
    }
}

fn count(line: &str, profile: &Path) -> Result<Count, String> {
    let units = line.rsplit('\t').next().unwrap_or_default();
    let text =
        fs::read_to_string(profile).map_err(|error| format!("{}: {error}", profile.display()))?;
    let total = text
        .lines()
        .find_map(|line| line.strip_prefix("summary: "))
        .or_else(|| text.lines().find_map(|line| line.strip_prefix("totals: ")))
        .ok_or_else(|| format!("{}: no total", profile.display()))?;
    Ok(Count {
        name: line.split('\t').next().unwrap_or_default().to_string(),
        units: units.parse().map_err(|_| format!("no units: {line}"))?,
        instructions: total
            .trim()
            .parse()
            .map_err(|_| format!("no total: {total}"))?,
    })
}
