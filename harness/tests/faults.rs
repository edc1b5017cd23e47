//! Planted faults: each edit in faults/ is made to a copy of the plain model,
//! and the gate's run with that copy must find it. So every comparison is shown
//! able to fail, and every rule that is edited to be reached.

use std::collections::BTreeSet;
use std::env;
use std::fs;
use std::path::{Path, PathBuf};
use std::process::{Command, Output};

use harness::runner::{self, Plan};

/// The comparisons that a fault of the plain model cannot fail. The tests in
/// loose.rs, touched.rs and touched_steps.rs fail them.
const SHOWN_ELSEWHERE: [&str; 14] = [
    "any_index",
    "any_state",
    "any_step",
    "demand_three",
    "enabled_alike",
    "enabled_room",
    "index_room",
    "listing_room",
    "size_made",
    "size_places",
    "start_places",
    "start_taken",
    "state_room",
    "translation_room",
];

/// A fault: one place of a file of plain/src is written otherwise.
struct Fault {
    name: String,
    file: String,
    old: String,
    new: String,
    /// The comparisons that must find it, each alone.
    found_by: Vec<String>,
}

impl Fault {
    fn read(path: &Path) -> Fault {
        let text = fs::read_to_string(path).expect("the edit is text");
        let (head, edit) = text.split_once("\nold:\n").expect("a line old:");
        let (old, new) = edit.split_once("\nnew:\n").expect("a line new:");
        let field = |name: &str| {
            let line = head.lines().find_map(|line| line.strip_prefix(name));
            line.unwrap_or_else(|| panic!("{path:?} has {name}")).trim()
        };
        Fault {
            name: path
                .file_stem()
                .unwrap_or_default()
                .to_string_lossy()
                .into(),
            file: field("file:").to_string(),
            old: old.to_string(),
            new: new.trim_end_matches('\n').to_string(),
            found_by: field("found-by:").split(", ").map(str::to_string).collect(),
        }
    }

    /// Writes the file with the edit in a copy of the plain model.
    fn plant(&self, sources: &Path) {
        let file = sources.join(&self.file);
        let text = fs::read_to_string(&file).expect("the file to edit");
        let places = text.matches(&self.old).count();
        assert_eq!(places, 1, "{}: places of the old text", self.name);
        fs::write(&file, text.replace(&self.old, &self.new)).expect("written");
    }
}

fn faults() -> Vec<Fault> {
    let folder = Path::new(env!("CARGO_MANIFEST_DIR")).join("faults");
    let mut paths: Vec<PathBuf> = fs::read_dir(folder)
        .expect("the folder of faults")
        .map(|entry| entry.expect("an entry").path())
        .collect();
    paths.sort();
    paths.iter().map(|path| Fault::read(path)).collect()
}

/// Copies of plain/, rust/ and harness/ side by side, so that they find each
/// other, and one folder for all builds.
struct Workplace {
    project: PathBuf,
    copies: PathBuf,
}

impl Workplace {
    fn new() -> Workplace {
        let project = Path::new(env!("CARGO_MANIFEST_DIR")).join("..");
        let copies = Path::new(env!("CARGO_TARGET_TMPDIR")).join("faults");
        for package in ["plain", "rust", "harness"] {
            let copy = copies.join(package);
            let _ = fs::remove_dir_all(&copy);
            for file in ["Cargo.toml", "Cargo.lock", "build.rs", "src"] {
                copy_all(&project.join(package).join(file), &copy.join(file));
            }
        }
        Workplace { project, copies }
    }

    /// Puts the fault in, and out again the one before.
    fn plant(&self, fault: &Fault) {
        let sources = self.copies.join("plain/src");
        fs::remove_dir_all(&sources).expect("removed");
        copy_all(&self.project.join("plain/src"), &sources);
        fault.plant(&sources);
    }

    fn build(&self) -> Output {
        let cargo = env::var_os("CARGO").unwrap_or("cargo".into());
        let library = self.project.join("target/staticlib");
        let library = env::var_os("FUTONKESTREL_LIB").unwrap_or(library.into());
        Command::new(cargo)
            .args(["build", "--offline", "--quiet", "--profile", "fault"])
            .arg("--manifest-path")
            .arg(self.copies.join("harness/Cargo.toml"))
            .arg("--target-dir")
            .arg(self.copies.join("target"))
            .env("FUTONKESTREL_LIB", library)
            .output()
            .expect("cargo runs")
    }

    fn run(&self, comparison: &str) -> Output {
        Command::new(self.copies.join("target/fault/harness"))
            .args(["--only", comparison])
            .output()
            .expect("the harness runs")
    }
}

/// Copies a file or a folder with all in it; nothing where there is none.
fn copy_all(from: &Path, to: &Path) {
    if from.is_dir() {
        fs::create_dir_all(to).expect("created");
        for entry in fs::read_dir(from).expect("the folder") {
            let name = entry.expect("an entry").file_name();
            copy_all(&from.join(&name), &to.join(&name));
        }
    } else if from.exists() {
        let text = fs::read(from).expect("the file");
        fs::create_dir_all(to.parent().expect("a folder")).expect("created");
        fs::write(to, text).expect("written");
    }
}

#[test]
fn every_fault_is_found() {
    let workplace = Workplace::new();
    for fault in faults() {
        workplace.plant(&fault);
        let built = workplace.build();
        assert!(built.status.success(), "{}: {built:?}", fault.name);
        for comparison in &fault.found_by {
            let run = workplace.run(comparison);
            let report = String::from_utf8_lossy(&run.stdout);
            let name = format!("{} by {comparison}", fault.name);
            assert_eq!(run.status.code(), Some(1), "{name}: {run:?}");
            assert!(
                report.contains(&format!("\n{comparison}: ")),
                "{name}: {report}"
            );
        }
    }
}

#[test]
fn every_comparison_has_a_fault() {
    let outcome = runner::run(&Plan {
        seed: 1,
        cases: 0..200,
        threads: 1,
        only: None,
        trace: false,
    });
    let made: BTreeSet<&str> = outcome.tally.comparisons.keys().copied().collect();
    let faults = faults();
    let found: BTreeSet<&str> = faults
        .iter()
        .flat_map(|fault| fault.found_by.iter().map(String::as_str))
        .chain(SHOWN_ELSEWHERE)
        .collect();
    assert_eq!(made, found);
}
