//! The programs as a user runs them: whole programs on whole files. What they
//! print is held against the plain model's listing.

use std::fs;
use std::path::{Path, PathBuf};
use std::process::{Command, Output};

const LIMIT: usize = 65_536;

fn root() -> PathBuf {
    Path::new(env!("CARGO_MANIFEST_DIR")).join("..")
}

fn example(name: &str) -> Vec<u8> {
    fs::read(root().join("examples").join(name)).unwrap()
}

/// An empty folder to run a program in.
fn folder(name: &str) -> PathBuf {
    let path = Path::new(env!("CARGO_TARGET_TMPDIR")).join(name);
    let _ = fs::remove_dir_all(&path);
    fs::create_dir_all(&path).unwrap();
    path
}

fn run(program: &str, folder: &Path, arguments: &[&str]) -> Output {
    let program = root()
        .join("target/bin")
        .join(program)
        .canonicalize()
        .unwrap();
    Command::new(program)
        .args(arguments)
        .current_dir(folder)
        .output()
        .unwrap()
}

fn printed(program: &str, folder: &Path, arguments: &[&str]) -> String {
    let output = run(program, folder, arguments);
    assert_eq!(String::from_utf8_lossy(&output.stderr), "");
    String::from_utf8(output.stdout).unwrap()
}

/// What a program prints, and what it says on standard error.
fn both(program: &str, folder: &Path, arguments: &[&str]) -> (String, String) {
    let output = run(program, folder, arguments);
    let text = |bytes| String::from_utf8(bytes).unwrap();
    (text(output.stdout), text(output.stderr))
}

/// The names of the files in a folder, in order.
fn names(folder: &Path) -> Vec<String> {
    let mut names: Vec<String> = fs::read_dir(folder)
        .unwrap()
        .map(|entry| entry.unwrap().file_name().into_string().unwrap())
        .collect();
    names.sort();
    names
}

/// A message on standard error that names the file, and nothing else.
fn complains(program: &str, folder: &Path, arguments: &[&str], name: &str) {
    let output = run(program, folder, arguments);
    assert_eq!(String::from_utf8_lossy(&output.stdout), "");
    let message = String::from_utf8(output.stderr).unwrap();
    assert!(message.starts_with(&format!("{name}: ")), "{message}");
}

#[test]
fn an_example_by_way_of_each_program() {
    let folder = folder("example");
    for example_name in ["m", "lesson"] {
        let model = example(&format!("{example_name}/model.bin"));
        let script = example(&format!("{example_name}/script.bin"));
        fs::write(folder.join("model.bin"), &model).unwrap();
        fs::write(folder.join("script.bin"), &script).unwrap();
        let listing = plain::listing::steps(&model, &script);
        let stored = String::from_utf8(example(&format!("{example_name}/listing.txt"))).unwrap();
        assert_eq!(listing, stored);
        assert_eq!(printed("steps", &folder, &[]), listing);
        assert_eq!(printed("rules", &folder, &[]), listing);
        assert_eq!(printed("make_table", &folder, &[]), "");
        let table = fs::read(folder.join("table.bin")).unwrap();
        assert_eq!(table, plain::translate::translate(&model, LIMIT).unwrap());
        assert_eq!(printed("run_table", &folder, &[]), listing);
    }
}

#[test]
fn files_that_arguments_name() {
    let folder = folder("arguments");
    let (model, script) = (example("m/model.bin"), example("m/script.bin"));
    fs::write(folder.join("pad"), &model).unwrap();
    fs::write(folder.join("events"), &script).unwrap();
    let listing = plain::listing::steps(&model, &script);
    assert_eq!(printed("steps", &folder, &["pad", "events"]), listing);
    assert_eq!(printed("rules", &folder, &["pad", "events"]), listing);
    assert_eq!(printed("make_table", &folder, &["pad", "made"]), "");
    assert_eq!(printed("run_table", &folder, &["made", "events"]), listing);
    assert!(!folder.join("table.bin").exists());
}

#[test]
fn missing_files() {
    let folder = folder("missing");
    complains("steps", &folder, &[], "model.bin");
    complains("make_table", &folder, &[], "model.bin");
    complains("steps", &folder, &["nowhere"], "nowhere");
    fs::write(folder.join("model.bin"), example("m/model.bin")).unwrap();
    complains("steps", &folder, &[], "script.bin");
    complains("rules", &folder, &[], "script.bin");
    complains("run_table", &folder, &["model.bin"], "script.bin");
    fs::write(folder.join("script.bin"), example("m/script.bin")).unwrap();
    complains("run_table", &folder, &[], "table.bin");
    complains("steps", &folder, &["."], ".");
    complains(
        "make_table",
        &folder,
        &["model.bin", "no/table"],
        "no/table",
    );
}

#[test]
fn empty_files() {
    let folder = folder("empty");
    for name in ["model.bin", "script.bin", "table.bin"] {
        fs::write(folder.join(name), []).unwrap();
    }
    let no_head = ("end 0 2 0\n".into(), "refused 2 0 0 model.bin:\n".into());
    assert_eq!(both("steps", &folder, &[]), no_head);
    assert_eq!(both("rules", &folder, &[]), no_head);
    assert_eq!(printed("run_table", &folder, &[]), "end 0 0 0\n");
}

/// The first 65,536 bytes of a file count: an event that they cut is cut, and
/// a model is read no further. Standard error says that there are more.
#[test]
fn long_files() {
    let folder = folder("long");
    let ticks = [0x0b, 1, 0].repeat(LIMIT / 3 + 1);
    let head = [1, 1, 0];
    fs::write(folder.join("model.bin"), head).unwrap();
    fs::write(folder.join("script.bin"), &ticks).unwrap();
    assert_eq!(ticks.len(), 65_538);
    let listing = plain::listing::steps(&head, &ticks[..LIMIT]);
    assert!(listing.ends_with("end 21845 9 21845\n"));
    let more = "script.bin: only the first 65536 bytes were read, there are more\n";
    let cut = "refused 9 65535 65536 script.bin: 0b\n";
    let said = (listing, format!("{more}{cut}"));
    assert_eq!(both("steps", &folder, &[]), said);
    assert_eq!(both("rules", &folder, &[]), said);
    assert_eq!(printed("make_table", &folder, &[]), "");
    assert_eq!(both("run_table", &folder, &[]), said);

    let mut long = head.to_vec();
    long.resize(LIMIT + 10, 0x02);
    fs::write(folder.join("model.bin"), &long).unwrap();
    fs::write(folder.join("script.bin"), &ticks[..LIMIT - 1]).unwrap();
    let listing = plain::listing::steps(&long[..LIMIT], &ticks);
    let (printed, said) = both("steps", &folder, &[]);
    assert_eq!(printed, listing);
    let more = "model.bin: only the first 65536 bytes were read, there are more\n";
    assert!(said.starts_with(more), "{said}");
    assert_eq!(said.lines().count(), 2);

    long.truncate(LIMIT);
    fs::write(folder.join("model.bin"), &long).unwrap();
    let (printed, said) = both("steps", &folder, &[]);
    assert_eq!(printed, listing);
    assert_eq!(said.lines().count(), 1);
}

/// `rules` has room for 65,536 bytes; `make_table` and `run_table` for every table.
#[test]
fn a_table_longer_than_the_room() {
    let folder = folder("room");
    let data = Path::new(env!("CARGO_MANIFEST_DIR")).join("tests/data/long_table.bin");
    let model = fs::read(data).unwrap();
    let script = [0x0b, 1, 0];
    fs::write(folder.join("model.bin"), &model).unwrap();
    fs::write(folder.join("script.bin"), script).unwrap();
    let table = plain::translate::translate(&model, 1_000_000).unwrap();
    assert!(table.len() > LIMIT);
    let end = model.len();
    let short = format!("refused 8 {end} {end} model.bin:\n");
    assert_eq!(both("rules", &folder, &[]), ("end 0 8 0\n".into(), short));
    assert_eq!(printed("make_table", &folder, &[]), "");
    assert_eq!(fs::read(folder.join("table.bin")).unwrap(), table);
    let listing = plain::listing::steps(&model, &script);
    let (printed, said) = both("run_table", &folder, &[]);
    assert_eq!(printed, listing);
    assert_eq!(said, "refused 10 0 3 script.bin: 0b 01 00\n");

    let mut long = table;
    long.resize(1_000_001, 0);
    fs::write(folder.join("table.bin"), &long).unwrap();
    let (printed, said) = both("run_table", &folder, &[]);
    assert_eq!(printed, "end 0 3 0\n");
    let bytes: Vec<String> = long[..64].iter().map(|b| format!(" {b:02x}")).collect();
    let whole = format!("refused 3 0 1000001 table.bin:{} ..\n", bytes.concat());
    assert_eq!(said, whole);
}

/// A refused model has the last line that `steps` prints, and makes or changes
/// no file.
#[test]
fn no_table_of_a_refused_model() {
    let folder = folder("refused");
    let mut model = example("m/model.bin");
    model.pop();
    fs::write(folder.join("model.bin"), &model).unwrap();
    fs::write(folder.join("script.bin"), []).unwrap();
    let refused =
        "refused 1 3 22 model.bin: 02 05 00 00 00 04 00 00 00 01 00 00 00 05 00 00 00 01 00\n";
    let said = ("end 0 1 0\n".to_string(), refused.to_string());
    assert_eq!(both("steps", &folder, &[]), said);
    assert_eq!(both("rules", &folder, &[]), said);
    assert_eq!(both("make_table", &folder, &[]), said);
    assert!(!folder.join("table.bin").exists());
    fs::write(folder.join("table.bin"), b"as it was").unwrap();
    assert_eq!(both("make_table", &folder, &[]), said);
    assert_eq!(fs::read(folder.join("table.bin")).unwrap(), b"as it was");
    assert_eq!(names(&folder), ["model.bin", "script.bin", "table.bin"]);
}

/// The record that is refused is told with its number and place, and the file
/// that holds it by the name that was given.
#[test]
fn refused_records() {
    let folder = folder("records");
    let (model, script) = (example("m/model.bin"), example("m/script.bin"));
    let case = |name: &str, model: &[u8], script: &[u8], last: &str, said: &str| {
        fs::write(folder.join("pad"), model).unwrap();
        fs::write(folder.join("events"), script).unwrap();
        for program in ["steps", "rules"] {
            let (listing, error) = both(program, &folder, &["pad", "events"]);
            assert_eq!(listing, plain::listing::steps(model, script), "{name}");
            assert!(listing.ends_with(last), "{name}: {listing}");
            assert_eq!(error, said, "{name}");
        }
    };
    let mut late = model.clone();
    late[8] = 6;
    case(
        "deadline over period",
        &late,
        &script,
        "end 0 15 0\n",
        "refused 15 3 23 pad: 02 05 00 00 00 06 00 00 00 01 00 00 00 05 00 00 00 01 00 00\n",
    );
    let owner = [&model[..], &[3, 7]].concat();
    let said = "refused 14 23 25 pad: 03 07\n";
    case("no such owner", &owner, &script, "end 0 14 0\n", said);
    let typed = [&model[..], &[3, 0, 4, 0, 6, 2, 0, 0, 1]].concat();
    let said = "refused 4 27 32 pad: 06 02 00 00 01\n";
    case("no such type", &typed, &script, "end 0 4 0\n", said);
    let kind = [&model[..], &[0x33, 1, 2]].concat();
    let said = "refused 2 23 26 pad: 33 01 02\n";
    case("unknown kind", &kind, &script, "end 0 2 0\n", said);
    let said = "refused 10 0 2 events: 03 00\n";
    case("not enabled", &model, &[3, 0, 1, 0], "end 0 10 0\n", said);
    let said = "refused 9 2 5 events: 04 00 01\n";
    case("cut event", &model, &[1, 0, 4, 0, 1], "end 1 9 0\n", said);
    let said = "refused 9 2 4 events: 63 01\n";
    case("unknown event", &model, &[1, 0, 99, 1], "end 1 9 0\n", said);
    case("nothing", &model, &script, "end 7 0 4\n", "");
}

#[test]
fn refused_tables() {
    let folder = folder("tables");
    let script = example("m/script.bin");
    fs::write(folder.join("script.bin"), &script).unwrap();
    let run = |table: &[u8]| {
        fs::write(folder.join("made"), table).unwrap();
        both("run_table", &folder, &["made"])
    };
    let good = plain::translate::translate(&example("m/model.bin"), LIMIT).unwrap();
    let cut = [&good[..], &[0x23, 1]].concat();
    let end = good.len();
    let said = format!("refused 1 {end} {} made: 23 01\n", end + 2);
    assert_eq!(run(&cut), ("end 0 1 0\n".into(), said));
    let said = "refused 14 0 7 made: 20 20 01 00 00 00 00\n".to_string();
    let missing = [0x20, 0x20, 1, 0, 0, 0, 0];
    assert_eq!(run(&missing), ("end 0 14 0\n".into(), said));
    let said = "refused 2 0 1 made: 22\n".to_string();
    assert_eq!(run(&[0x22]), ("end 0 2 0\n".into(), said));
    let said = "refused 10 0 2 script.bin: 01 00\n".to_string();
    assert_eq!(run(&[]), ("end 0 10 0\n".into(), said));
}

/// Too many arguments, or one that begins with two dashes: the usage, and
/// nothing else happens.
#[test]
fn usage() {
    let folder = folder("usage");
    fs::write(folder.join("model.bin"), example("m/model.bin")).unwrap();
    fs::write(folder.join("script.bin"), example("m/script.bin")).unwrap();
    for (program, names) in [
        ("steps", "[model.bin [script.bin]]"),
        ("rules", "[model.bin [script.bin]]"),
        ("make_table", "[model.bin [table.bin]]"),
        ("run_table", "[table.bin [script.bin]]"),
    ] {
        let usage = (String::new(), format!("usage: {program} {names}\n"));
        for arguments in [
            &["--help"][..],
            &["model.bin", "--version"],
            &["model.bin", "script.bin", "more"],
        ] {
            assert_eq!(both(program, &folder, arguments), usage);
        }
    }
    assert_eq!(names(&folder), ["model.bin", "script.bin"]);
}

/// A table is written whole or not at all, and never over its model.
#[test]
fn whole_tables_or_none() {
    let folder = folder("whole");
    let model = example("m/model.bin");
    let table = plain::translate::translate(&model, LIMIT).unwrap();
    fs::write(folder.join("model.bin"), &model).unwrap();
    fs::write(folder.join("table.bin"), b"an older, longer table").unwrap();
    assert_eq!(printed("make_table", &folder, &[]), "");
    assert_eq!(fs::read(folder.join("table.bin")).unwrap(), table);
    assert_eq!(printed("make_table", &folder, &[]), "");

    complains(
        "make_table",
        &folder,
        &["model.bin", "/dev/full"],
        "/dev/full",
    );
    assert!(!fs::metadata("/dev/full").unwrap().is_file());
    assert_eq!(
        printed("make_table", &folder, &["model.bin", "/dev/null"]),
        ""
    );
    assert!(!fs::metadata("/dev/null").unwrap().is_file());
    complains(
        "make_table",
        &folder,
        &["model.bin", "model.bin"],
        "model.bin",
    );
    assert_eq!(fs::read(folder.join("model.bin")).unwrap(), model);
    fs::write(folder.join("own"), &model).unwrap();
    fs::rename(folder.join("own"), folder.join("table.bin")).unwrap();
    complains("make_table", &folder, &["table.bin"], "table.bin");
    assert_eq!(fs::read(folder.join("table.bin")).unwrap(), model);
    assert_eq!(names(&folder), ["model.bin", "table.bin"]);
}

/// Where the new file cannot be made, what was there stays: here because its
/// name is too long beside a table whose own name just fits.
#[test]
fn an_older_table_stays() {
    let folder = folder("older");
    let long = "t".repeat(255);
    fs::write(folder.join("model.bin"), example("m/model.bin")).unwrap();
    fs::write(folder.join(&long), b"as it was").unwrap();
    complains("make_table", &folder, &["model.bin", &long], &long);
    assert_eq!(fs::read(folder.join(&long)).unwrap(), b"as it was");
    fs::create_dir(folder.join("a_folder")).unwrap();
    complains(
        "make_table",
        &folder,
        &["model.bin", "a_folder"],
        "a_folder",
    );
    assert_eq!(names(&folder), ["a_folder", "model.bin", &long]);
}

/// A full disk, by a limit on the length of files: the reason is told, the
/// older table stays, and no new file is left.
#[test]
fn a_full_disk() {
    let folder = folder("full");
    let data = Path::new(env!("CARGO_MANIFEST_DIR")).join("tests/data/long_table.bin");
    fs::copy(data, folder.join("model.bin")).unwrap();
    fs::write(folder.join("table.bin"), b"as it was").unwrap();
    let program = root().join("target/bin/make_table").canonicalize().unwrap();
    let output = Command::new("sh")
        .arg("-c")
        .arg("trap '' XFSZ; ulimit -f 8; exec \"$0\"")
        .arg(program)
        .current_dir(&folder)
        .output()
        .unwrap();
    assert_eq!(String::from_utf8_lossy(&output.stdout), "");
    let message = String::from_utf8(output.stderr).unwrap();
    assert_eq!(message, "table.bin: File too large\n");
    assert_eq!(fs::read(folder.join("table.bin")).unwrap(), b"as it was");
    assert_eq!(names(&folder), ["model.bin", "table.bin"]);
}

/// A pipe is written, not replaced.
#[test]
fn a_pipe() {
    use std::os::unix::fs::FileTypeExt;
    let folder = folder("pipe");
    let model = example("m/model.bin");
    fs::write(folder.join("model.bin"), &model).unwrap();
    let pipe = folder.join("pipe");
    let made = Command::new("mkfifo").arg(&pipe).status().unwrap();
    assert!(made.success());
    let reader = {
        let pipe = pipe.clone();
        std::thread::spawn(move || fs::read(pipe).unwrap())
    };
    assert_eq!(printed("make_table", &folder, &["model.bin", "pipe"]), "");
    let table = plain::translate::translate(&model, LIMIT).unwrap();
    assert_eq!(reader.join().unwrap(), table);
    assert!(fs::metadata(&pipe).unwrap().file_type().is_fifo());
    assert_eq!(names(&folder), ["model.bin", "pipe"]);
}
