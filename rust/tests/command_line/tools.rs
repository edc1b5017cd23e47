//! Runs the program as people do: words, files, what it prints and its status.

use std::env;
use std::fs;
use std::io::Write;
use std::path::{Path, PathBuf};
use std::process::{Command, Output, Stdio};
use std::thread;

/// What a call printed and how it ended.
#[derive(Debug, PartialEq, Eq)]
pub struct Done {
    pub status: i32,
    pub out: String,
    pub err: String,
}

pub fn program() -> Command {
    Command::new(env!("CARGO_BIN_EXE_futonkestrel"))
}

pub fn run(words: &[&str]) -> Done {
    done(program().args(words).stdin(Stdio::null()).output())
}

/// The same with something on standard input.
pub fn run_with(words: &[&str], input: &[u8]) -> Done {
    done(output_with(words, input))
}

/// What a call printed as bytes; it must have done its work.
pub fn bytes_with(words: &[&str], input: &[u8]) -> Vec<u8> {
    let output = output_with(words, input).expect("the program runs");
    assert!(output.status.success(), "{words:?}: {output:?}");
    output.stdout
}

fn output_with(words: &[&str], input: &[u8]) -> std::io::Result<Output> {
    let mut call = program();
    call.args(words).stdin(Stdio::piped());
    call.stdout(Stdio::piped()).stderr(Stdio::piped());
    let mut child = call.spawn()?;
    let mut standard = child.stdin.take().expect("it is a pipe");
    thread::scope(|scope| {
        // A program that ends early does not read all of it.
        scope.spawn(move || drop(standard.write_all(input)));
        child.wait_with_output()
    })
}

fn done(output: std::io::Result<Output>) -> Done {
    let output = output.expect("the program runs");
    Done {
        status: output.status.code().expect("no signal ends it"),
        out: String::from_utf8(output.stdout).expect("it prints text"),
        err: String::from_utf8(output.stderr).expect("it complains in text"),
    }
}

impl Done {
    /// It did its work without a word of complaint.
    pub fn good(self) -> String {
        assert_eq!((self.status, self.err.as_str()), (0, ""), "{self:?}");
        self.out
    }

    /// It refused; the result is what it says about that.
    pub fn refused(self) -> String {
        assert_eq!(self.status, 1, "{self:?}");
        self.err
    }

    /// It was called in a wrong way and did nothing.
    pub fn wrong_call(self) -> String {
        assert_eq!((self.status, self.out.as_str()), (2, ""), "{self:?}");
        self.err
    }

    /// A file cannot be read or written.
    pub fn no_file(self) -> String {
        assert_eq!(self.status, 3, "{self:?}");
        self.err
    }
}

/// A file of the examples.
pub fn example(name: &str) -> String {
    format!("{}/../examples/{name}", env!("CARGO_MANIFEST_DIR"))
}

/// The first example under a heading of README, run as it stands there; it prints what
/// README has.
pub fn readme_example(heading: &str) -> String {
    let readme = include_str!("../../../README.md");
    let passage = readme.split(heading).nth(1).expect("there");
    let block = passage.split("```\n").nth(1).expect("an example");
    let (calls, answers): (Vec<&str>, Vec<&str>) =
        block.lines().partition(|line| line.starts_with("$ "));
    let calls: Vec<&str> = calls.iter().map(|line| &line[2..]).collect();
    let program = program();
    let folder = Path::new(program.get_program()).parent().expect("a folder");
    let path = env::var("PATH").expect("there is one");
    let mut call = Command::new("sh");
    call.args(["-c", &calls.join("\n")])
        .env("PATH", format!("{}:{path}", folder.display()))
        .current_dir(Path::new(env!("CARGO_MANIFEST_DIR")).join(".."));
    let said = done(call.output()).good();
    assert_eq!(said.lines().collect::<Vec<_>>(), answers);
    said
}

pub fn bytes_of(file: &str) -> Vec<u8> {
    fs::read(file).unwrap_or_else(|error| panic!("{file}: {error}"))
}

/// A folder of a test's own, empty at its start.
pub struct Folder {
    path: PathBuf,
}

/// `rt ci` refuses a link wherever it lies in the checkout, so none outlives its test.
impl Drop for Folder {
    fn drop(&mut self) {
        for entry in fs::read_dir(&self.path).into_iter().flatten().flatten() {
            if entry.file_type().is_ok_and(|kind| kind.is_symlink()) {
                let _ = fs::remove_file(entry.path());
            }
        }
    }
}

impl Folder {
    pub fn new(name: &str) -> Folder {
        let path = Path::new(env!("CARGO_TARGET_TMPDIR")).join(format!("command-line-{name}"));
        let _ = fs::remove_dir_all(&path);
        fs::create_dir_all(&path).expect("the folder can be made");
        Folder { path }
    }

    pub fn path(&self, name: &str) -> String {
        self.path
            .join(name)
            .to_str()
            .expect("a plain path")
            .to_string()
    }

    pub fn write(&self, name: &str, bytes: &[u8]) -> String {
        fs::write(self.path(name), bytes).expect("the file can be written");
        self.path(name)
    }

    /// What a text says, as a file.
    pub fn pack(&self, name: &str, text: &str) -> String {
        let file = self.path(name);
        assert_eq!(run_with(&["pack", "-", &file], text.as_bytes()).good(), "");
        file
    }

    /// The names of all files in it.
    pub fn files(&self) -> Vec<String> {
        let entries = fs::read_dir(&self.path).expect("the folder is there");
        let name = |entry: std::io::Result<fs::DirEntry>| entry.expect("an entry").file_name();
        let mut names: Vec<String> = entries
            .map(|entry| name(entry).into_string().expect("text"))
            .collect();
        names.sort();
        names
    }

    /// An example as text with one piece of it changed, as bytes again.
    pub fn edited(&self, file: &str, from: &str, to: &str) -> String {
        let text = run(&["show", &example(file)]).good();
        assert!(text.contains(from), "no '{from}' in {file}");
        self.pack("edited.bin", &text.replacen(from, to, 1))
    }
}
