//! Files read whole and written whole.

use std::ffi::OsStr;
use std::fs::{self, File, Metadata, OpenOptions};
use std::io::{self, ErrorKind, Read, Write};
use std::os::fd::AsFd;
use std::os::unix::fs::{fchown, MetadataExt};
use std::path::{Path, PathBuf};
use std::process;

use crate::Failure;

/// A file that was read.
pub struct Input {
    /// As it was called, `-` for standard input.
    pub name: String,
    pub bytes: Vec<u8>,
    /// The file it is, where it is an ordinary one.
    identity: Option<(u64, u64)>,
}

impl Input {
    /// What it says; a mark of UTF-8 at its start says nothing.
    pub fn text(&self) -> Result<&str, Failure> {
        let text = std::str::from_utf8(&self.bytes);
        text.map(|text| text.trim_start_matches('\u{feff}'))
            .map_err(|fault| {
                let before = &self.bytes[..fault.valid_up_to()];
                let line = 1 + before.iter().filter(|byte| **byte == b'\n').count();
                let word = 1 + before
                    .rsplit(|byte| *byte == b'\n')
                    .next()
                    .map_or(0, words_before);
                Failure::Text(format!(
                    "{}: line {line}, word {word}: no text (bytes that are not UTF-8)",
                    self.name
                ))
            })
    }
}

/// How many words end before a place in a line.
fn words_before(line: &[u8]) -> usize {
    let ended = line.last().is_none_or(u8::is_ascii_whitespace);
    let words = line
        .split(u8::is_ascii_whitespace)
        .filter(|word| !word.is_empty())
        .count();
    words - usize::from(!ended)
}

/// Reads a whole file, or standard input for `-`.
pub fn read(file: &OsStr) -> Result<Input, Failure> {
    let fail = |error| failure(&called(file, "standard input"), &error);
    let mut bytes = Vec::new();
    let about = if file == "-" {
        let mut standard = File::from(io::stdin().as_fd().try_clone_to_owned().map_err(fail)?);
        standard.read_to_end(&mut bytes).map_err(fail)?;
        standard.metadata()
    } else {
        let mut opened = File::open(file).map_err(fail)?;
        opened.read_to_end(&mut bytes).map_err(fail)?;
        opened.metadata()
    };
    let about = about.map_err(fail)?;
    let name = file.to_string_lossy().into_owned();
    Ok(Input {
        name,
        bytes,
        identity: about.is_file().then(|| identity(&about)),
    })
}

/// Two files, of which only one may be standard input.
pub fn read_two(first: &OsStr, second: &OsStr) -> Result<(Input, Input), Failure> {
    if first == "-" && second == "-" {
        return Err(one_standard_input());
    }
    Ok((read(first)?, read(second)?))
}

pub fn one_standard_input() -> Failure {
    Failure::Usage("only one of the files can be standard input".to_string())
}

/// Writes to standard output. The result is whether anybody reads it still: a
/// reader who has gone is no fault.
pub fn print(bytes: &[u8]) -> Result<bool, Failure> {
    let mut output = io::stdout().lock();
    let written = output.write_all(bytes).and_then(|()| output.flush());
    unless_gone(written).map_err(|error| failure("standard output", &error))
}

/// A closed pipe ends quietly.
fn unless_gone(written: io::Result<()>) -> io::Result<bool> {
    match written {
        Err(error) if error.kind() == ErrorKind::BrokenPipe => Ok(false),
        other => other.map(|()| true),
    }
}

/// Writes a whole file, never over one of `inputs`: ordinary files by way of a
/// temporary one beside them, all others, such as devices and pipes, straight.
pub fn write(file: &OsStr, bytes: &[u8], inputs: &[&Input]) -> Result<(), Failure> {
    if file == "-" {
        return print(bytes).map(|_| ());
    }
    let fail = |error| failure(&file.to_string_lossy(), &error);
    let path = place_of(file, inputs)?;
    let about = fs::metadata(&path);
    match about {
        Ok(about) if is_standard_output(&about) => print(bytes).map(|_| ()),
        Ok(about) if about.is_file() => replace(&path, bytes, Some(&about)).map_err(fail),
        Ok(_) => straight(&path, bytes).map_err(fail),
        Err(error) if error.kind() == ErrorKind::NotFound => {
            replace(&path, bytes, None).map_err(fail)
        }
        Err(error) => Err(fail(error)),
    }
}

/// Where an output goes; it is never one of `inputs`, and its folder is there.
pub fn place_of(file: &OsStr, inputs: &[&Input]) -> Result<PathBuf, Failure> {
    let path = followed(Path::new(file));
    let path = path.map_err(|error| failure(&file.to_string_lossy(), &error))?;
    let itself = fs::metadata(&path).ok().filter(Metadata::is_file);
    let itself = itself.as_ref().map(identity);
    let over = |input: &&&Input| itself.is_some() && input.identity == itself;
    match inputs.iter().find(over) {
        None => Ok(path),
        Some(input) => {
            let (out, read) = (file.to_string_lossy(), &input.name);
            Err(Failure::Usage(format!(
                "{out} is the input {read}; write to another file"
            )))
        }
    }
}

/// Where a path leads when its links are followed, so that a link stays a link.
fn followed(path: &Path) -> io::Result<PathBuf> {
    let mut path = path.to_path_buf();
    for _ in 0..40 {
        let Some(name) = path.file_name() else {
            return Ok(path);
        };
        let folder = match path.parent() {
            Some(parent) if parent != Path::new("") => fs::canonicalize(parent)?,
            _ => fs::canonicalize(".")?,
        };
        path = folder.join(name);
        match fs::read_link(&path) {
            // A link in /proc stands for an open file, which may have no path: it is opened as it is.
            Ok(target) if !in_proc(&path) => path = folder.join(target),
            _ => return Ok(path),
        }
    }
    Err(io::Error::other("too many links"))
}

fn in_proc(path: &Path) -> bool {
    path.starts_with("/proc")
}

/// Replaces an ordinary file, or makes one.
fn replace(path: &Path, bytes: &[u8], before: Option<&Metadata>) -> io::Result<()> {
    if in_proc(path) {
        return straight(path, bytes);
    }
    if before.is_some() {
        // A file that may not be written is not replaced either.
        OpenOptions::new().write(true).open(path)?;
    }
    if path.file_name().is_none() {
        return Err(io::Error::other("not the name of a file"));
    }
    let (temporary, file) = temporary_beside(path)?;
    let done = fill(&file, bytes, before).and_then(|()| fs::rename(&temporary, path));
    if done.is_err() {
        let _ = fs::remove_file(&temporary);
    }
    done
}

/// A new file in the same folder.
fn temporary_beside(path: &Path) -> io::Result<(PathBuf, File)> {
    let mut attempt = 0;
    loop {
        let name = format!(".futonkestrel-{}-{attempt}", process::id());
        let temporary = path.with_file_name(name);
        match OpenOptions::new()
            .write(true)
            .create_new(true)
            .open(&temporary)
        {
            Ok(file) => return Ok((temporary, file)),
            Err(error) if error.kind() == ErrorKind::AlreadyExists && attempt < 100 => attempt += 1,
            Err(error) => return Err(error),
        }
    }
}

/// Writes all bytes; owner and rights are those of the file that it replaces.
fn fill(mut file: &File, bytes: &[u8], before: Option<&Metadata>) -> io::Result<()> {
    file.write_all(bytes)?;
    if let Some(before) = before {
        // Only root may give files away; others own what they replace or keep their own.
        let _ = fchown(file, Some(before.uid()), Some(before.gid()));
        file.set_permissions(before.permissions())?;
    }
    file.sync_all()
}

fn straight(path: &Path, bytes: &[u8]) -> io::Result<()> {
    let mut file = OpenOptions::new().write(true).truncate(true).open(path)?;
    unless_gone(file.write_all(bytes)).map(|_| ())
}

fn identity(about: &Metadata) -> (u64, u64) {
    (about.dev(), about.ino())
}

/// Whether it is what standard output goes to, as /dev/stdout is.
fn is_standard_output(about: &Metadata) -> bool {
    let standard = io::stdout()
        .as_fd()
        .try_clone_to_owned()
        .and_then(|file| File::from(file).metadata());
    standard.is_ok_and(|standard| identity(&standard) == identity(about))
}

fn called(file: &OsStr, standard: &str) -> String {
    if file == "-" {
        standard.to_string()
    } else {
        file.to_string_lossy().into_owned()
    }
}

fn failure(name: &str, error: &io::Error) -> Failure {
    let text = error.to_string();
    // The system's number for it says nothing to people.
    let reason = text.split(" (os error").next().unwrap_or(&text).to_string();
    Failure::File {
        name: name.to_string(),
        reason,
    }
}
