//! Files that cannot be read or written, and what must not happen to others.

use std::fs::{self, File, OpenOptions};
use std::os::unix::fs::{symlink, FileTypeExt, MetadataExt, PermissionsExt};
use std::process::{Command, Stdio};

use crate::tools::{bytes_of, example, program, run, run_with, Folder};

fn model() -> String {
    example("m/model.bin")
}

fn table_of_m() -> Vec<u8> {
    futonkestrel::translate_to_vec(&bytes_of(&model())).expect("M is accepted")
}

#[test]
fn missing_files() {
    let reason = "No such file or directory";
    let model = model();
    for words in [
        &["check", "nowhere"][..],
        &["show", "nowhere"],
        &["pack", "nowhere", "-"],
        &["table", "nowhere", "-"],
        &["size", "nowhere"],
        &["steps", &model, "nowhere"],
        &["rules", "nowhere", &model],
        &["run", "nowhere", &model],
        &["trace", &model, "nowhere"],
        &["start", &model, "nowhere", "0", "1"],
        &["start", "nowhere", &model, "0", "1"],
        &["compare", &model, "nowhere"],
        &["timeline", &model, "nowhere", "-"],
        &["steps", "--names", "nowhere", &model, &model],
    ] {
        let done = run(words);
        assert_eq!(done.out, "");
        assert_eq!(
            done.no_file(),
            format!("futonkestrel: nowhere: {reason}\n"),
            "{words:?}"
        );
    }
}

#[test]
fn folders_are_no_files() {
    let folder = Folder::new("folders");
    let here = folder.path("");
    assert!(run(&["check", &here]).no_file().contains("Is a directory"));
    assert!(run(&["size", &here]).no_file().contains("Is a directory"));
    assert!(run(&["table", &model(), &here])
        .no_file()
        .contains("Is a directory"));
    let nowhere = folder.path("no/table.bin");
    let said = run(&["table", &model(), &nowhere]).no_file();
    assert_eq!(
        said,
        format!("futonkestrel: {nowhere}: No such file or directory\n")
    );
    assert!(folder.files().is_empty());
}

#[test]
fn a_full_disk() {
    let said = run(&["table", &model(), "/dev/full"]).no_file();
    assert_eq!(said, "futonkestrel: /dev/full: No space left on device\n");
    let text = example("m/model.hex");
    run(&["pack", &text, "/dev/full"]).no_file();
    let script = example("m/script.bin");
    let model = model();
    for words in [
        &["steps", &model, &script][..],
        &["steps", "--words", &model, &script],
        &["trace", &model, &script],
        &["show", &model],
        &["check", &model],
        &["size", &model],
        &["start", &model, &script, "0", "1"],
        &["table", &model, "-"],
        &["--help"],
    ] {
        let full = OpenOptions::new()
            .write(true)
            .open("/dev/full")
            .expect("it is there");
        let output = program()
            .args(words)
            .stdout(full)
            .output()
            .expect("it runs");
        assert_eq!(output.status.code(), Some(3), "{words:?}");
        let said = String::from_utf8_lossy(&output.stderr).into_owned();
        assert_eq!(
            said,
            "futonkestrel: standard output: No space left on device\n"
        );
    }
}

/// A reader who goes away is no fault, whatever was still to be said.
#[test]
fn a_closed_pipe_ends_quietly() {
    let folder = Folder::new("pipe");
    let head = folder.write("model.bin", &[1, 1, 0]);
    let script = folder.write("script.bin", &[0x0B, 1, 0].repeat(30_000));
    for words in [
        &["steps", &head, &script][..],
        &["steps", "--words", &head, &script],
        &["trace", &head, &script],
        &["show", &script],
        &["--help"],
    ] {
        let mut call = program();
        call.args(words)
            .stdout(Stdio::piped())
            .stderr(Stdio::piped());
        let mut child = call.spawn().expect("it runs");
        drop(child.stdout.take());
        let output = child.wait_with_output().expect("it ends");
        assert_eq!(output.status.code(), Some(0), "{words:?}");
        assert!(output.stderr.is_empty(), "{words:?}");
    }
}

/// Whatever name the output has: the file that is read is never written over.
#[test]
fn an_output_that_is_the_input() {
    let folder = Folder::new("input");
    let file = folder.write("model.bin", &bytes_of(&model()));
    let (link, hard) = (folder.path("link"), folder.path("hard"));
    symlink(&file, &link).expect("links can be made");
    fs::hard_link(&file, &hard).expect("links can be made");
    let round = folder.path("../command-line-input/model.bin");
    for out in [&file, &link, &hard, &round] {
        let said = run(&["table", &file, out]).wrong_call();
        assert_eq!(
            said,
            format!("futonkestrel: {out} is the input {file}; write to another file\n")
        );
        let standard = File::open(&file).expect("it is there");
        let output = program().args(["table", "-", out]).stdin(standard).output();
        assert_eq!(output.expect("it runs").status.code(), Some(2));
        assert_eq!(bytes_of(&file), bytes_of(&model()));
    }
    let text = folder.write("text", &bytes_of(&example("m/model.hex")));
    run(&["pack", &text, &text]).wrong_call();
    assert_eq!(bytes_of(&text), bytes_of(&example("m/model.hex")));
    assert_eq!(folder.files(), ["hard", "link", "model.bin", "text"]);
}

/// A refused model, or text that cannot be understood, leaves the output as it was.
#[test]
fn what_is_refused_writes_nothing() {
    let folder = Folder::new("nothing");
    let cut = folder.write("cut.bin", &bytes_of(&model())[..5]);
    let out = folder.path("out.bin");
    run(&["table", &cut, &out]).refused();
    run_with(&["pack", "-", &out], b"nonsense\n").refused();
    assert_eq!(folder.files(), ["cut.bin"]);
    folder.write("out.bin", b"as it was");
    run(&["table", &cut, &out]).refused();
    assert_eq!(bytes_of(&out), b"as it was");
}

#[test]
fn a_file_is_replaced_with_its_rights() {
    let folder = Folder::new("rights");
    let out = folder.write("out.bin", &[7; 100_000]);
    fs::set_permissions(&out, fs::Permissions::from_mode(0o640)).expect("it is ours");
    let before = fs::metadata(&out).expect("it is there");
    run(&["table", &model(), &out]).good();
    let after = fs::metadata(&out).expect("it is there");
    assert_eq!(bytes_of(&out), table_of_m());
    assert_eq!(after.mode(), before.mode());
    assert_ne!(after.ino(), before.ino(), "another file took its place");
    assert_eq!(folder.files(), ["out.bin"]);
}

/// A link goes on leading where it led, also where nothing was there.
#[test]
fn links_stay_links() {
    let folder = Folder::new("links");
    let link = folder.path("link");
    symlink("target", &link).expect("links can be made");
    for _ in 0..2 {
        run(&["table", &model(), &link]).good();
        assert!(fs::symlink_metadata(&link)
            .expect("it is there")
            .is_symlink());
        assert_eq!(bytes_of(&folder.path("target")), table_of_m());
    }
    assert_eq!(folder.files(), ["link", "target"]);
}

/// Devices and pipes are written straight and stay what they are.
#[test]
fn devices_and_pipes() {
    let model = model();
    run(&["table", &model, "/dev/null"]).good();
    assert!(fs::metadata("/dev/null")
        .expect("it is there")
        .file_type()
        .is_char_device());
    let output = program()
        .args(["table", &model, "/dev/stdout"])
        .output()
        .expect("it runs");
    assert_eq!(output.stdout, table_of_m());
    assert!(fs::symlink_metadata("/dev/stdout")
        .expect("it is there")
        .is_symlink());

    let folder = Folder::new("devices");
    let pipe = folder.path("pipe");
    assert!(Command::new("mkfifo")
        .arg(&pipe)
        .status()
        .expect("it runs")
        .success());
    let mut child = program()
        .args(["table", &model, &pipe])
        .spawn()
        .expect("it runs");
    assert_eq!(bytes_of(&pipe), table_of_m());
    assert!(child.wait().expect("it ends").success());
    assert!(fs::metadata(&pipe)
        .expect("it is there")
        .file_type()
        .is_fifo());
}

/// Standard output may be an ordinary file, under whatever name.
#[test]
fn standard_output_as_a_file() {
    let folder = Folder::new("standard");
    let file = folder.path("out.bin");
    for out in ["-", "/dev/stdout", &file] {
        let standard = File::create(&file).expect("it can be made");
        let status = program()
            .args(["table", &model(), out])
            .stdout(standard)
            .status();
        assert!(status.expect("it runs").success(), "{out}");
        assert_eq!(bytes_of(&file), table_of_m(), "{out}");
    }
    assert_eq!(folder.files(), ["out.bin"]);
}
