//! Help, and calls that are wrong.

use crate::tools::{example, run};

const COMMANDS: [&str; 14] = [
    "steps", "rules", "run", "table", "size", "check", "compare", "trace", "start", "timeline",
    "explore", "promela", "show", "pack",
];

#[test]
fn help_names_every_command_with_an_example() {
    let help = run(&["--help"]).good();
    assert_eq!(run(&["help"]).good(), help);
    for command in COMMANDS {
        assert!(help.contains(&format!("\n  {command} ")), "{command}");
        let own = run(&[command, "--help"]).good();
        assert!(
            own.starts_with(&format!("usage: futonkestrel {command} ")),
            "{own}"
        );
        assert!(
            own.contains(&format!("\nexample:\n  futonkestrel {command} ")),
            "{own}"
        );
        assert_eq!(run(&["help", command]).good(), own);
        assert_eq!(run(&[command, "--table", "-h", "no such file"]).good(), own);
    }
    assert!(help.contains("example:"));
}

#[test]
fn version() {
    let version = format!("futonkestrel {}\n", env!("CARGO_PKG_VERSION"));
    assert_eq!(run(&["--version"]).good(), version);
}

#[test]
fn wrong_calls() {
    assert!(run(&[])
        .wrong_call()
        .contains("usage: futonkestrel COMMAND"));
    assert!(run(&["dance"]).wrong_call().contains("no command 'dance'"));
    assert!(run(&["help", "dance"])
        .wrong_call()
        .contains("no command 'dance'"));
    let model = example("m/model.bin");
    let says = |words: &[&str], text: &str| {
        let said = run(words).wrong_call();
        assert!(said.contains(text), "{words:?}: {said}");
        assert!(said.contains("usage: futonkestrel"), "{words:?}: {said}");
    };
    says(&["check"], "1 file wanted, 0 given");
    says(&["size"], "1 file wanted, 0 given");
    says(&["size", &model, &model], "1 file wanted, 2 given");
    says(&["size", "--table", &model], "no option '--table'");
    says(&["steps", &model], "2 files wanted, 1 given");
    says(&["check", &model, &model], "1 file wanted, 2 given");
    says(&["check", "--words", &model], "no option '--words'");
    says(&["steps", &model, &model, "--names"], "--names wants FILE");
}

#[test]
fn standard_input_is_one_file_only() {
    let said = run(&["steps", "-", "-"]).wrong_call();
    assert!(
        said.contains("only one of the files can be standard input"),
        "{said}"
    );
    let model = example("m/model.bin");
    run(&["steps", "--names", "-", &model, "-"]).wrong_call();
    run(&["show", "--model", "--table", &model]).wrong_call();
}

/// Two hyphens end the options.
#[test]
fn a_file_whose_name_begins_with_a_hyphen() {
    let said = run(&["check", "--", "--table"]).no_file();
    assert_eq!(said, "futonkestrel: --table: No such file or directory\n");
}
