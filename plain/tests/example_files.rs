//! The files under `examples/`: each annotated hexadecimal text has the bytes that stand beside it, and the listing is what both runs print.

use std::fs;
use std::path::{Path, PathBuf};

fn examples() -> Vec<PathBuf> {
    let root = Path::new(env!("CARGO_MANIFEST_DIR")).join("../examples");
    let mut found: Vec<PathBuf> = fs::read_dir(root)
        .unwrap()
        .map(|entry| entry.unwrap().path())
        .filter(|path| path.is_dir())
        .collect();
    found.sort();
    assert!(found.len() >= 2, "the examples are there");
    found
}

/// The bytes of an annotated text: two hexadecimal digits each, `#` starts a comment.
fn bytes_of(text: &str) -> Vec<u8> {
    text.lines()
        .flat_map(|line| line.split('#').next().unwrap().split_whitespace())
        .map(|digits| u8::from_str_radix(digits, 16).unwrap())
        .collect()
}

#[test]
fn texts_have_the_bytes() {
    for folder in examples() {
        for name in ["model", "script"] {
            let text = fs::read_to_string(folder.join(format!("{name}.hex"))).unwrap();
            let bytes = fs::read(folder.join(format!("{name}.bin"))).unwrap();
            assert_eq!(bytes_of(&text), bytes, "{} of {}", name, folder.display());
        }
    }
}

#[test]
fn listings_are_what_model_and_table_print() {
    for folder in examples() {
        let model = fs::read(folder.join("model.bin")).unwrap();
        let script = fs::read(folder.join("script.bin")).unwrap();
        let listing = fs::read_to_string(folder.join("listing.txt")).unwrap();
        assert_eq!(
            plain::listing::steps(&model, &script),
            listing,
            "steps in {}",
            folder.display()
        );
        assert_eq!(
            plain::listing::rules(&model, &script, 65_536),
            listing,
            "rules in {}",
            folder.display()
        );
    }
}
