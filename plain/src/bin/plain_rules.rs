//! Behaves as document 01's program `rules`.

use plain::listing::{read_first, rules, LIMIT};
use std::io::{stdout, Result, Write};

fn main() -> Result<()> {
    let model = read_first("model.bin")?;
    let script = read_first("script.bin")?;
    stdout().write_all(rules(&model, &script, LIMIT).as_bytes())
}
