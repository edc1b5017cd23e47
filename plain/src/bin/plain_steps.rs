//! Behaves as document 01's program `steps`.

use plain::listing::{read_first, steps};
use std::io::{stdout, Result, Write};

fn main() -> Result<()> {
    let model = read_first("model.bin")?;
    let script = read_first("script.bin")?;
    stdout().write_all(steps(&model, &script).as_bytes())
}
