//! The speed of the verified library beside those of the plain model and of the
//! limit, the fastest that we know how to write without a proof.
//!
//!     bench [--instructions] [TEXT]
//!
//! Each measurement gives all sides the same input and compares what they make
//! of it. `--instructions` counts instructions in place of time. With a TEXT,
//! only measurements whose name has it are made.

mod ends;
mod instructions;
mod limit;
mod limit_work;
mod measure;
mod models;
mod scripts;
mod size_work;
mod speeds;
mod stepped_work;
mod subjects;
mod work;

use std::env;
use std::process::exit;

fn main() {
    let arguments: Vec<String> = env::args().skip(1).collect();
    let arguments: Vec<&str> = arguments.iter().map(String::as_str).collect();
    let outcome = match arguments[..] {
        [instructions::COUNTED, text] => {
            instructions::be_counted(text);
            Ok(())
        }
        [speeds::MEASURED, name] => {
            speeds::measure(name);
            Ok(())
        }
        ["--instructions"] => instructions::report(""),
        ["--instructions", text] => instructions::report(text),
        [] => speeds::report(""),
        [text] if !text.starts_with('-') => speeds::report(text),
        _ => Err("wrong arguments: [--instructions] [TEXT]".to_string()),
    };
    if let Err(problem) = outcome {
        eprintln!("bench: {problem}");
        exit(1);
    }
}
