//! Names that people give to items: a line each, `thread 0 sample`.

use std::ffi::OsStr;

use crate::files::{self, Input};
use crate::format::{Item, NAMED};
use crate::words::Line;
use crate::Failure;

#[derive(Default)]
pub struct Names {
    names: Vec<(Item, i64, String)>,
    /// The file that they were read from.
    pub file: Option<Input>,
}

impl Names {
    /// The names of a file, or none where no file is given.
    pub fn read(file: Option<&OsStr>) -> Result<Names, Failure> {
        let Some(file) = file else {
            return Ok(Names::default());
        };
        let input = files::read(file)?;
        let text = input.text()?;
        let mut names = Vec::new();
        for mut line in Line::all(text) {
            names.push(name(&mut line).map_err(|fault| fault.in_file(&input.name))?);
        }
        Ok(Names {
            names,
            file: Some(input),
        })
    }

    pub fn of(&self, item: Item, number: i64) -> Option<&str> {
        // The last line for an item counts.
        let found = self
            .names
            .iter()
            .rev()
            .find(|(named, at, _)| (*named, *at) == (item, number));
        found.map(|(_, _, name)| name.as_str())
    }

    /// The item of a sort that has this name.
    pub fn number(&self, item: Item, name: &str) -> Option<i64> {
        let mut named = self.names.iter().filter(|(sort, ..)| *sort == item);
        named
            .find(|(_, at, own)| own == name && self.of(item, *at) == Some(name))
            .map(|(_, at, _)| *at)
    }

    /// `sample`, or `thread 0` without a name.
    pub fn or_number(&self, item: Item, number: i64) -> String {
        self.of(item, number)
            .map_or_else(|| format!("{} {number}", item.word()), str::to_string)
    }
}

fn name(line: &mut Line) -> Result<(Item, i64, String), crate::words::Fault> {
    let words: Vec<&str> = NAMED.iter().map(|item| item.word()).collect();
    let found = line
        .peek()
        .and_then(|word| words.iter().position(|known| *known == word));
    let Some(at) = found else {
        return Err(line.fault(&format!("one of {}", words.join(", "))));
    };
    line.skip();
    let number = line.number(0, 65_535)?;
    Ok((NAMED[at], number, line.rest("a name")?))
}
