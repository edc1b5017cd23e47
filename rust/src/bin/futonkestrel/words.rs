//! Lines of text taken word by word, with faults that name line and word.

use crate::Failure;

/// What is wrong with a text, and where.
#[derive(Debug)]
pub struct Fault {
    line: usize,
    /// The word's number from 1 and the word; nothing at the line's end.
    word: Option<(usize, String)>,
    text: String,
}

impl Fault {
    /// The same place with other words.
    pub fn saying(self, text: &str) -> Fault {
        Fault {
            text: text.to_string(),
            ..self
        }
    }

    pub fn in_file(self, file: &str) -> Failure {
        let Fault { line, word, text } = self;
        Failure::Text(match word {
            Some((number, word)) => format!("{file}: line {line}, word {number} '{word}': {text}"),
            None => format!("{file}: line {line}, at its end: {text}"),
        })
    }
}

/// A piece of a line: a name, a number or a sign.
#[derive(Debug)]
struct Piece<'a> {
    text: &'a str,
    /// The word that it is a part of, counted from 1, and that word.
    word: (usize, &'a str),
    place: usize,
}

/// What a line says before its comment.
#[derive(Debug)]
pub struct Line<'a> {
    number: usize,
    text: &'a str,
    pieces: Vec<Piece<'a>>,
    at: usize,
}

/// Signs of more than one character.
const LONG_SIGNS: [&str; 5] = [":=", "!=", ">=", "<=", ".."];

impl<'a> Line<'a> {
    /// The lines of a text that say something.
    pub fn all(text: &'a str) -> impl Iterator<Item = Line<'a>> {
        let said = |line: &'a str| line.split('#').next().unwrap_or("").trim_end();
        let lines = text.lines().enumerate();
        lines
            .map(move |(at, line)| Line::new(at + 1, said(line)))
            .filter(|line| !line.pieces.is_empty())
    }

    fn new(number: usize, text: &'a str) -> Line<'a> {
        let mut pieces = Vec::new();
        for (at, word) in text.split_whitespace().enumerate() {
            let mut place = word.as_ptr() as usize - text.as_ptr() as usize;
            let mut rest = word;
            while !rest.is_empty() {
                let (piece, others) = rest.split_at(piece_length(rest));
                pieces.push(Piece {
                    text: piece,
                    word: (at + 1, word),
                    place,
                });
                place += piece.len();
                rest = others;
            }
        }
        Line {
            number,
            text,
            pieces,
            at: 0,
        }
    }

    /// The bytes of a line that is written in hexadecimal, two digits each.
    pub fn bytes(&mut self) -> Option<Result<Vec<u8>, Fault>> {
        let byte = |word: &str| {
            let digits = word.len() == 2 && word.chars().all(|c| c.is_ascii_hexdigit());
            digits.then(|| u8::from_str_radix(word, 16).ok()).flatten()
        };
        byte(self.text.split_whitespace().next()?)?;
        let one = |(at, word): (usize, &str)| {
            byte(word).ok_or_else(|| Fault {
                line: self.number,
                word: Some((at + 1, word.to_string())),
                text: "expected a byte as two hexadecimal digits".to_string(),
            })
        };
        Some(self.text.split_whitespace().enumerate().map(one).collect())
    }

    pub fn peek(&self) -> Option<&'a str> {
        self.pieces.get(self.at).map(|piece| piece.text)
    }

    pub fn peek_second(&self) -> Option<&'a str> {
        self.pieces.get(self.at + 1).map(|piece| piece.text)
    }

    pub fn skip(&mut self) {
        self.at += 1;
    }

    pub fn fault(&self, expected: &str) -> Fault {
        self.wrong(&format!("expected {expected}"))
    }

    /// Something else is wrong with the present word.
    pub fn wrong(&self, text: &str) -> Fault {
        let word = self
            .pieces
            .get(self.at)
            .map(|piece| (piece.word.0, piece.word.1.to_string()));
        Fault {
            line: self.number,
            word,
            text: text.to_string(),
        }
    }

    /// Something is wrong with the word just taken.
    pub fn wrong_before(&mut self, text: &str) -> Fault {
        self.at -= 1;
        self.wrong(text)
    }

    /// Takes this piece if it stands here.
    pub fn take(&mut self, piece: &str) -> bool {
        let here = self.peek() == Some(piece);
        self.at += usize::from(here);
        here
    }

    /// Takes these words, which must stand here.
    pub fn expect(&mut self, words: &str) -> Result<(), Fault> {
        for word in words.split_whitespace() {
            if !self.take(word) {
                return Err(self.fault(&format!("'{word}'")));
            }
        }
        Ok(())
    }

    /// Whether these words stand here.
    pub fn sees(&self, words: &str) -> bool {
        let pieces = self.pieces[self.at..].iter().map(|piece| piece.text);
        let wanted: Vec<&str> = words.split_whitespace().collect();
        pieces.take(wanted.len()).eq(wanted.iter().copied())
    }

    /// Whether a number stands here.
    pub fn sees_number(&self) -> bool {
        let digits = |text: &str| {
            text.strip_prefix('-')
                .unwrap_or(text)
                .starts_with(|c: char| c.is_ascii_digit())
        };
        self.peek().is_some_and(digits)
    }

    /// A number from `low` to `high`.
    pub fn number(&mut self, low: i64, high: i64) -> Result<i64, Fault> {
        let expected = format!("a number from {low} to {high}");
        let number = self.peek().and_then(|text| text.parse::<i64>().ok());
        match number {
            Some(number) if (low..=high).contains(&number) => {
                self.skip();
                Ok(number)
            }
            _ => Err(self.fault(&expected)),
        }
    }

    /// All that is left, as it is written.
    pub fn rest(&mut self, expected: &str) -> Result<String, Fault> {
        let Some(piece) = self.pieces.get(self.at) else {
            return Err(self.fault(expected));
        };
        self.at = self.pieces.len();
        Ok(self.text[piece.place..].to_string())
    }

    /// Nothing may follow.
    pub fn end(&self) -> Result<(), Fault> {
        match self.peek() {
            None => Ok(()),
            Some(_) => Err(self.fault("the end of the line")),
        }
    }
}

/// How long the name, number or sign at the start of some text is.
fn piece_length(text: &str) -> usize {
    if let Some(sign) = LONG_SIGNS.iter().find(|sign| text.starts_with(**sign)) {
        return sign.len();
    }
    let first = text.chars().next().map_or(0, char::len_utf8);
    let negative = text.starts_with('-') && text[1..].starts_with(|c: char| c.is_ascii_digit());
    let in_name = |c: char| c.is_alphanumeric() || c == '_';
    if !negative && !text.starts_with(in_name) {
        return first;
    }
    let rest = &text[first..];
    first + rest.find(|c: char| !in_name(c)).unwrap_or(rest.len())
}
