//! Conditions as people write them: `missed(3)>0`,
//! `state(draw)=execution and mode=exam`, `none enabled`.

use super::condition::{Condition, Operand};
use crate::format::{Item, COMPARISONS, OTHER_SIGNS};
use crate::names::Names;
use crate::variables::{self, Family, NOBODY, UNNAMED};

/// What is wrong, and before how many bytes of the text.
#[derive(Debug, PartialEq, Eq)]
pub struct Fault {
    pub place: usize,
    pub text: String,
}

impl Fault {
    /// The text with a mark below the place.
    pub fn shown(&self, condition: &str) -> String {
        let before = condition[..self.place].chars().count();
        let blanks = " ".repeat(before);
        format!("{}\n  {condition}\n  {blanks}^", self.text)
    }
}

/// What names in a condition stand for.
pub struct Known<'a> {
    pub names: &'a Names,
    /// How many items of a sort there are, where that is known.
    pub count: &'a dyn Fn(Item) -> Option<i64>,
}

pub fn parse(text: &str, known: &Known) -> Result<Condition, Fault> {
    let mut parser = Parser {
        tokens: tokens(text)?,
        at: 0,
        end: text.len(),
        depth: 0,
        known,
    };
    let condition = parser.any()?;
    match parser.peek() {
        None => Ok(condition),
        Some(_) => Err(parser.expected("'and', 'or' or the end")),
    }
}

/// Parentheses and nots within each other, so many at most.
const DEEPEST: usize = 100;

#[derive(Clone, Copy, Debug, PartialEq, Eq)]
struct Token<'a> {
    place: usize,
    text: &'a str,
    /// A name in quotes, which `text` has without them.
    quoted: bool,
}

struct Parser<'a> {
    tokens: Vec<Token<'a>>,
    at: usize,
    end: usize,
    depth: usize,
    known: &'a Known<'a>,
}

/// One side of a comparison; a word gets its meaning from the other side.
enum Side<'a> {
    Is(Operand),
    Word(Token<'a>),
}

impl<'a> Parser<'a> {
    fn any(&mut self) -> Result<Condition, Fault> {
        let mut found = self.all()?;
        while self.take_word("or") {
            found = Condition::Or(Box::new(found), Box::new(self.all()?));
        }
        Ok(found)
    }

    fn all(&mut self) -> Result<Condition, Fault> {
        let mut found = self.one()?;
        while self.take_word("and") {
            found = Condition::And(Box::new(found), Box::new(self.one()?));
        }
        Ok(found)
    }

    fn one(&mut self) -> Result<Condition, Fault> {
        self.depth += 1;
        if self.depth > DEEPEST {
            return Err(self.fault("too many parentheses within each other"));
        }
        let found = self.one_within();
        self.depth -= 1;
        found
    }

    fn one_within(&mut self) -> Result<Condition, Fault> {
        if self.take_word("not") {
            return Ok(Condition::Not(Box::new(self.one()?)));
        }
        if self.take("(") {
            let inner = self.any()?;
            self.expect(")")?;
            return Ok(inner);
        }
        if self.take_word(NOBODY) {
            return match self.take_word("enabled") {
                true => Ok(Condition::NoneEnabled),
                false => Err(self.expected("'enabled'")),
            };
        }
        match self.take_word("stuck") {
            true => Ok(Condition::Stuck),
            false => self.comparison(),
        }
    }

    fn comparison(&mut self) -> Result<Condition, Fault> {
        let left = self.side("a variable, as missed(0), 'none enabled', 'not' or '('")?;
        let op = self.sign()?;
        let right = self.side("a number, a name or a variable")?;
        match (left, right) {
            (Side::Is(left), Side::Is(right)) => Ok(Condition::Compare(left, op, right)),
            (Side::Is(left), Side::Word(word)) => {
                Ok(Condition::Compare(left, op, self.value(word, left)?))
            }
            (Side::Word(word), Side::Is(right)) => {
                Ok(Condition::Compare(self.value(word, right)?, op, right))
            }
            (Side::Word(word), Side::Word(_)) => Err(unknown(word)),
        }
    }

    fn sign(&mut self) -> Result<i64, Fault> {
        let here = self.peek().filter(|token| !token.quoted);
        match here.and_then(|token| sign(token.text)) {
            Some(op) => {
                self.at += 1;
                Ok(op)
            }
            None => Err(self.expected("a comparison, as = or >=")),
        }
    }

    fn side(&mut self, expected: &str) -> Result<Side<'a>, Fault> {
        let Some(token) = self.peek().filter(|token| token.is_name()) else {
            return Err(self.expected(expected));
        };
        self.at += 1;
        if let Some(number) = token.number()? {
            return Ok(Side::Is(Operand::Number(number)));
        }
        match variables::family(token.text).filter(|_| !token.quoted) {
            Some(family) if family.of.is_none() || self.sees("(") => {
                self.variable(&family).map(Side::Is)
            }
            _ if self.sees("(") => self.by_number(token).map(Side::Is),
            _ => Ok(Side::Word(token)),
        }
    }

    /// `variable(7)`, for those that have no name of their own.
    fn by_number(&mut self, name: Token) -> Result<Operand, Fault> {
        if !name.text.eq_ignore_ascii_case(UNNAMED) {
            return Err(unknown(name));
        }
        self.expect("(")?;
        let Some(token) = self.peek().filter(Token::is_name) else {
            return Err(self.expected("the number of a variable"));
        };
        let number = token.number()?.filter(|number| variables::exists(*number));
        let number = number.ok_or_else(|| token.wrong("there is no such variable"))?;
        self.at += 1;
        self.expect(")")?;
        Ok(Operand::Variable(number as usize))
    }

    /// The variable of a family, by the item's number or name where it has several.
    fn variable(&mut self, family: &Family) -> Result<Operand, Fault> {
        let Some((item, count)) = family.of else {
            return Ok(Operand::Variable(family.first as usize));
        };
        self.expect("(")?;
        let Some(token) = self.peek().filter(|token| token.is_name()) else {
            return Err(self.expected(&format!("the number or name of {}", one(item))));
        };
        let number = match token.number()? {
            Some(number) => number,
            None => self.known.names.number(item, token.text).ok_or_else(|| {
                let word = item.word();
                token.wrong(&format!("no {word} has the name '{}'", token.text))
            })?,
        };
        let count = (self.known.count)(item).unwrap_or(count);
        if !(0..count).contains(&number) {
            return Err(token.wrong(&format!("there is no {} {number}", item.word())));
        }
        self.at += 1;
        self.expect(")")?;
        Ok(Operand::Variable((family.first + number) as usize))
    }

    /// A word as a value of what it is compared with.
    fn value(&self, word: Token, other: Operand) -> Result<Operand, Fault> {
        let Operand::Variable(variable) = other else {
            return Err(unknown(word));
        };
        let own = variables::item_of_value(variable as i64)
            .and_then(|item| self.known.names.number(item, word.text));
        let value = own.or_else(|| variables::constant_of(variable as i64, word.text));
        value.map(Operand::Number).ok_or_else(|| {
            let name = variables::name_with(variable as i64, self.known.names);
            word.wrong(&format!("{name} has no value '{}'", word.text))
        })
    }

    fn peek(&self) -> Option<Token<'a>> {
        self.tokens.get(self.at).copied()
    }

    fn sees(&self, text: &str) -> bool {
        self.peek()
            .is_some_and(|token| !token.quoted && token.text == text)
    }

    fn take(&mut self, text: &str) -> bool {
        let here = self.sees(text);
        self.at += usize::from(here);
        here
    }

    fn take_word(&mut self, word: &str) -> bool {
        let here = self
            .peek()
            .is_some_and(|token| !token.quoted && token.text.eq_ignore_ascii_case(word));
        self.at += usize::from(here);
        here
    }

    fn expect(&mut self, text: &str) -> Result<(), Fault> {
        match self.take(text) {
            true => Ok(()),
            false => Err(self.expected(&format!("'{text}'"))),
        }
    }

    fn expected(&self, what: &str) -> Fault {
        self.fault(&format!("expected {what}"))
    }

    fn fault(&self, text: &str) -> Fault {
        Fault {
            place: self.peek().map_or(self.end, |token| token.place),
            text: text.to_string(),
        }
    }
}

fn unknown(word: Token) -> Fault {
    word.wrong(&format!("there is no variable '{}'", word.text))
}

/// `a thread`, `an input`.
fn one(item: Item) -> String {
    let word = item.word();
    let article = if word.starts_with(['i', 'o']) {
        "an"
    } else {
        "a"
    };
    format!("{article} {word}")
}

fn sign(text: &str) -> Option<i64> {
    let plain = COMPARISONS.iter().position(|sign| *sign == text);
    let other = OTHER_SIGNS.iter().find(|(sign, _)| *sign == text);
    plain
        .map(|op| op as i64)
        .or_else(|| other.map(|(_, op)| *op))
        .or_else(|| (text == "==").then_some(0))
}

impl Token<'_> {
    /// Whether it is a word, a number or a name in quotes.
    fn is_name(&self) -> bool {
        let first = self.text.trim_start_matches('-').chars().next();
        self.quoted || first.is_some_and(in_word)
    }

    fn number(&self) -> Result<Option<i64>, Fault> {
        let digits = self.text.strip_prefix('-').unwrap_or(self.text);
        if self.quoted || !digits.starts_with(|c: char| c.is_ascii_digit()) {
            return Ok(None);
        }
        let number = self.text.parse().ok().filter(is_32_bits);
        number
            .map(Some)
            .ok_or_else(|| self.wrong("expected a number of 32 bits"))
    }

    fn wrong(&self, text: &str) -> Fault {
        Fault {
            place: self.place,
            text: text.to_string(),
        }
    }
}

fn is_32_bits(number: &i64) -> bool {
    i32::try_from(*number).is_ok()
}

fn in_word(c: char) -> bool {
    c.is_alphanumeric() || c == '_'
}

fn tokens(text: &str) -> Result<Vec<Token<'_>>, Fault> {
    let mut found = Vec::new();
    let mut place = 0;
    while place < text.len() {
        let rest = &text[place..];
        let blanks = rest.len() - rest.trim_start().len();
        place += blanks;
        if blanks == 0 {
            let token = token(rest, place)?;
            place += token.text.len() + 2 * usize::from(token.quoted);
            found.push(token);
        }
    }
    Ok(found)
}

/// The token at the start of a text, at this place of the whole.
fn token(text: &str, place: usize) -> Result<Token<'_>, Fault> {
    let quoted = text.starts_with('"');
    let inner = if quoted { &text[1..] } else { text };
    let length = match quoted {
        true => inner.find('"').ok_or_else(|| Fault {
            place,
            text: "the name in quotes does not end".to_string(),
        })?,
        false => token_length(inner),
    };
    Ok(Token {
        place,
        text: &inner[..length],
        quoted,
    })
}

fn token_length(text: &str) -> usize {
    let first = text.chars().next().map_or(0, char::len_utf8);
    let signs = COMPARISONS.iter().chain(&["=="]);
    let longest = signs
        .filter(|sign| text.starts_with(**sign))
        .max_by_key(|sign| sign.len());
    if let Some(sign) = longest {
        return sign.len();
    }
    if !text.starts_with('-') && !text.starts_with(in_word) {
        return first;
    }
    let rest = &text[first..];
    first + rest.find(|c| !in_word(c)).unwrap_or(rest.len())
}
