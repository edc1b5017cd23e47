//! The lines of a listing, written into room that is kept.

use plain::script::TICK;

use super::Event;

#[derive(Default)]
pub struct Lines {
    pub bytes: Vec<u8>,
    count: u32,
}

impl Lines {
    /// No lines, in the same room.
    pub fn clear(&mut self) {
        self.bytes.clear();
        self.count = 0;
    }

    /// The line of an event that was taken.
    pub fn add(&mut self, event: &Event, clock: u32) {
        self.count += 1;
        self.number(self.count, b' ');
        self.number(clock, b' ');
        self.number(u32::from(event.kind), b' ');
        let figure = match event.kind {
            TICK => event.figure,
            _ => u32::from(event.id),
        };
        self.number(figure, b'\n');
    }

    /// The last line.
    pub fn end(&mut self, answer: u8, clock: u32) {
        self.bytes.extend(b"end ");
        self.number(self.count, b' ');
        self.number(u32::from(answer), b' ');
        self.number(clock, b'\n');
    }

    fn number(&mut self, number: u32, behind: u8) {
        let mut digits = [behind; 11];
        let mut first = digits.len() - 1;
        let mut rest = number;
        loop {
            first -= 1;
            digits[first] = b'0' + (rest % 10) as u8;
            rest /= 10;
            if rest == 0 {
                break;
            }
        }
        self.bytes.extend_from_slice(&digits[first..]);
    }
}
