//! The report: the bytes of its lines.

use crate::refusals::Refusal;

pub struct Report {
    bytes: Vec<u8>,
}

impl Report {
    /// An empty one, with room for most: what isn't written to costs nothing.
    pub fn new() -> Report {
        Report { bytes: Vec::with_capacity(1 << 20) }
    }

    #[inline(always)]
    pub fn put(&mut self, text: &str) {
        self.bytes.extend_from_slice(text.as_bytes());
    }

    #[inline(always)]
    pub fn number(&mut self, number: u64) {
        if number < 10 {
            return self.bytes.push(b'0' + number as u8);
        }
        let mut digits = [0; 20];
        let (mut first, mut left) = (20, number);
        while left > 0 {
            first -= 1;
            digits[first] = b'0' + (left % 10) as u8;
            left /= 10;
        }
        self.bytes.extend_from_slice(&digits[first..]);
    }

    /// a line of one text
    #[inline(always)]
    pub fn line(&mut self, text: &str) {
        self.put(text);
        self.end();
    }

    /// a line of a text and a number
    #[inline(always)]
    pub fn line_of(&mut self, text: &str, number: u64) {
        self.put(text);
        self.number(number);
        self.end();
    }

    /// the end of a line
    #[inline(always)]
    pub fn end(&mut self) {
        self.bytes.push(b'\n');
    }

    pub fn refused(&mut self, refusal: Refusal) {
        self.put("refused ");
        self.number(refusal.number());
        self.put(" ");
        self.line(refusal.name());
    }

    pub fn into_bytes(self) -> Vec<u8> {
        self.bytes
    }
}
