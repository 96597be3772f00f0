//! The lines of a scenario, one after the other, and the fault of the first that can't be read.

use crate::steps::{Config, Step};
use crate::words::{self, Words};

pub const MOST_BYTES: usize = 1 << 20;
const MOST_LINES: usize = 1 << 16;

pub struct Fault {
    line: usize,
    cause: &'static str,
}

impl Fault {
    pub fn line(&self) -> String {
        format!("line {} {}\n", self.line, self.cause)
    }
}

/// The text, and where its next line begins. Behind the text stand PAD more bytes, so that eight can be read at once
/// wherever a word begins; the last line is ended.
pub struct Reader {
    text: Vec<u8>,
    end: usize,
    at: usize,
    line: usize,
}

const PAD: usize = 8;

/// how many line feeds there are, in parts that a byte can count
fn line_feeds(text: &[u8]) -> usize {
    let in_part = |part: &[u8]| part.iter().map(|byte| (*byte == b'\n') as u8).sum::<u8>();
    text.chunks(255).map(|part| in_part(part) as usize).sum()
}

impl Reader {
    pub fn new(mut text: Vec<u8>) -> Result<Reader, Fault> {
        let too_large = text.len() > MOST_BYTES;
        if text.last().is_some_and(|last| *last != b'\n') {
            text.push(b'\n');
        }
        if too_large || line_feeds(&text) > MOST_LINES {
            return Err(Fault { line: 0, cause: "TooLarge" });
        }
        let end = text.len();
        text.resize(end + PAD, 0);
        Ok(Reader { text, end, at: 0, line: 0 })
    }

    /// Goes to the next line that isn't skipped: whether there is one.
    #[inline(always)]
    fn next_line(&mut self) -> bool {
        while self.at < self.end {
            self.line += 1;
            match self.text[self.at] {
                b'\n' => self.at += 1,
                b'#' => self.at += self.rest().len() + 1,
                _ => return true,
            }
        }
        false
    }

    /// what is left of the line
    fn rest(&self) -> &[u8] {
        let rest = &self.text[self.at..self.end];
        &rest[..rest.iter().position(|byte| *byte == b'\n').unwrap_or(rest.len())]
    }

    fn fault<T>(&self, cause: &'static str) -> Result<T, Fault> {
        Err(Fault { line: self.line, cause })
    }

    pub fn config(&mut self) -> Result<Config, Fault> {
        if !self.next_line() {
            self.line += 1;
            return self.fault("NoConfig");
        }
        let mut words = Words::new(&self.text, self.at);
        match words.config() {
            Some(config) => {
                self.at = words.behind();
                Ok(config)
            }
            None => self.fault(words::cause_in_first(self.rest())),
        }
    }

    /// the next step, or None where there is no other
    #[inline(always)]
    pub fn step(&mut self) -> Result<Option<Step>, Fault> {
        if !self.next_line() {
            return Ok(None);
        }
        let mut words = Words::new(&self.text, self.at);
        match words.step() {
            Some(step) => {
                self.at = words.behind();
                Ok(Some(step))
            }
            None => self.fault(words::cause_in(self.rest())),
        }
    }
}
