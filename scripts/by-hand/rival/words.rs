//! The words of a line, which ends with a line feed. A line that isn't one of SCENARIOS' section 3 is None; then its
//! cause is looked for.

use crate::steps::{Code, Config, Step};

/// A first word of at most eight letters as a number, its first letter the lowest byte.
const fn of(word: &str) -> u64 {
    let (mut number, mut i) = (0, word.len());
    while i > 0 {
        i -= 1;
        number = number << 8 | word.as_bytes()[i] as u64;
    }
    number
}

const CONFIG: u64 = of("config");
const SPACE: u64 = of("space");
const DROP: u64 = of("drop");
const MAP: u64 = of("map");
const UNMAP: u64 = of("unmap");
const UNMAPR: u64 = of("unmapr");
const BIND: u64 = of("bind");
const UNBIND: u64 = of("unbind");
const ADVANCE: u64 = of("advance");
const PUMP: u64 = of("pump");
const SERVE: u64 = of("serve");
const RESET: u64 = of("reset");
const TAKE: u64 = of("take");
const ANSWER: u64 = of("answer");
const ASK: u64 = of("ask");
const USE: u64 = of("use");
const END: u64 = of("end");
const EVICT: u64 = of("evict");
const FAULT: u64 = of("fault");
const FINISH: u64 = of("finish");
const QUIT: u64 = of("quit");
const DELIVER: u64 = of("deliver");
const LOOK: u64 = of("look");
const BEARER: u64 = of("bearer");

/// A line's words behind its place.
pub struct Words<'a> {
    text: &'a [u8],
    at: usize,
}

impl<'a> Words<'a> {
    #[inline(always)]
    pub fn new(text: &'a [u8], at: usize) -> Words<'a> {
        Words { text, at }
    }

    /// where the next line begins
    #[inline(always)]
    pub fn behind(&self) -> usize {
        self.at + 1
    }

    /// The bytes up to the first with a clear bit 6: all letters have it, and what ends a word hasn't. Any other byte
    /// makes a number that is no step's, or isn't the space or the end that has to follow.
    #[inline(always)]
    fn first(&mut self) -> Option<u64> {
        let bytes = self.text.get(self.at..self.at + 8)?;
        let eight = u64::from_le_bytes(bytes.try_into().ok()?);
        let letters = (!eight & 0x4040_4040_4040_4040).trailing_zeros() / 8;
        self.at += letters as usize;
        Some(if letters < 8 { eight & ((1 << (8 * letters)) - 1) } else { eight })
    }

    #[inline(always)]
    fn byte(&self) -> u8 {
        self.text[self.at]
    }

    #[inline(always)]
    fn space(&mut self) -> Option<()> {
        let is_space = self.byte() == b' ';
        self.at += 1;
        is_space.then_some(())
    }

    #[inline(always)]
    fn end(&mut self) -> Option<()> {
        (self.byte() == b'\n').then_some(())
    }

    #[inline(always)]
    fn number(&mut self) -> Option<u64> {
        self.space()?;
        let first = self.byte();
        let mut number = digit(first)?;
        self.at += 1;
        while let Some(digit) = digit(self.byte()) {
            number = number.checked_mul(10)?.checked_add(digit)?;
            self.at += 1;
            if first == b'0' {
                return None;
            }
        }
        Some(number)
    }

    /// the next word, whatever it is
    #[inline(always)]
    fn word(&mut self) -> Option<&'a [u8]> {
        self.space()?;
        let first = self.at;
        while !matches!(self.byte(), b' ' | b'\n') {
            self.at += 1;
        }
        Some(&self.text[first..self.at])
    }

    /// r or w
    #[inline(always)]
    fn write(&mut self) -> Option<bool> {
        match self.word()? {
            b"r" => Some(false),
            b"w" => Some(true),
            _ => None,
        }
    }

    /// r, w or rw
    #[inline(always)]
    fn access(&mut self) -> Option<bool> {
        match self.word()? {
            b"r" => Some(false),
            b"w" | b"rw" => Some(true),
            _ => None,
        }
    }

    /// new, or an index
    #[inline(always)]
    fn group(&mut self) -> Option<Option<u64>> {
        if self.text[self.at + 1] == b'n' {
            return (self.word()? == b"new").then_some(None);
        }
        self.number().map(Some)
    }

    #[inline(always)]
    fn last(&mut self) -> Option<bool> {
        match self.word()? {
            b"more" => Some(false),
            b"last" => Some(true),
            _ => None,
        }
    }

    #[inline(always)]
    fn verdict(&mut self) -> Option<Code> {
        match self.word()? {
            b"success" => Some(Code::Success),
            b"invalid" => Some(Code::Invalid),
            b"failure" => Some(Code::Failure),
            _ => None,
        }
    }

    #[inline(always)]
    fn vector(&mut self) -> Option<u32> {
        let word = self.word()?;
        if word.len() != 8 {
            return None;
        }
        word.iter().try_fold(0, |vector, byte| match byte {
            b'0'..=b'9' => Some(vector << 4 | (byte - b'0') as u32),
            b'a'..=b'f' => Some(vector << 4 | (byte - b'a' + 10) as u32),
            _ => None,
        })
    }

    /// the count of an `unmap`, 1 where it is missing
    #[inline(always)]
    fn count(&mut self) -> Option<u64> {
        if self.byte() == b'\n' {
            return Some(1);
        }
        self.number()
    }

    pub fn config(&mut self) -> Option<Config> {
        if self.first()? != CONFIG {
            return None;
        }
        let config = Config { endpoints: self.number()?, frames: self.number()?, workers: self.number()? };
        self.end()?;
        Some(config)
    }

    #[inline(always)]
    pub fn step(&mut self) -> Option<Step> {
        let step = match self.first()? {
            SPACE => Step::Space,
            DROP => Step::Drop { space: self.number()? },
            MAP => Step::Map { space: self.number()?, page: self.number()?, write: self.write()? },
            UNMAP => Step::Unmap { space: self.number()?, page: self.number()?, count: self.count()? },
            UNMAPR => Step::UnmapRange { space: self.number()?, page: self.number()?, order: self.number()? },
            BIND => Step::Bind { endpoint: self.number()?, space: self.number()? },
            UNBIND => Step::Unbind { binding: self.number()? },
            ADVANCE => Step::Advance { binding: self.number()? },
            PUMP => Step::Pump { endpoint: self.number()? },
            SERVE => Step::Serve { endpoint: self.number()? },
            RESET => Step::Reset { endpoint: self.number()? },
            TAKE => Step::Take { worker: self.number()? },
            ANSWER => Step::Answer { worker: self.number()?, verdict: self.verdict()? },
            ASK => Step::Ask { endpoint: self.number()?, pasid: self.number()?, page: self.number()? },
            EVICT => Step::Evict { endpoint: self.number()?, pasid: self.number()?, page: self.number()? },
            END => Step::End { endpoint: self.number()?, slot: self.number()? },
            FINISH => Step::Finish { endpoint: self.number()?, vector: self.vector()?, count: self.number()? },
            QUIT => Step::Quit { endpoint: self.number()?, pasid: self.number()? },
            DELIVER => Step::Deliver { message: self.number()? },
            LOOK => Step::Look { frame: self.number()? },
            BEARER => Step::Bearer { pasid: self.number()? },
            USE => {
                let (endpoint, pasid, page) = (self.number()?, self.number()?, self.number()?);
                Step::Use { endpoint, pasid, page, write: self.write()? }
            }
            FAULT => {
                let (endpoint, pasid, page) = (self.number()?, self.number()?, self.number()?);
                Step::Fault { endpoint, pasid, page, write: self.access()?, group: self.group()?, last: self.last()? }
            }
            _ => return None,
        };
        self.end()?;
        Some(step)
    }
}

#[inline(always)]
fn digit(byte: u8) -> Option<u64> {
    let digit = byte.wrapping_sub(b'0');
    (digit < 10).then_some(digit as u64)
}

/// the cause of a first line that is no config
pub fn cause_in_first(line: &[u8]) -> &'static str {
    let words: Vec<&[u8]> = line.split(|byte| *byte == b' ').collect();
    match (words[0], words.len()) {
        (b"config", 4) => "BadWord",
        (b"config", _) => "WordCount",
        _ => "NoConfig",
    }
}

/// the cause of a later line that is no step
pub fn cause_in(line: &[u8]) -> &'static str {
    let words: Vec<&[u8]> = line.split(|byte| *byte == b' ').collect();
    let counts = match words[0] {
        b"space" => 1..=1,
        b"drop" | b"unbind" | b"advance" | b"pump" | b"serve" | b"reset" | b"take" | b"deliver" | b"look"
        | b"bearer" => 2..=2,
        b"bind" | b"answer" | b"end" | b"quit" => 3..=3,
        b"map" | b"unmapr" | b"ask" | b"evict" | b"finish" => 4..=4,
        b"unmap" => 3..=4,
        b"use" => 5..=5,
        b"fault" => 7..=7,
        _ => return "UnknownStep",
    };
    if counts.contains(&words.len()) {
        "BadWord"
    } else {
        "WordCount"
    }
}
