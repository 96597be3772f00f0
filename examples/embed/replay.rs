//! svahost in a Rust program: the library's functions, on a text from standard input.
//!
//!     rustc --edition 2021 replay.rs -L native=DIR -l static=svahost -o replay-rs
//!     ./replay-rs < ../first.sva              the report of a scenario, as by `svahost replay`
//!     ./replay-rs test < ../held-back.svs     or check, plain, show
//!     ./replay-rs judge < ../judge/free-before-wait.svd      or run, for its lines one by one; or explore, of a race
//!
//! DIR is the folder of libsvahost.a: `pkg-config --variable=libdir svahost` prints it. The status is 0 where all is
//! well, 1 where the text is wrong, 4 where an order is unsafe, or a line waits for ever, or a claim fails, 5 where a
//! search was cut off, 2 for a wrong command line, and 3 for all else. Take the module `svahost` for a test of your own.

use std::io::{Read, Write};
use std::process::ExitCode;

/// Safe Rust over the library.
mod svahost {
    // Nothing compares these declarations with the library: they are those of include/svahost.h.
    extern "C" {
        fn sva_c_replay(text: *const u8, length: usize, report: *mut u8, room: usize, needed: *mut usize) -> u32;
        fn sva_c_check(text: *const u8, length: usize, report: *mut u8, room: usize, needed: *mut usize) -> u32;
        fn sva_c_test(text: *const u8, length: usize, report: *mut u8, room: usize, needed: *mut usize) -> u32;
        fn sva_c_plain(text: *const u8, length: usize, report: *mut u8, room: usize, needed: *mut usize) -> u32;
        fn sva_c_show(text: *const u8, length: usize, report: *mut u8, room: usize, needed: *mut usize) -> u32;
        fn sva_c_run(text: *const u8, length: usize, report: *mut u8, room: usize, needed: *mut usize) -> u32;
        fn sva_c_judge(
            text: *const u8, length: usize, most: u64, report: *mut u8, room: usize, needed: *mut usize,
        ) -> u32;
        fn sva_c_explore(
            text: *const u8, length: usize, most: u64, report: *mut u8, room: usize, needed: *mut usize,
        ) -> u32;
    }

    const TOO_SMALL: u32 = 2;

    /// What is asked of a text. A search looks at so many moments at most.
    #[derive(Clone, Copy)]
    pub enum Asked {
        Replay,
        Check,
        Test,
        Plain,
        Show,
        Run,
        Judge { most: u64 },
        Explore { most: u64 },
    }

    /// What a report says.
    #[derive(Clone, Copy)]
    pub enum Ended {
        Done,
        Faulted,
        Fails,
        CutOff,
    }

    /// A report: its bytes, and what it says.
    pub struct Report {
        pub text: Vec<u8>,
        pub ended: Ended,
    }

    /// Puts the report of a text into a buffer: its length, and the library's status.
    fn put(asked: Asked, text: &[u8], report: &mut [u8]) -> (usize, u32) {
        let (from, length, to, room) = (text.as_ptr(), text.len(), report.as_mut_ptr(), report.len());
        let mut needed = 0;
        // SAFETY: pointers and lengths are those of two slices and of a local variable. They are borrowed for the call,
        // so they don't overlap and nobody else reaches them. A slice's pointer is never null.
        let status = unsafe {
            match asked {
                Asked::Replay => sva_c_replay(from, length, to, room, &mut needed),
                Asked::Check => sva_c_check(from, length, to, room, &mut needed),
                Asked::Test => sva_c_test(from, length, to, room, &mut needed),
                Asked::Plain => sva_c_plain(from, length, to, room, &mut needed),
                Asked::Show => sva_c_show(from, length, to, room, &mut needed),
                Asked::Run => sva_c_run(from, length, to, room, &mut needed),
                Asked::Judge { most } => sva_c_judge(from, length, most, to, room, &mut needed),
                Asked::Explore { most } => sva_c_explore(from, length, most, to, room, &mut needed),
            }
        };
        (needed, status)
    }

    /// The report of a text, or the library's status where memory ran out.
    pub fn ask(asked: Asked, text: &[u8]) -> Result<Report, u32> {
        let mut report = vec![0; 4096];
        loop {
            let (needed, status) = put(asked, text, &mut report);
            let ended = match status {
                0 => Ended::Done,
                1 => Ended::Faulted,
                5 => Ended::Fails,
                6 => Ended::CutOff,
                // The same text has the same report: the next call is the last one.
                TOO_SMALL => {
                    report.resize(needed, 0);
                    continue;
                }
                _ => return Err(status),
            };
            report.truncate(needed);
            return Ok(Report { text: report, ended });
        }
    }
}

/// How many moments a search looks at, at most.
const MOST: u64 = 1_000_000;

fn main() -> ExitCode {
    let words: Vec<String> = std::env::args().skip(1).collect();
    let asked = match words.iter().map(String::as_str).collect::<Vec<_>>()[..] {
        [] | ["replay"] => svahost::Asked::Replay,
        ["check"] => svahost::Asked::Check,
        ["test"] => svahost::Asked::Test,
        ["plain"] => svahost::Asked::Plain,
        ["show"] => svahost::Asked::Show,
        ["judge"] => svahost::Asked::Judge { most: MOST },
        ["run"] => svahost::Asked::Run,
        ["explore"] => svahost::Asked::Explore { most: MOST },
        _ => {
            eprintln!("replay: wanted replay, check, test, plain, show, judge, run or explore");
            return ExitCode::from(2);
        }
    };
    let mut text = Vec::new();
    if std::io::stdin().read_to_end(&mut text).is_err() {
        eprintln!("replay: standard input can't be read");
        return ExitCode::from(3);
    }
    match svahost::ask(asked, &text) {
        Ok(report) => match std::io::stdout().write_all(&report.text) {
            Ok(()) => ExitCode::from(match report.ended {
                svahost::Ended::Done => 0,
                svahost::Ended::Faulted => 1,
                svahost::Ended::Fails => 4,
                svahost::Ended::CutOff => 5,
            }),
            Err(_) => ExitCode::from(3),
        },
        Err(status) => {
            eprintln!("replay: the library answers {status}");
            ExitCode::from(3)
        }
    }
}
