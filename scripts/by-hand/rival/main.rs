//! A plain rival of `svahost replay` and `svahost check`, to measure these by: the same reports, and nothing is proved.
//!
//!     rustc -O --edition 2021 main.rs -o rival      (rustc 1.70 or newer)
//!     ./rival replay < FILE.sva
//!
//! Written from docs/SCENARIOS.md and docs/MODEL.md. One pass over the text runs each step as it is read; the report is
//! kept in memory, and dropped where a line behind is wrong. Tables have the fixed sizes of MODEL's section 13, sets of
//! up to 64 labels are the bits of a word. No cookie is kept: a wait that ends moves what waits for it by itself.

mod bindings;
mod deliveries;
mod endpoints;
mod frames;
mod jobs;
mod link;
mod map;
mod pages;
mod refusals;
mod report;
mod spaces;
mod steps;
mod text;
mod units;
mod words;
mod world;

use refusals::Refusal;
use report::Report;
use std::io::{self, Read, Write};
use std::process::ExitCode;
use text::{Fault, Reader, MOST_BYTES};
use world::World;

/// What is printed, and whether the text was a scenario within the limits.
type Printed = (Vec<u8>, bool);

/// All of standard input. Of a text that is too large one byte too many is kept, and the others are read.
fn read_all() -> io::Result<Vec<u8>> {
    let mut input = io::stdin().lock();
    let mut text = Vec::with_capacity(MOST_BYTES + 64);
    input.by_ref().take(MOST_BYTES as u64 + 1).read_to_end(&mut text)?;
    io::copy(&mut input, &mut io::sink())?;
    Ok(text)
}

fn replay(text: Vec<u8>) -> Result<Printed, Fault> {
    let mut reader = Reader::new(text)?;
    let config = reader.config()?;
    if !config.fits() {
        while reader.step()?.is_some() {}
        let mut report = Report::new();
        report.refused(Refusal::BadConfig);
        return Ok((report.into_bytes(), false));
    }
    let mut world = World::new(config);
    while let Some(step) = reader.step()? {
        world.take(step);
    }
    Ok((world.into_report(), true))
}

fn check(text: Vec<u8>) -> Result<Printed, Fault> {
    let mut reader = Reader::new(text)?;
    reader.config()?;
    let mut steps = 0;
    while reader.step()?.is_some() {
        steps += 1;
    }
    Ok((format!("steps {steps}\n").into_bytes(), true))
}

/// Says what went wrong, for which there is no report.
fn failed(what: &str, status: u8) -> ExitCode {
    eprintln!("rival: {what}");
    ExitCode::from(status)
}

fn main() -> ExitCode {
    let words: Vec<String> = std::env::args().skip(1).collect();
    let run = match words.iter().map(String::as_str).collect::<Vec<_>>()[..] {
        ["replay"] => replay,
        ["check"] => check,
        _ => return failed("replay or check, with a scenario as standard input", 2),
    };
    let Ok(text) = read_all() else { return failed("read fault", 1) };
    let (printed, is_fine) = run(text).unwrap_or_else(|fault| (fault.line().into_bytes(), false));
    let mut output = io::stdout().lock();
    if output.write_all(&printed).and_then(|()| output.flush()).is_err() {
        return failed("write fault", 1);
    }
    ExitCode::from(!is_fine as u8)
}
