//! The program `haspnettle`: what the crate says of an image, or of words, in a file.
#![forbid(unsafe_code)]

mod program {
    pub mod asked;
    pub mod files;
}

use haspnettle::{build_image, lines, record, why, Refusal};
use program::asked::{asked, Asked};
use program::files::{print, read, write, Input};
use std::ffi::{OsStr, OsString};
use std::fmt::Display;
use std::io::Write;
use std::process::ExitCode;
use std::{env, io};

/// What ends the program with another status than 0, and its line on standard error.
struct Stop {
    status: u8,
    line: String,
}

impl Stop {
    /// The arguments are wrong, or a file cannot be read or written.
    fn failed(what: impl Display) -> Stop {
        Stop { status: 2, line: format!("haspnettle: {what}\n") }
    }
}

impl From<Refusal> for Stop {
    fn from(r: Refusal) -> Stop {
        let why = r.text().unwrap_or(r.meaning());
        Stop { status: 1, line: format!("refused {} at {}: {why}\n", r.number, r.place) }
    }
}

fn main() -> ExitCode {
    match run(env::args_os().skip(1)) {
        Ok(()) => ExitCode::SUCCESS,
        Err(stop) => {
            // Where nobody can be told, the status still stands.
            _ = io::stderr().write_all(stop.line.as_bytes());
            ExitCode::from(stop.status)
        }
    }
}

fn run(args: impl Iterator<Item = OsString>) -> Result<(), Stop> {
    match asked(args)? {
        Asked::Said(what) => write("-", what.as_bytes()),
        Asked::Build { image, file } => build(&image, file.as_deref()),
        Asked::Text { image } => text(&image),
        Asked::Why { image, index } => whys(&read(&image)?, index),
        Asked::Words { file } => words(&mut Input::open(&file)?),
    }
}

fn build(image: &OsStr, file: Option<&OsStr>) -> Result<(), Stop> {
    let words = build_image(&read(image)?)?;
    let bytes: Vec<_> = words.iter().flat_map(|w| w.to_le_bytes()).collect();
    match file {
        None => write("-", format!("words {}\n{}", words.len(), lines(0, &bytes)).as_bytes()),
        Some(file) => write(file, &bytes),
    }
}

fn text(image: &OsStr) -> Result<(), Stop> {
    let Err(refusal) = build_image(&read(image)?) else { return Ok(()) };
    if let Some(text) = refusal.text() {
        write("-", format!("{text}\n").as_bytes())?;
    }
    Err(refusal.into())
}

// Of one word, or of all.
fn whys(image: &[u8], index: Option<u64>) -> Result<(), Stop> {
    let lines = match index {
        Some(index) => line(image, index),
        None => (0..build_image(image)?.len() as u64).map(|index| line(image, index)).collect(),
    };
    write("-", lines?.as_bytes())
}

fn line(image: &[u8], index: u64) -> Result<String, Stop> {
    let why = why(image, index)?;
    // A record stands at the place, as the image is accepted, so the default is never taken.
    let (kind, function) = record(image, why.place).map_or(("Record", None), |r| (r.kind, r.function));
    let function = function.map_or(String::new(), |name| format!(" in {name}"));
    let patched = why.target.map_or(String::new(), |target| format!(", patched, leads to {target}"));
    Ok(format!("{index} {kind} at {}{function}{patched}\n", why.place))
}

// A block at a time, so that any number of words takes the same memory.
fn words(input: &mut Input) -> Result<(), Stop> {
    const BLOCK: u64 = 8192;
    let mut first = 0;
    loop {
        let bytes = input.next(8 * BLOCK)?;
        if !print(lines(first, &bytes).as_bytes())? {
            return Ok(());
        }
        match bytes.len() % 8 {
            0 if bytes.len() as u64 == 8 * BLOCK => first += BLOCK,
            0 => return Ok(()),
            left => return Err(Stop { status: 1, line: format!("haspnettle: bytes behind the last whole word: {left}\n") }),
        }
    }
}
