//! Bytes of a file in, and out. `-` is standard input, or standard output.

use crate::Stop;
use std::ffi::OsStr;
use std::fs::{self, File, OpenOptions, Permissions};
use std::io::{self, ErrorKind, Read, Write};
use std::path::{Path, PathBuf};
use std::process;

// One byte more than an image can have: what follows cannot change the answer.
const MOST: u64 = 65_537;

/// The first 65,537 bytes of a file.
pub fn read(name: &OsStr) -> Result<Vec<u8>, Stop> {
    Input::open(name)?.next(MOST)
}

/// A file that is read from its start on.
pub struct Input<'a> {
    name: &'a OsStr,
    from: Box<dyn Read>,
}

impl<'a> Input<'a> {
    pub fn open(name: &'a OsStr) -> Result<Self, Stop> {
        let from: Box<dyn Read> = match name == "-" {
            true => Box::new(io::stdin()),
            false => Box::new(File::open(name).map_err(|e| unreadable(name, e))?),
        };
        Ok(Input { name, from })
    }

    /// So many bytes more; fewer only where the file ends.
    pub fn next(&mut self, most: u64) -> Result<Vec<u8>, Stop> {
        let mut bytes = vec![];
        self.from.by_ref().take(most).read_to_end(&mut bytes).map_err(|e| unreadable(self.name, e))?;
        Ok(bytes)
    }
}

fn unreadable(name: &OsStr, e: io::Error) -> Stop {
    Stop::failed(format!("cannot read {}: {e}", shown(name, "standard input")))
}

/// Writes all of a file.
pub fn write(name: impl AsRef<OsStr>, bytes: &[u8]) -> Result<(), Stop> {
    let name = name.as_ref();
    match name == "-" {
        true => print(bytes),
        false => heard(name, put(name.as_ref(), bytes)),
    }
    .map(|_| ())
}

/// Writes to standard output, and tells whether it is still read.
pub fn print(bytes: &[u8]) -> Result<bool, Stop> {
    let mut out = io::stdout().lock();
    heard("-".as_ref(), out.write_all(bytes).and_then(|_| out.flush()))
}

// A pipe whose reader has gone is no failure: it wanted no more.
fn heard(name: &OsStr, done: io::Result<()>) -> Result<bool, Stop> {
    match done {
        Ok(()) => Ok(true),
        Err(e) if e.kind() == ErrorKind::BrokenPipe => Ok(false),
        Err(e) => Err(Stop::failed(format!("cannot write {}: {e}", shown(name, "standard output")))),
    }
}

// A name may hold any bytes: in quotes, with escapes, it stays within its line.
fn shown(name: &OsStr, standard: &str) -> String {
    match name == "-" {
        true => standard.into(),
        false => format!("{name:?}"),
    }
}

// A file that is there must be one that may be written; a device or a pipe is written as it stands, since nothing can take its place.
fn put(path: &Path, bytes: &[u8]) -> io::Result<()> {
    let mut there = match OpenOptions::new().write(true).open(path) {
        Err(e) if e.kind() == ErrorKind::NotFound => return replace(path, bytes, None),
        other => other?,
    };
    let known = there.metadata()?;
    match known.is_file() {
        // The file itself, where the path is a link to it.
        true => replace(&fs::canonicalize(path)?, bytes, Some(known.permissions())),
        false => there.write_all(bytes),
    }
}

// Through a file beside it, so that a write which fails leaves what was there.
fn replace(path: &Path, bytes: &[u8], permissions: Option<Permissions>) -> io::Result<()> {
    let (beside, mut file) = beside(path)?;
    let fill = || {
        file.write_all(bytes)?;
        permissions.map_or(Ok(()), |p| file.set_permissions(p))?;
        // Some systems tell only here that there is no room.
        file.sync_all()?;
        fs::rename(&beside, path)
    };
    fill().inspect_err(|_| _ = fs::remove_file(&beside))
}

// A new file in the path's folder, under a name that nothing there has.
fn beside(path: &Path) -> io::Result<(PathBuf, File)> {
    let mut number = 0;
    loop {
        let name = path.with_file_name(format!(".haspnettle-{}-{number}", process::id()));
        match File::create_new(&name) {
            Err(e) if e.kind() == ErrorKind::AlreadyExists && number < 99 => number += 1,
            made => return made.map(|file| (name, file)),
        }
    }
}
