//! What the arguments ask for.

use crate::Stop;
use std::ffi::OsString;

pub enum Asked {
    /// Help, or the version: just this, on standard output.
    Said(String),
    Build {
        image: OsString,
        file: Option<OsString>,
    },
    Text {
        image: OsString,
    },
    /// Of one word, or of all.
    Why {
        image: OsString,
        index: Option<u64>,
    },
    Words {
        file: OsString,
    },
}

// A command's form, what its help says of it, and what its first argument is called.
struct Command {
    usage: &'static str,
    about: &'static str,
    ends: &'static str,
    of: &'static str,
    takes: Takes,
}

// What a command takes besides its first argument: nothing; -o FILE, if it is given; INDEX or --all.
#[derive(PartialEq)]
enum Takes {
    Nothing,
    File,
    Index,
}

const BUILD: Command = Command {
    usage: "haspnettle build IMAGE [-o FILE]",
    about: "Prints the words of an image: `words N`, then a line for each word, its index and the word in 16 hex digits.

  -o FILE  write the words into FILE instead, 8 little-endian bytes each; - is standard output.
           A file that is there stays as it is if the image is refused or the write fails.
",
    ends: ENDS,
    of: "IMAGE",
    takes: Takes::File,
};

const TEXT: Command = Command {
    usage: "haspnettle text IMAGE",
    about: "Prints the old compiler's own text of why an image is refused. Refusals 10 to 22 and 40 to 47 have one;
of the others, and of an image that is accepted, nothing is printed.
",
    ends: ENDS,
    of: "IMAGE",
    takes: Takes::Nothing,
};

const WHY: Command = Command {
    usage: "haspnettle why IMAGE INDEX|--all",
    about: "Prints which record of an image asked for a word of its program: the word's index, the record's kind, its place
(an offset in the image) and its function, and, if the word was patched later, the index of the word that its offset
leads to: `6 If at 72 in main, patched, leads to 8`. The first three words are the Contract's, at 0 and in no function.

  INDEX  the word's index, from 0, as `haspnettle build` prints it
  --all  a line for each word
",
    ends: ENDS,
    of: "IMAGE",
    takes: Takes::Index,
};

const WORDS: Command = Command {
    usage: "haspnettle words FILE",
    about: "Prints a line for each word in a file, 8 little-endian bytes each: its index, the word in 16 hex digits, and a space and
`+` where bits 55 to 63 are not zero. A word whose low byte is no opcode has its line like any other.
",
    ends: "FILE - is standard input. The exit status is
  0  every byte is in a word that is listed
  1  one to seven bytes are left behind the last whole word, told in one line on standard error behind the lines
  2  wrong arguments, or a file that cannot be read or written, in one line on standard error
",
    of: "FILE",
    takes: Takes::Nothing,
};

const ALL: &str = "Contracts to words of a proving register machine.

  build  prints the words of an image, or writes them into FILE
  text   prints the old compiler's own text of why an image is refused
  why    prints which record asked for a word
  words  lists the words in a file, and marks those with bits above the instruction; status 1: bytes are left over

`haspnettle COMMAND --help` says more of each; `haspnettle --version` says which this is.
";

const ENDS: &str = "IMAGE - is standard input. The exit status is
  0  accepted
  1  refused, with one line on standard error: `refused NUMBER at PLACE: TEXT`
  2  wrong arguments, or a file that cannot be read or written, in one line on standard error
";

/// Reads the arguments behind the program's name.
pub fn asked(mut args: impl Iterator<Item = OsString>) -> Result<Asked, Stop> {
    let usages = |between| [BUILD, TEXT, WHY, WORDS].map(|command| command.usage).join(between);
    let Some(first) = args.next() else { return wrong("no command", &usages(", or ")) };
    match first.to_str() {
        Some("build") => BUILD.asked(args, |image, file| Ok(Asked::Build { image, file })),
        Some("text") => TEXT.asked(args, |image, _| Ok(Asked::Text { image })),
        Some("why") => WHY.asked(args, why),
        Some("words") => WORDS.asked(args, |file, _| Ok(Asked::Words { file })),
        Some("-h" | "--help") => Ok(Asked::Said(format!("usage: {}\n\n{ALL}\n{ENDS}", usages("\n       ")))),
        Some("--version") => Ok(Asked::Said(format!("haspnettle {}\n", env!("CARGO_PKG_VERSION")))),
        _ => wrong(&format!("no command {first:?}"), &usages(", or ")),
    }
}

fn why(image: OsString, index: Option<OsString>) -> Result<Asked, Stop> {
    let Some(given) = index else { return wrong("no INDEX", WHY.usage) };
    let index = given.to_str().and_then(|digits| digits.parse().ok());
    if index.is_none() && given != "--all" {
        return wrong(&format!("INDEX {given:?} is no number below 2^64"), WHY.usage);
    }
    Ok(Asked::Why { image, index })
}

// What is asked for with the first argument and what else was given.
type Asks = fn(OsString, Option<OsString>) -> Result<Asked, Stop>;

impl Command {
    // IMAGE before INDEX, and options anywhere.
    fn asked(&self, mut args: impl Iterator<Item = OsString>, asks: Asks) -> Result<Asked, Stop> {
        let (mut first, mut other) = (None, None);
        while let Some(arg) = args.next() {
            let all = self.takes == Takes::Index && arg == "--all";
            match arg.to_str() {
                Some("-h" | "--help") => return Ok(Asked::Said(format!("usage: {}\n\n{}\n{}", self.usage, self.about, self.ends))),
                Some("-o") if self.takes == Takes::File => match args.next() {
                    None => return wrong("-o without FILE", self.usage),
                    _ if other.is_some() => return wrong("a second -o", self.usage),
                    named => other = named,
                },
                _ if !all && arg != "-" && arg.as_encoded_bytes().starts_with(b"-") => {
                    return wrong(&format!("unknown option {arg:?}"), self.usage)
                }
                _ if !all && first.is_none() => first = Some(arg),
                _ if self.takes != Takes::Index => return wrong(&format!("a second {}, {arg:?}", self.of), self.usage),
                _ if other.is_some() => return wrong(&format!("a second INDEX, {arg:?}"), self.usage),
                _ => other = Some(arg),
            }
        }
        match first {
            None => wrong(&format!("no {}", self.of), self.usage),
            Some(first) => asks(first, other),
        }
    }
}

fn wrong(what: &str, usage: &str) -> Result<Asked, Stop> {
    Err(Stop::failed(format!("{what}; usage: {usage}")))
}
