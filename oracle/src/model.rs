// Document 01's answers: check, analysis, 30, generation, room. Which struct an access means is as document 02 mends it (P2).
use crate::analysis::{analyse, lists, Bases};
use crate::check::{check, Fault};
use crate::generation::{generate, positions, Program};
use crate::image::*;

/// The bytes that a slice for a text must have.
pub const TEXT_ROOM: usize = 256;

/// A refusal with the Rust's text for it, in the form "Variant: text"; empty where the Rust has none.
#[derive(Clone, Debug, PartialEq, Eq)]
pub struct Refusal {
    pub number: u32,
    pub place: usize,
    pub text: String,
}

impl From<Fault> for Refusal {
    fn from(f: Fault) -> Self {
        Refusal { number: f.number, place: f.place, text: String::new() }
    }
}

/// The three numbers.
#[derive(Clone, Copy, Debug, PartialEq, Eq)]
pub struct Answer {
    pub refusal: u32,
    pub place: u32,
    pub count: u32,
}

impl Answer {
    pub fn of(r: &Refusal) -> Self {
        Answer { refusal: r.number, place: r.place as u32, count: 0 }
    }
    /// Refusal + 256 x place + 2^32 x count.
    pub fn packed(&self) -> u64 {
        self.refusal as u64 + 256 * self.place as u64 + ((self.count as u64) << 32)
    }
}

/// Analyse: stops before 30 and writes nothing.
pub fn analysed(img: &[u8]) -> Result<Bases, Refusal> {
    check(img)?;
    analyse(img)
}

/// The first field access, in image order, whose offset two structs tell differently; where the base's struct is declared only that one tells it.
pub fn ambiguous(img: &[u8], bases: &Bases) -> Option<usize> {
    let structs = lists(img).structs;
    fn walk(img: &[u8], structs: &[Rec], bases: &Bases, r: Rec) -> Option<usize> {
        if r.kind == FIELD_ACCESS && positions(img, structs, bases, r).len() > 1 {
            return Some(r.at);
        }
        if is_leaf(r.kind) {
            None
        } else {
            r.parts(img).find_map(|p| walk(img, structs, bases, p))
        }
    }
    walk(img, &structs, bases, rec_at(img, 0))
}

/// Everything that does not depend on the room.
pub fn program(img: &[u8]) -> Result<Program, Refusal> {
    analysed(img).and_then(|bases| behind_analysis(img, &bases))
}

/// The same by the rule that was there before: the field's name decides, whatever the base is, as if the struct of none were declared.
pub fn program_by_name(img: &[u8]) -> Result<Program, Refusal> {
    analysed(img).and_then(|_| behind_analysis(img, &Bases::new()))
}

/// Whether that rule gives 30: there the Rust's own words change from run to run.
pub fn was_30(img: &[u8]) -> bool {
    program_by_name(img).is_err_and(|r| r.number == 30)
}

fn behind_analysis(img: &[u8], bases: &Bases) -> Result<Program, Refusal> {
    match ambiguous(img, bases) {
        Some(place) => Err(Refusal { number: 30, place, text: String::new() }),
        None => generate(img, bases),
    }
}

/// Build: fills the lent slices; the table holds three numbers an entry.
pub fn build(p: &Result<Program, Refusal>, code: &mut [u64], table: &mut [u64]) -> Answer {
    let a = answer(p, code.len(), Some(table.len()));
    match p {
        Ok(p) if a.refusal == 0 => {
            code[..p.words.len()].copy_from_slice(&p.words);
            table[..3 * p.table.len()].copy_from_slice(p.table.as_flattened());
        }
        _ => {
            code.fill(0);
            table.fill(0);
        }
    }
    a
}

/// The host's entry: words as bytes, no table.
pub fn host(p: &Result<Program, Refusal>, bytes: &mut [u8]) -> Answer {
    let a = answer(p, bytes.len() / 8, None);
    match p {
        Ok(p) if a.refusal == 0 => p.words.iter().zip(bytes.chunks_exact_mut(8)).for_each(|(w, b)| b.copy_from_slice(&w.to_le_bytes())),
        _ => bytes.fill(0),
    }
    a
}

/// Why a word is there (document 02, P5): the place of its record; the count is 0 if it was not patched, else 1 and the index of its target.
pub fn why(p: &Result<Program, Refusal>, index: u64) -> Answer {
    let marks = match p {
        Err(r) => return Answer::of(r),
        Ok(p) => &p.marks,
    };
    match usize::try_from(index).ok().and_then(|i| marks.get(i)) {
        None => Answer { refusal: 53, place: 0, count: 0 },
        Some(m) => Answer { refusal: 0, place: m.place as u32, count: m.target.map_or(0, |t| 1 + t as u32) },
    }
}

/// The texts (document 02, P1): over the slice's first bytes; past the text, or where there is none, the slice stays as lent.
pub fn text(refusal: Option<&Refusal>, out: &mut [u8]) -> Answer {
    let none = |refusal| Answer { refusal, place: 0, count: 0 };
    if out.len() < TEXT_ROOM {
        return none(52);
    }
    let Some(r) = refusal else { return none(0) };
    out[..r.text.len()].copy_from_slice(r.text.as_bytes());
    Answer { count: r.text.len() as u32, ..Answer::of(r) }
}

fn answer(p: &Result<Program, Refusal>, room: usize, table: Option<usize>) -> Answer {
    match p {
        Err(r) => Answer::of(r),
        Ok(p) if p.words.len() > room => Answer { refusal: 50, place: 0, count: p.words.len() as u32 },
        Ok(p) if table.is_some_and(|t| p.table.len() > t / 3) => Answer { refusal: 51, place: 0, count: p.table.len() as u32 },
        Ok(p) => Answer { refusal: 0, place: 0, count: p.words.len() as u32 },
    }
}
