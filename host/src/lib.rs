//! Contracts to words of a proving register machine.
//!
//! The compiler behind this crate is written in Rattle and proved: for any bytes whatsoever the answer and every byte of the slice
//! that is lent are those of its definition (`crates/rules/specs/Build.antt`, `hostOf` and `hostBytes`). It needs no heap, keeps no
//! state and takes less than 96 KiB of stack, so it may be called from any number of threads at once. No function here panics.
//! A refusal has the old Rust compiler's own text, where there is one ([`Refusal::text`]; `crates/rules/specs/Texts.antt`), and a word
//! the record that asked for it ([`why`]; `crates/rules/specs/Why.antt`). Words of any assembler are listed with a mark where bits 55 to 63 are
//! not zero ([`lines`]; `crates/rules/specs/Lines.antt`).
//!
//! From a tree:
//!
//! ```
//! use haspnettle::ast::{Contract, Expr, Function, Stmt};
//!
//! let body = vec![Stmt::Let("x".into(), Expr::Int(1)), Stmt::Constrain(Expr::Ident("x".into()))];
//! let main = Function { name: "main".into(), params: vec![], return_type: None, body, is_pub: false };
//! let contract = Contract { name: "c".into(), storage: vec![], structs: vec![], functions: vec![main] };
//! let words = haspnettle::build(&contract).unwrap();
//! assert_eq!(words.len(), 12);
//! ```
//!
//! From an image, into bytes of one's own:
//!
//! ```
//! # use haspnettle::ast::{Contract, Function};
//! # let main = Function { name: "main".into(), params: vec![], return_type: None, body: vec![], is_pub: false };
//! # let contract = Contract { name: "c".into(), storage: vec![], structs: vec![], functions: vec![main] };
//! let image = haspnettle::image(&contract).unwrap();
//! let mut out = [0xAA; 100];
//! let count = haspnettle::build_into(&image, &mut out).unwrap();
//! assert_eq!(count, 10);
//! assert!(out[8 * count..].iter().all(|b| *b == 0xAA));
//! ```

#![deny(missing_debug_implementations, missing_docs, unsafe_code)]
// A refusal holds its text in place, so that none needs the heap.
#![allow(clippy::large_enum_variant, clippy::result_large_err)]

pub mod ast;
#[cfg(test)]
#[path = "../tests/common/guard.rs"]
mod guard;
mod image;
#[allow(unsafe_code)]
mod raw;
mod record;
mod refusal;
#[cfg(test)]
#[path = "../tests/common/tree.rs"]
mod tree;

pub use image::{image, Unwritable};
pub use record::{record, Record};
pub use refusal::Refusal;

use refusal::Text;
use std::error::Error;
use std::fmt;

/// Why a contract was not built or not analysed: it has no image, or its image is refused.
#[derive(Debug, Clone, PartialEq, Eq)]
#[non_exhaustive]
pub enum Failure {
    /// No image holds the contract.
    Unwritable(Unwritable),
    /// The compiler refuses its image.
    Refused(Refusal),
}

impl From<Unwritable> for Failure {
    fn from(e: Unwritable) -> Self {
        Failure::Unwritable(e)
    }
}

impl From<Refusal> for Failure {
    fn from(r: Refusal) -> Self {
        Failure::Refused(r)
    }
}

impl fmt::Display for Failure {
    fn fmt(&self, f: &mut fmt::Formatter<'_>) -> fmt::Result {
        match self {
            Failure::Unwritable(e) => e.fmt(f),
            Failure::Refused(r) => r.fmt(f),
        }
    }
}

// The text is the inner error's, so the source is too.
impl Error for Failure {
    fn source(&self) -> Option<&(dyn Error + 'static)> {
        match self {
            Failure::Unwritable(e) => e.source(),
            Failure::Refused(r) => r.source(),
        }
    }
}

/// Builds the image into `out`, 8 little-endian bytes a word, and gives the number of words.
///
/// Only 8 x count bytes are touched. The room is `out.len() / 8` words; where that is too little the refusal is 50, and its count the
/// words needed. A refusal clears all of `out`.
///
/// ```
/// let mut out = [0xAA; 13];
/// assert_eq!(haspnettle::build_into(b"no image", &mut out).unwrap_err().number, 2);
/// assert_eq!(out, [0; 13]);
/// ```
pub fn build_into(image: &[u8], out: &mut [u8]) -> Result<usize, Refusal> {
    Refusal::unpack(raw::build(image, out), image).map(|(_, count)| count as usize)
}

/// The words of an image.
///
/// ```
/// assert_eq!(haspnettle::build_image(&[0; 65_537]).unwrap_err().to_string(), "image over 65,536 bytes (1)");
/// ```
pub fn build_image(image: &[u8]) -> Result<Vec<u64>, Refusal> {
    // Most programs have fewer words than their image has bytes.
    words(image.len().clamp(64, 65_536), |out| build_into(image, out))
}

/// The words of a contract.
pub fn build(contract: &ast::Contract) -> Result<Vec<u64>, Failure> {
    Ok(build_image(&image(contract)?)?)
}

/// Analyses the image, and stops where generation would start: the refusals are 1 to 22.
///
/// ```
/// # use haspnettle::ast::Contract;
/// let no_main = Contract { name: "c".into(), storage: vec![], structs: vec![], functions: vec![] };
/// let image = haspnettle::image(&no_main).unwrap();
/// assert_eq!(haspnettle::analyse(&image), Ok(()));
/// assert_eq!(haspnettle::build_image(&image).unwrap_err().number, 40);
/// ```
pub fn analyse(image: &[u8]) -> Result<(), Refusal> {
    Refusal::unpack(raw::analyse(image), image).map(|_| ())
}

/// Analyses a contract.
///
/// ```
/// use haspnettle::ast::{Contract, Expr, Function, Stmt};
///
/// let body = vec![Stmt::Constrain(Expr::Ident("x".into()))];
/// let main = Function { name: "main".into(), params: vec![], return_type: None, body, is_pub: false };
/// let contract = Contract { name: "c".into(), storage: vec![], structs: vec![], functions: vec![main] };
/// let failure = haspnettle::analyse_contract(&contract).unwrap_err();
/// assert_eq!(failure.to_string(), "SemanticError: Undefined identifier: x");
/// ```
pub fn analyse_contract(contract: &ast::Contract) -> Result<(), Failure> {
    Ok(analyse(&image(contract)?)?)
}

/// The Rust's own text of an image's refusal; none where the image is built, or its refusal (1 to 7, 30) has none.
///
/// ```
/// # use haspnettle::ast::{Contract, Expr, Function, Stmt};
/// # let body = vec![Stmt::Assign("x".into(), Expr::Int(1))];
/// # let main = Function { name: "main".into(), params: vec![], return_type: None, body, is_pub: false };
/// # let contract = Contract { name: "c".into(), storage: vec![], structs: vec![], functions: vec![main] };
/// let image = haspnettle::image(&contract).unwrap();
/// assert_eq!(haspnettle::text(&image).unwrap(), "SemanticError: Undefined variable: x");
/// assert_eq!(haspnettle::text(b"no image"), None);
/// ```
pub fn text(image: &[u8]) -> Option<String> {
    Text::of(image).map(|text| text.as_str().into())
}

/// Why a word is there: which record asked for it, and where its offset comes from.
#[derive(Debug, Clone, Copy, PartialEq, Eq, Hash)]
#[non_exhaustive]
pub struct Why {
    /// Where in the image the innermost statement or expression stands whose own translation emitted the word, or the function, if it is a
    /// word of its entry or exit; 0 for the first three words, which are the Contract's.
    pub place: u32,
    /// If the word was patched later, the index of the word that its offset leads to: a jump's target, or a called function's first word.
    pub target: Option<u64>,
}

/// Why the word of an index is there, in the program of an image.
///
/// The build's refusals come first; 53 says that the program has no word of the index. [`record`] says what stands at the place.
///
/// ```
/// # use haspnettle::ast::{Contract, Expr, Function, Stmt};
/// # let body = vec![Stmt::If(Expr::Int(1), vec![], None)];
/// # let main = Function { name: "main".into(), params: vec![], return_type: None, body, is_pub: false };
/// # let contract = Contract { name: "c".into(), storage: vec![], structs: vec![], functions: vec![main] };
/// let image = haspnettle::image(&contract).unwrap();
/// let why = haspnettle::why(&image, 6).unwrap();
/// assert_eq!((why.place, why.target), (72, Some(8)));
/// assert_eq!(haspnettle::record(&image, why.place).unwrap().kind, "If");
/// assert_eq!(haspnettle::why(&image, 13).unwrap_err().number, 53);
/// ```
pub fn why(image: &[u8], index: u64) -> Result<Why, Refusal> {
    let (place, count) = Refusal::unpack(raw::why(image, index), image)?;
    Ok(Why { place, target: count.checked_sub(1).map(u64::from) })
}

/// The lines of a listing: for each word its index, a space, 16 hex digits, and a space and `+` where bits 55 to 63 are not zero.
///
/// The words are 8 little-endian bytes each, the first with the index `first`, whether their low bytes are opcodes or not; bytes behind the last
/// whole word are left out. An index has 64 bits.
///
/// ```
/// let words: Vec<u8> = [0x13, 1 << 55 | 0x13].iter().flat_map(|w: &u64| w.to_le_bytes()).collect();
/// assert_eq!(haspnettle::lines(9, &words), "9 0000000000000013\n10 0080000000000013 +\n");
/// ```
pub fn lines(first: u64, words: &[u8]) -> String {
    const BLOCK: usize = 256;
    let (mut all, mut out) = (String::new(), [0; 40 * BLOCK]);
    for (block, words) in words.chunks(8 * BLOCK).enumerate() {
        let count = raw::lines(first.wrapping_add((BLOCK * block) as u64), words, &mut out) as usize;
        all += &String::from_utf8_lossy(&out[..count]);
    }
    all
}

// What `build` leaves in a slice of so many words; where 50 tells that they are more, in one of just so many.
fn words(room: usize, build: impl Fn(&mut [u8]) -> Result<usize, Refusal>) -> Result<Vec<u64>, Refusal> {
    let mut bytes = vec![0; 8 * room];
    let count = match build(&mut bytes) {
        Err(Refusal { number: 50, count, .. }) => {
            bytes.resize(8 * count as usize, 0);
            build(&mut bytes)?
        }
        other => other?,
    };
    bytes.truncate(8 * count);
    Ok(bytes.chunks_exact(8).filter_map(|c| c.try_into().ok()).map(u64::from_le_bytes).collect())
}

#[cfg(test)]
mod tests {
    use super::{words, Refusal};
    use std::cell::RefCell;

    fn refused(number: u8) -> Refusal {
        Refusal { number, place: 0, count: 5, text: None }
    }

    // Builds five words, or refuses; and the rooms that it was lent, in bytes.
    fn tried(room: usize, number: u8) -> (Result<Vec<u64>, Refusal>, Vec<usize>) {
        let rooms = RefCell::new(vec![]);
        let build = |out: &mut [u8]| {
            rooms.borrow_mut().push(out.len());
            if out.len() < 40 {
                return Err(refused(number));
            }
            out[..40].fill(1);
            Ok(5)
        };
        let answer = words(room, build);
        (answer, rooms.into_inner())
    }

    #[test]
    fn a_second_try_has_just_the_room() {
        let five = Ok(vec![0x0101_0101_0101_0101; 5]);
        assert_eq!(tried(4, 50), (five.clone(), vec![32, 40]));
        assert_eq!(tried(7, 50), (five, vec![56]));
    }

    #[test]
    fn nothing_but_50_is_tried_again() {
        for number in (1..=255).filter(|n| *n != 50) {
            assert_eq!(tried(4, number), (Err(refused(number)), vec![32]));
        }
    }
}
