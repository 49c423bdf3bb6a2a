// The model held against the Rust itself: same words, or same error variant and text.
use crate::analysis::Bases;
use crate::codegen::Codegen;
use crate::generation::{generate, Program};
use crate::model::{ambiguous, analysed, program, program_by_name, was_30, Refusal};
use crate::sema::SemanticAnalyzer;
use crate::{apart, ast::Contract, check, grammar, image, marks, places, writer, CompileError};
use std::fmt::Debug;

/// The Rust's error as "Variant: text".
pub fn told(e: &CompileError) -> String {
    use CompileError::*;
    let (variant, text) = match e {
        LexerError(t) => ("LexerError", t),
        ParserError(t) => ("ParserError", t),
        SemanticError(t) => ("SemanticError", t),
        CodegenError(t) => ("CodegenError", t),
        ExperimentalOpcodeDisabled(t) => ("ExperimentalOpcodeDisabled", t),
        RegisterExhausted => return "RegisterExhausted".into(),
    };
    format!("{variant}: {text}")
}

pub fn hex(bytes: &[u8]) -> String {
    bytes.iter().map(|b| format!("{b:02x}")).collect()
}

fn disagree(img: &[u8], what: &str, model: &str, rust: &str) -> ! {
    eprintln!("disagreement in {what}\nmodel: {model}\nRust:  {rust}\nimage: {}", hex(img));
    std::process::exit(1)
}

fn same<T: PartialEq + Debug>(img: &[u8], what: &str, model: T, rust: T) {
    if model != rust {
        disagree(img, what, &format!("{model:x?}"), &format!("{rust:x?}"));
    }
}

/// The answer to an image, once the Rust has been heard.
pub fn hold(img: &[u8]) -> Result<Program, Refusal> {
    let (fast, slow) = (check::check(img), grammar::check(img));
    same(img, "the check, fast and slow", fast, slow);
    fast?;
    let tree = image::decode(img);
    same(img, "writing what was read", &image::encode(&tree)[..], img);
    hold_writer(&tree);
    let bases = analysed(img);
    same(img, "analysis", bases.as_ref().err().map_or("", |r| &r.text), analysis_text(&tree).as_str());
    hold_place(img, bases.as_ref().err());
    let bases = bases?;
    hold_place(img, generate(img, &bases).as_ref().err());
    hold_words(img, &tree, &Bases::new());
    let answer = program(img);
    same(img, "the text", answer.as_ref().err(), heard(img, &answer).as_ref());
    let place_of_30 = answer.as_ref().err().filter(|r| r.number == 30).map(|r| r.place);
    same(img, "30, given exactly where an access is ambiguous", place_of_30, ambiguous(img, &bases));
    if was_30(img) {
        hold_apart(img, &bases);
    } else {
        same(img, "the rule by the name alone", &program_by_name(img), &answer);
    }
    answer
}

/// What the Rust's analysis says of a tree; nothing where it passes.
pub fn analysis_text(tree: &Contract) -> String {
    SemanticAnalyzer::new().analyze(tree).err().map_or(String::new(), |e| told(&e))
}

/// The crate's writer: the oracle's image, and none exactly where the check refuses that.
pub fn hold_writer(tree: &Contract) {
    let img = image::encode(tree);
    let due = check::check(&img).is_ok().then_some(&img[..]);
    same(&img, "the crate's writer", due, writer::image(tree).ok().as_deref());
}

// Where the name alone does not decide: the Rust on the fields renamed apart, and of each base.
fn hold_apart(img: &[u8], bases: &Bases) {
    if let Err(why) = apart::bases_hold(img, bases) {
        disagree(img, "the struct of a base", "another", &why);
    }
    let tree = image::decode(&apart::parted(img, bases));
    same(img, "analysis, the fields renamed apart", "", &analysis_text(&tree));
    hold_words(img, &tree, bases);
    let table = |bases| generate(img, bases).ok().map(|p| p.table);
    same(img, "the table by either rule", table(bases), table(&Bases::new()));
    if let Some(place) = ambiguous(img, bases) {
        hold_ambiguous(img, bases, place);
    }
}

// 30: the Rust's words, the fields renamed apart, change from run to run, and by the access at the place; an error hides it.
fn hold_ambiguous(img: &[u8], bases: &Bases, place: usize) {
    let varies = |from, runs| {
        let left = apart::misnamed(img, |at| at >= from && !bases.contains_key(&at));
        let tree = image::decode(&apart::parted(&left, bases));
        let first = Codegen::new().generate(&tree);
        (0..runs).any(|_| Codegen::new().generate(&tree) != first)
    };
    if generate(img, bases).is_ok() && (varies(place, 8) || !varies(place + 1, 200)) {
        disagree(img, "30", &format!("the words vary from {place} on"), "they do not");
    }
}

fn hold_place(img: &[u8], r: Option<&Refusal>) {
    if let Some((r, why)) = r.and_then(|r| places::stands(img, r).err().map(|why| (r, why))) {
        disagree(img, "the place", &format!("{} at {}", r.number, r.place), &why);
    }
}

// The Rust's words of a tree. Where two structs tell an offset differently it follows the order of a HashMap: all else is compared.
fn hold_words(img: &[u8], tree: &Contract, bases: &Bases) {
    let rust = Codegen::new().generate(tree).map_err(|e| told(&e));
    match (generate(img, bases), rust) {
        (Err(r), Err(text)) => same(img, "generation", &r.text, &text),
        (Ok(p), Ok(mut words)) => {
            if p.words.len() == words.len() {
                p.undecided.iter().for_each(|&i| words[i] = p.words[i]);
            }
            same(img, "words", &p.words, &words);
            same(img, "why each word is there", Ok(&p.marks), marks::read(img, &words).as_ref());
        }
        (Ok(_), Err(text)) => disagree(img, "generation", "words", &text),
        (Err(r), Ok(_)) => disagree(img, "generation", &r.text, "words"),
    }
}

/// The Rust's own text for an image that passes the check; empty where it builds it.
pub fn rust_text(img: &[u8]) -> String {
    let tree = image::decode(img);
    let sema = SemanticAnalyzer::new().analyze(&tree);
    let all = sema.and_then(|_| Codegen::new().generate(&tree));
    all.err().map_or(String::new(), |e| told(&e))
}

/// The refusal of an answer with the Rust's own text, which no offset changes; it has none for 1 to 7 and 30.
pub fn heard(img: &[u8], answer: &Result<Program, Refusal>) -> Option<Refusal> {
    let r = answer.as_ref().err()?;
    let text = if matches!(r.number, 1..=7 | 30) { String::new() } else { rust_text(img) };
    Some(Refusal { text, ..r.clone() })
}
