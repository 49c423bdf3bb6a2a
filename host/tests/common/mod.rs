//! Builds into slices of poison, the samples of document 01, the stored answers, and trees.
#![allow(dead_code)] // no test uses all of it

pub mod edges;
pub mod every;
mod guard;
pub mod tree;

pub use haspnettle::ast;

use guard::{lent, POISON};
use haspnettle::{build_into, Refusal};
use std::path::PathBuf;

/// Number, place and count of a refusal.
pub type Told = (u8, u32, u32);

pub fn told(r: Refusal) -> Told {
    (r.number, r.place, r.count)
}

/// Builds into `len` bytes of poison, and sees that nothing around them is touched.
pub fn guarded(image: &[u8], len: usize) -> (Result<usize, Told>, Vec<u8>) {
    lent(len, |out| build_into(image, out).map_err(told))
}

/// What the slice holds: the words and then poison, or zeros.
pub fn whole(says: &Result<Vec<u64>, Told>, len: usize) -> Vec<u8> {
    let Ok(words) = says else { return vec![0; len] };
    let mut bytes: Vec<u8> = words.iter().flat_map(|w| w.to_le_bytes()).collect();
    bytes.resize(len, POISON);
    bytes
}

pub fn repository() -> PathBuf {
    PathBuf::from(env!("CARGO_MANIFEST_DIR")).join("..")
}

/// A file of samples/.
pub fn sample(name: &str) -> Vec<u8> {
    std::fs::read(repository().join("samples").join(name)).unwrap()
}

/// The names of all samples, with no ending.
pub fn samples() -> Vec<String> {
    let files = std::fs::read_dir(repository().join("samples")).unwrap();
    let names = files.map(|f| f.unwrap().file_name().into_string().unwrap());
    let mut out: Vec<String> = names.filter_map(|n| n.strip_suffix(".img").map(String::from)).collect();
    out.sort();
    out
}

/// What a sample's listing says: words, or refusal, place and count.
pub fn listed(name: &str) -> Result<Vec<u64>, Told> {
    let text = String::from_utf8(sample(&format!("{name}.listing"))).unwrap();
    let numbers = |line: &str| -> Vec<u32> { line.split(' ').skip(1).map(|n| n.parse().unwrap()).collect() };
    let mut lines = text.lines();
    let first = lines.next().unwrap();
    if first.starts_with("refused ") {
        let n = numbers(first);
        return Err((n[0] as u8, n[1], n[2]));
    }
    let words: Vec<u64> = lines.map(|l| u64::from_str_radix(l.split(' ').nth(1).unwrap(), 16).unwrap()).collect();
    assert_eq!(numbers(first), [words.len() as u32]);
    Ok(words)
}

/// A stored answer of the Rust (docs/STORED.md): what was asked, the build's answer, analyse's refusal and place, and the Rust's text.
pub struct Case {
    pub image: Vec<u8>,
    pub room: usize,
    pub built: Told,
    pub checksum: u64,
    pub analysed: (u8, u32),
    pub text: Option<String>,
}

pub fn stored() -> Vec<Case> {
    let file = std::fs::read(repository().join("crates/replay/stdin")).unwrap();
    let number = |at: usize| u32::from_le_bytes(file[at..at + 4].try_into().unwrap());
    assert_eq!(&file[..8], b"HASPANS2");
    let (mut at, mut all) = (32, vec![]);
    // The wrong ones behind them are read too, and left out.
    for _ in 0..number(8) + number(28) {
        let text = at + 52 + number(at) as usize;
        let end = text + number(at + 48) as usize;
        all.push(Case {
            image: file[at + 52..text].to_vec(),
            room: number(at + 4) as usize,
            built: (number(at + 12) as u8, number(at + 16), number(at + 20)),
            checksum: u64::from_le_bytes(file[at + 24..at + 32].try_into().unwrap()),
            analysed: (number(at + 40) as u8, number(at + 44)),
            text: (text < end).then(|| String::from_utf8_lossy(&file[text..end]).into_owned()),
        });
        at = end;
    }
    assert_eq!((at, number(12) as usize), (file.len(), file.len()));
    all.truncate(number(8) as usize);
    all
}
