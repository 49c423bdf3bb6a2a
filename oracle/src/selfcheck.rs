// The model against the Rust over many seeds, and a listing program against the model.
use crate::ask::ask;
use crate::image::{is_leaf, rec_at, Rec};
use crate::model::{build, host, was_30, Answer};
use crate::samples::{ROOM, TABLE};
use crate::{bounds, cases, compare, meant, samples, store, texts};
use std::collections::BTreeMap;

/// Every number of document 01 that an answer can have.
pub const EVERY: [u32; 32] =
    [0, 1, 2, 3, 4, 5, 6, 7, 10, 11, 12, 13, 14, 15, 16, 17, 18, 19, 20, 21, 22, 30, 40, 41, 42, 43, 44, 45, 46, 47, 50, 51];
const POISON: u64 = 0xA5A5_A5A5_A5A5_A5A5;

/// How often each number was given, and how often each kind of record was built; how many words these have, and how many of them were
/// patched; of how many images the Rust was heard with the fields renamed apart, and how many of them are built.
#[derive(Default)]
struct Hits {
    answers: BTreeMap<u32, u64>,
    built: BTreeMap<u16, u64>,
    words: usize,
    patched: usize,
    apart: u64,
    newly: u64,
}

pub fn run(seeds: u64, image: fn(u64) -> Vec<u8>) -> Result<(), String> {
    let mut hits = Hits::default();
    samples_hold(&mut hits)?;
    meant::all().iter().try_for_each(|c| c.holds())?;
    texts::all().iter().try_for_each(|c| c.holds())?;
    for (_, tree) in bounds::trees().iter().chain(&bounds::large_trees()) {
        compare::hold_writer(tree);
    }
    for (_, img) in &bounds::all() {
        hold(img, &mut hits)?;
    }
    // These two are told of the seeds alone.
    (hits.apart, hits.newly) = (0, 0);
    for seed in 0..seeds {
        hold(&image(seed), &mut hits).map_err(|e| format!("seed {seed}: {e}"))?;
    }
    println!("answers by number, 16 rooms an image:");
    for (number, count) in &hits.answers {
        println!("{number:3} {count}");
    }
    let never: Vec<u32> = EVERY.into_iter().filter(|n| !hits.answers.contains_key(n)).collect();
    if !never.is_empty() {
        return Err(format!("never given: {never:?}"));
    }
    let unused: Vec<u16> = (32..=42).chain(64..=71).filter(|k| !hits.built.contains_key(k)).collect();
    if !unused.is_empty() {
        return Err(format!("no built contract has records of kind {unused:?}"));
    }
    println!("{seeds} seeds and every edge: no disagreement, every number given");
    println!("{} words, each of the record that emitted it, {} of them patched", hits.words, hits.patched);
    println!("{} of the seeds judged by the Rust with the fields renamed apart, {} of them newly built", hits.apart, hits.newly);
    Ok(())
}

// Document 01's own words on its samples; of C11 document 02's.
fn samples_hold(hits: &mut Hits) -> Result<(), String> {
    for s in samples::all() {
        hold(&s.image, hits)?;
        let p = compare::hold(&s.image);
        let a = build(&p, &mut vec![0; s.room], &mut vec![0; s.table]);
        if (a.refusal, a.count) != (s.refusal, s.count) || s.place.is_some_and(|p| p != a.place) {
            return Err(format!("{}: {a:?}, document 01 says {} {:?} {}", s.name, s.refusal, s.place, s.count));
        }
        let words = p.map_or(vec![], |p| p.words);
        if let Some((i, _)) = s.words.iter().find(|(i, w)| words.get(*i) != Some(w)) {
            return Err(format!("{}: word {i} is not document 01's", s.name));
        }
    }
    Ok(())
}

// One image: the Rust is heard, then the rooms are tried.
fn hold(img: &[u8], hits: &mut Hits) -> Result<(), String> {
    let p = compare::hold(img);
    if let Ok(p) = &p {
        count(img, rec_at(img, 0), &mut hits.built);
        hits.words += p.marks.len();
        hits.patched += p.marks.iter().filter(|m| m.target.is_some()).count();
    }
    if was_30(img) && p.as_ref().err().is_none_or(|r| r.number != 30) {
        hits.apart += 1;
        hits.newly += p.is_ok() as u64;
    }
    let (words, numbers) = p.as_ref().map_or((3, 3), |p| (p.words.len(), 3 * p.table.len()));
    for room in cases::rooms(words) {
        for table in cases::rooms(numbers) {
            let (mut code, mut entries) = (vec![POISON; room], vec![POISON; table]);
            let a = build(&p, &mut code, &mut entries);
            *hits.answers.entry(a.refusal).or_default() += 1;
            lent(a, &code, &entries, numbers)?;
        }
        let mut bytes = vec![0xA5; 8 * room + 7];
        let a = host(&p, &mut bytes);
        if a.refusal == 0 && bytes[8 * a.count as usize..].iter().any(|b| *b != 0xA5) {
            return Err("the host's entry writes past its words".into());
        }
    }
    Ok(())
}

fn count(img: &[u8], r: Rec, built: &mut BTreeMap<u16, u64>) {
    *built.entry(r.kind).or_default() += 1;
    if !is_leaf(r.kind) {
        r.parts(img).for_each(|p| count(img, p, built));
    }
}

// A refusal zeroes what was lent, an acceptance keeps what it does not use.
fn lent(a: Answer, code: &[u64], table: &[u64], numbers: usize) -> Result<(), String> {
    let (rest, due) = match a.refusal {
        0 => (code[a.count as usize..].iter().chain(&table[numbers..]), POISON),
        _ => (code.iter().chain(table), 0),
    };
    let mut rest = rest;
    if rest.all(|w| *w == due) {
        Ok(())
    } else {
        Err(format!("{a:?} leaves the slices wrong"))
    }
}

/// A listing program against the model.
pub fn listing(program: &str, n: u64, seed: u64) -> Result<(), String> {
    let edges = bounds::all().into_iter().map(|e| (e.0.to_string(), e.1));
    let seeds = (seed..seed + n).map(|s| (format!("seed {s}"), cases::image(s)));
    for (what, img) in edges.chain(seeds) {
        let said = ask(&[program], &img)?.stdout;
        if said != store::listing(&img, ROOM, TABLE).as_bytes() {
            let said = String::from_utf8_lossy(&said).lines().next().unwrap_or("").to_string();
            return Err(format!("{what}: the program differs (it begins \"{said}\"); image {}", compare::hex(&img)));
        }
    }
    println!("{n} seeds and every edge: every listing equal");
    Ok(())
}
