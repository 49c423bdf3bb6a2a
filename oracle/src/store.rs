// Stored answers: a flat file of cases for a replay without Rust (docs/STORED.md), and the samples.
use crate::ast::Stmt;
use crate::gen::{contract, tiny};
use crate::generation::Program;
use crate::image::*;
use crate::model::{analysed, build, program, program_by_name, was_30, Answer, Refusal};
use crate::node::Node;
use crate::rng::Rng;
use crate::samples::{ROOM, TABLE};
use crate::selfcheck::EVERY;
use crate::tree::{if_, int, main_of};
use crate::{accesses, bounds, cases, compare, damage, kept, meant, samples, texts, tricks};
use std::collections::{BTreeMap, BTreeSet};

const MAGIC: &[u8; 8] = b"HASPANS2";
const HEADER: usize = 32;
const CASE: usize = 52;
/// Where a case has a number of an answer: refusal, place, count, both checksums, analyse's refusal and place.
const ANSWERS: [usize; 7] = [12, 16, 20, 24, 32, 40, 44];
/// Where it has the length of its text.
const TEXT_LENGTH: usize = 48;
const CODE_POISON: u64 = 0xA5A5_A5A5_A5A5_A5A5;
const TABLE_POISON: u64 = 0x5A5A_5A5A_5A5A_5A5A;
const TEXT_POISON: u8 = 0xA5;
/// The first seed that is looked at.
const SEED: u64 = 1_000_000;
const SEEDS: u64 = 200_000;
/// At least so many of each refusal but 1, whose images are over 65,536 bytes.
const EACH: usize = 40;
const LEAST: usize = 2_000;
/// The most bytes of an image: small, larger, too deep or out of registers, over a bound.
const SMALL: usize = 310;
const LARGER: usize = 1_000;
const DEEPER: usize = 1_500;
const WORSE: usize = 2_500;

/// The answer as document 01's listing program prints it.
pub fn listing(img: &[u8], room: usize, table: usize) -> String {
    let mut code = vec![0; room];
    let a = build(&program(img), &mut code, &mut vec![0; table]);
    if a.refusal != 0 {
        return format!("refused {} {} {}\n", a.refusal, a.place, a.count);
    }
    let mut out = format!("words {}\n", a.count);
    code[..a.count as usize].iter().enumerate().for_each(|(i, w)| out.push_str(&format!("{i} {w:016x}\n")));
    out
}

/// Writes C1 to C15 as images with their listings; C3's room is nine words.
pub fn samples(dir: &str) -> Result<(), String> {
    std::fs::create_dir_all(dir).map_err(|e| format!("{dir}: {e}"))?;
    for s in samples::all() {
        crate::save(&format!("{dir}/{}.img", s.name), &s.image)?;
        crate::save(&format!("{dir}/{}.listing", s.name), listing(&s.image, s.room, s.table).as_bytes())?;
    }
    Ok(())
}

/// FNV-1a, 64 bits, over the little-endian bytes of the numbers.
pub fn fnv(numbers: &[u64]) -> u64 {
    let bytes = numbers.iter().flat_map(|n| n.to_le_bytes());
    bytes.fold(0xCBF2_9CE4_8422_2325, |h, b| (h ^ b as u64).wrapping_mul(0x0000_0100_0000_01B3))
}

type Answers = fn(&[u8]) -> Result<Program, Refusal>;

/// The cases chosen so far.
#[derive(Default)]
struct Stored {
    bytes: Vec<u8>,
    count: u32,
    most: [usize; 3],
    given: BTreeMap<u32, usize>,
    built: BTreeSet<u16>,
}

pub fn store(dir: &str) -> Result<(), String> {
    std::fs::create_dir_all(dir).map_err(|e| format!("{dir}: {e}"))?;
    let mut all = Stored::default();
    samples::all().iter().for_each(|s| all.case(&s.image, s.room.min(64), s.table.min(16)));
    tricks::all().iter().for_each(|img| all.case(img, 128, 16));
    kept::all().iter().for_each(|(_, c)| all.case(&encode(c), 128, 16));
    all.changed(&samples::all()[0].image, &encode(&main_of(vec![Stmt::Return(None), if_(int(1), vec![], None)])));
    for (_, img) in bounds::small().iter().chain(&bounds::large()[..2]) {
        all.case(img, ROOM, TABLE);
    }
    let worse = bounds::worse();
    let few = worse.iter().filter(|e| e.1.len() < WORSE).chain(worse.iter().filter(|e| e.0 == "513 Lets").nth(3));
    few.for_each(|e| all.case(&e.1, 4, 6));
    all.seeds();
    meant::all().iter().for_each(|c| all.case(&c.image(), 128, 16));
    all.newly();
    texts::all().iter().for_each(|c| all.case(&c.image(), 4, 6));
    all.complete()?;
    let wrong = wrong();
    let file = all.file(&wrong);
    crate::save(&format!("{dir}/answers.bin"), &file)?;
    println!("{} cases and {} wrong ones, {} bytes", all.count, wrong.len(), file.len());
    all.given.iter().for_each(|(n, k)| println!("{n:3} {k}"));
    Ok(())
}

/// Reads a stored file again and holds it against the model.
pub fn replay(file: &str) -> Result<(), String> {
    let (cases, rest) = read(file)?;
    for (n, case) in cases.iter().enumerate() {
        let img = image_of(case);
        if case_of(img, u32_at(case, 4) as usize, u32_at(case, 8) as usize) != *case {
            return Err(format!("case {n} is answered otherwise: image {}", compare::hex(img)));
        }
    }
    if rest != wrong().concat() {
        return Err(format!("{file} has other wrong cases"));
    }
    println!("{} cases equal", cases.len());
    Ok(())
}

/// The images of a stored file, but for the wrong cases.
pub fn images(file: &str) -> Result<Vec<Vec<u8>>, String> {
    Ok(read(file)?.0.iter().map(|case| image_of(case).to_vec()).collect())
}

// The cases of a stored file, and the wrong ones behind them.
fn read(file: &str) -> Result<(Vec<Vec<u8>>, Vec<u8>), String> {
    let all = crate::load(file)?;
    if all.len() < HEADER || all[..8] != *MAGIC || u32_at(&all, 12) as usize != all.len() {
        return Err(format!("{file} is no file of stored answers"));
    }
    let (mut at, mut cases) = (HEADER, vec![]);
    for _ in 0..u32_at(&all, 8) {
        let end = at + CASE + u32_at(&all, at) as usize + u32_at(&all, at + TEXT_LENGTH) as usize;
        cases.push(all[at..end].to_vec());
        at = end;
    }
    Ok((cases, all[at..].to_vec()))
}

fn image_of(case: &[u8]) -> &[u8] {
    &case[CASE..CASE + u32_at(case, 0) as usize]
}

// An image as a case.
fn case_of(img: &[u8], room: usize, table: usize) -> Vec<u8> {
    let mut one = Stored::default();
    one.add(img, room, table, &program(img));
    one.bytes
}

// C1 with each number of its answers one too high in turn, C9 with its text's length alone one too high (what lies behind the text is the
// poison) and with another last byte, so that a comparison which is lost is noticed.
fn wrong() -> Vec<Vec<u8>> {
    let all = samples::all();
    let spoilt = |name, change: &dyn Fn(&mut Vec<u8>)| {
        let sample = all.iter().find(|s| s.name == name).expect("a sample");
        let mut case = case_of(&sample.image, 16, 6);
        change(&mut case);
        case
    };
    let mut out: Vec<Vec<u8>> = ANSWERS.iter().map(|&at| spoilt("c1", &|case| case[at] += 1)).collect();
    out.push(spoilt("c9", &|case| {
        case[TEXT_LENGTH] += 1;
        case.push(TEXT_POISON);
    }));
    out.push(spoilt("c9", &|case| *case.last_mut().expect("a text") += 1));
    out
}

impl Stored {
    fn file(&self, wrong: &[Vec<u8>]) -> Vec<u8> {
        let cases = [&self.bytes[..], &wrong.concat()].concat();
        let numbers = [self.count as usize, HEADER + cases.len(), self.most[0], self.most[1], self.most[2], wrong.len()];
        let header = numbers.iter().flat_map(|n| (*n as u32).to_le_bytes()).collect();
        [MAGIC.to_vec(), header, cases].concat()
    }

    fn case(&mut self, img: &[u8], room: usize, table: usize) {
        self.add(img, room, table, &compare::hold(img));
    }

    fn add(&mut self, img: &[u8], room: usize, table: usize, p: &Result<Program, Refusal>) {
        let (mut code, mut entries) = (vec![CODE_POISON; room], vec![TABLE_POISON; table]);
        let a = build(p, &mut code, &mut entries);
        let sema = analysed(img).map_or_else(|r| Answer::of(&r), |_| Answer { refusal: 0, place: 0, count: 0 });
        let mut number = |n: u32| self.bytes.extend(n.to_le_bytes());
        [img.len() as u32, room as u32, table as u32, a.refusal, a.place, a.count].into_iter().for_each(&mut number);
        let sums = [fnv(&code), fnv(&entries)];
        sums.iter().for_each(|s| [*s as u32, (*s >> 32) as u32].into_iter().for_each(&mut number));
        let text = p.as_ref().err().map_or("", |r| &r.text);
        [sema.refusal, sema.place, text.len() as u32].into_iter().for_each(&mut number);
        self.bytes.extend(img);
        self.bytes.extend(text.as_bytes());
        self.count += 1;
        for (most, n) in self.most.iter_mut().zip([img.len(), room, table]) {
            *most = n.max(*most);
        }
        *self.given.entry(a.refusal).or_default() += 1;
        if a.refusal == 0 {
            self.kinds(img, rec_at(img, 0));
        }
    }

    fn kinds(&mut self, img: &[u8], r: Rec) {
        self.built.insert(r.kind);
        if !is_leaf(r.kind) {
            r.parts(img).for_each(|p| self.kinds(img, p));
        }
    }

    // One image cut at each byte, one with each of its records changed.
    fn changed(&mut self, c1: &[u8], other: &[u8]) {
        (1..c1.len()).for_each(|n| self.case(&c1[..n], 4, 6));
        damage::every(other).iter().for_each(|img| self.case(img, 12, 6));
    }

    // Small images from seeds, so many of each number, then a few larger ones. The number is that by the name alone, so that the file
    // keeps the images that it had before accesses went by their bases.
    fn seeds(&mut self) {
        let quotas = |all: &mut Self, image, most, quota| all.quotas(image, most, program_by_name, quota);
        quotas(self, cases::tiny_image, SMALL, |n| if n == 0 { 600 } else { EACH });
        quotas(self, cases::common, LARGER, |n| match n {
            0 => 18,
            41 => 25,
            _ => 2,
        });
        quotas(self, too_deep, DEEPER, |n| if n == 6 { EACH } else { 0 });
        quotas(self, too_many, WORSE, |n| if n == 7 { EACH / 2 } else { 0 });
    }

    // Images that are 30 by the name alone: small ones that are built now or still 30, then a few larger ones, of 41 too.
    fn newly(&mut self) {
        self.quotas(
            |seed| doubtful(accesses::tiny_image, seed),
            SMALL,
            program,
            |n| match n {
                0 => 250,
                30 => EACH,
                _ => 0,
            },
        );
        self.quotas(|seed| doubtful(accesses::image, seed), DEEPER, program, |n| if n == 0 || n == 41 { 7 } else { 0 });
    }

    fn quotas(&mut self, image: fn(u64) -> Vec<u8>, most: usize, answer: Answers, quota: fn(u32) -> usize) {
        let mut left: BTreeMap<u32, usize> = EVERY.into_iter().map(|n| (n, quota(n))).collect();
        for seed in SEED..SEED + SEEDS {
            if left.values().all(|n| *n == 0) {
                return;
            }
            let img = image(seed);
            let p = answer(&img);
            let number = p.as_ref().map_or_else(|r| r.number, |_| 0);
            let left = left.get_mut(&number).expect("a number of document 01");
            if *left > 0 && img.len() <= most {
                *left -= 1;
                let (words, numbers) = p.map_or((4, 6), |p| (p.words.len(), 3 * p.table.len()));
                let (room, table) = rooms(&mut Rng::new(seed), words, numbers);
                self.case(&img, room, table);
            }
        }
    }

    fn complete(&self) -> Result<(), String> {
        let due = |n| if n == 1 { 1 } else { EACH };
        let lacking: Vec<u32> = EVERY.into_iter().filter(|n| self.given.get(n).is_none_or(|k| *k < due(*n))).collect();
        let unused: Vec<u16> = (32..=42).chain(64..=71).filter(|k| !self.built.contains(k)).collect();
        if self.count < LEAST as u32 || !lacking.is_empty() || !unused.is_empty() {
            return Err(format!("{} cases, too few of {lacking:?}, without built kinds {unused:?}", self.count));
        }
        Ok(())
    }
}

// The next contract that the name alone does not decide.
fn doubtful(image: fn(u64) -> Vec<u8>, seed: u64) -> Vec<u8> {
    (100 * seed..).map(image).find(|img| was_30(img)).expect("a seed")
}

// A contract with a record at depth 65.
fn too_deep(seed: u64) -> Vec<u8> {
    let mut rng = Rng::new(seed);
    let depth = rng.within(65, 66);
    encode(&bounds::deep(&mut rng, depth))
}

// A small sound contract with one list grown past its bound: return types, fields, Inits or arguments.
fn too_many(seed: u64) -> Vec<u8> {
    let mut rng = Rng::new(seed);
    let shape = tiny(&mut rng, 0);
    let img = encode(&contract(&mut rng, shape));
    let mut top = Node::read(&img, rec_at(&img, 0));
    let mut at = rng.below(top.count());
    let n = top.numbered(&mut at).expect("a node");
    let (list, most) = match n.kind {
        FUNCTION => (2, 1),
        STRUCT | STRUCT_LITERAL | CALL => (1, 64),
        _ => return img,
    };
    if let Some(part) = n.parts[list].parts.last().cloned() {
        n.parts[list].parts.resize(most + 1, part);
    }
    top.image()
}

// Rooms for a program: mostly a few more than it needs; some exact, short or none.
fn rooms(rng: &mut Rng, words: usize, numbers: usize) -> (usize, usize) {
    match rng.below(12) {
        0 => (words - 1, numbers),
        1 => (words, numbers - 1),
        2 => (words + 2, numbers - 3),
        3 => (rng.below(words), rng.below(numbers)),
        4 => (0, 0),
        5 => (words, numbers),
        6 => (words + 1, numbers + 1),
        _ => (words + rng.below(5), numbers + rng.below(7)),
    }
}
