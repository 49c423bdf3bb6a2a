// Times of the unchanged Rust and of the linked library, in one process: least of several rounds.
use crate::codegen::Codegen;
use crate::foreign::{self, BUILD, CHECK, HOST};
use crate::groups::{self, Group};
use crate::model::program;
use crate::sema::SemanticAnalyzer;
use crate::{check, image};
use std::hint::black_box;
use std::time::{Duration, Instant};

/// Least time of a round over all images of a group, for one image, in microseconds.
struct Clock {
    rounds: u64,
    images: usize,
}

impl Clock {
    fn least(&self, mut work: impl FnMut()) -> f64 {
        let once = time(1, &mut work);
        let reps = (Duration::from_millis(2).as_nanos() / once.as_nanos().max(1)).clamp(1, 2000) as u32;
        let least = (0..self.rounds).map(|_| time(reps, &mut work)).min().unwrap_or(once * reps);
        least.as_secs_f64() * 1e6 / reps as f64 / self.images as f64
    }
}

fn time(reps: u32, work: &mut impl FnMut()) -> Duration {
    let start = Instant::now();
    (0..reps).for_each(|_| work());
    start.elapsed()
}

/// Microseconds an image of a group: the Rust's check, decode, analyze and generate; the library's check, analyse, build and host, where linked.
struct Times {
    group: String,
    rust: [f64; 4],
    library: [Option<f64>; 4],
}

/// Prints the table of docs/BENCHMARKS.md, and behind it the times that it is made of.
pub fn run(rounds: u64) -> Result<(), String> {
    println!("Library / Rust, least of {rounds} rounds. Of all: against check, decode, analyze (and generate); of tree: against the Rust that is handed the tree.\n");
    println!("| group | bytes | words | our check / the oracle's | analyse: of all | build: of all | build: of tree | host: of all | host: of tree |");
    println!("|---|---|---|---|---|---|---|---|---|");
    let mut all = Vec::new();
    for group in groups::all() {
        let times = times(&group, rounds);
        println!("{}", ratios(&times));
        all.push(times);
    }
    println!("\nMicroseconds an image:\n");
    println!("| group | bytes | words | check | decode | analyze | generate | our check | our analyse | our build | our host |");
    println!("|---|---|---|---|---|---|---|---|---|---|---|");
    for t in &all {
        let cells = t.rust.iter().map(|r| Some(*r)).chain(t.library).map(cell);
        println!("| {} | {} |", t.group, cells.collect::<Vec<_>>().join(" | "));
    }
    Ok(())
}

fn cell(number: Option<f64>) -> String {
    number.map_or("-".into(), |n| format!("{n:.2}"))
}

fn ratios(t: &Times) -> String {
    let [check, decode, analyze, generate] = t.rust;
    let [our_check, our_analyse, our_build, our_host] = t.library;
    let analysed = check + decode + analyze;
    let (all, tree) = (analysed + generate, analyze + generate);
    let pairs = [(our_check, check), (our_analyse, analysed), (our_build, all), (our_build, tree), (our_host, all), (our_host, tree)];
    let cells: Vec<String> = pairs.iter().map(|(ours, rust)| cell(ours.map(|o| o / rust))).collect();
    format!("| {} | {} |", t.group, cells.join(" | "))
}

// 65536 as 65,536.
fn grouped(n: usize) -> String {
    match n {
        0..=999 => n.to_string(),
        _ => format!("{},{:03}", grouped(n / 1000), n % 1000),
    }
}

fn times((name, images): &Group, rounds: u64) -> Times {
    let clock = Clock { rounds, images: images.len() };
    let trees: Vec<_> = images.iter().map(|i| image::decode(i)).collect();
    let words: Vec<usize> = images.iter().map(|i| program(i).map_or(0, |p| p.words.len())).collect();
    let rust = [
        clock.least(|| images.iter().for_each(|i| _ = black_box(check::check(black_box(i))))),
        clock.least(|| images.iter().for_each(|i| _ = black_box(image::decode(black_box(i))))),
        clock.least(|| trees.iter().for_each(|t| _ = black_box(SemanticAnalyzer::new().analyze(black_box(t))))),
        clock.least(|| trees.iter().for_each(|t| _ = black_box(Codegen::new().generate(black_box(t))))),
    ];
    let mean = |sum: usize| grouped(sum / images.len());
    let group = format!("{name} | {} | {}", mean(images.iter().map(Vec::len).sum()), mean(words.iter().sum()));
    Times { group, rust, library: library(images, &words, &clock) }
}

fn library(images: &[Vec<u8>], words: &[usize], clock: &Clock) -> [Option<f64>; 4] {
    let most = *words.iter().max().expect("an image");
    let (mut code, mut table, mut bytes) = (vec![0u64; most], vec![0u64; 3 * 256], vec![0u8; 8 * most]);
    let least = |linked: bool, work: &mut dyn FnMut(&[u8])| linked.then(|| clock.least(|| images.iter().for_each(|i| work(black_box(i)))));
    [
        least(CHECK, &mut |i| _ = black_box(foreign::lib_check(i))),
        least(HOST, &mut |i| _ = black_box(foreign::lib_analyse(i))),
        least(BUILD, &mut |i| _ = black_box(foreign::lib_build(i, &mut code, &mut table))),
        least(HOST, &mut |i| _ = black_box(foreign::lib_host(i, &mut bytes))),
    ]
}
