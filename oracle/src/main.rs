// The Rust as the judge: see README.md for the commands.
extern crate self as bud_isa; // codegen.rs names the word crate so

mod accesses;
mod analysis;
mod apart;
mod ask;
mod bench;
mod bounds;
mod cases;
mod check;
mod compare;
mod damage;
mod faults;
mod foreign;
mod gen;
mod generation;
mod grammar;
mod groups;
mod image;
mod kept;
mod low;
mod marks;
mod meant;
mod model;
mod node;
mod places;
mod rng;
mod samples;
mod selfcheck;
mod store;
mod texts;
mod tricks;
mod words;

// The crate's own: its writer, and what its tests build trees with.
#[path = "../../host/tests/common/edges.rs"]
mod edges;
#[path = "../../host/tests/common/every.rs"]
mod every;
#[path = "../../host/tests/common/tree.rs"]
mod tree;
#[path = "../../host/src/image.rs"]
mod writer;

// The Rust, unchanged.
#[allow(warnings)]
mod ast {
    include!(concat!(env!("OUT_DIR"), "/ast.rs"));
}
#[allow(warnings)]
mod sema {
    include!(concat!(env!("OUT_DIR"), "/sema.rs"));
}
#[allow(warnings)]
mod codegen {
    include!(concat!(env!("OUT_DIR"), "/codegen.rs"));
}
#[allow(warnings)]
mod isa {
    include!(concat!(env!("OUT_DIR"), "/isa.rs"));
}
#[allow(warnings)]
mod error {
    include!(concat!(env!("OUT_DIR"), "/error.rs"));
}
pub use error::CompileError;
pub use isa::{Instruction, IsaProfile, Opcode};

use std::process::exit;

const USE: &str = "use: oracle [selfcheck [accesses] N | gen SEED COUNT DIR | answer FILE [ROOM TABLE] | analyse FILE | text FILE | \
why FILE [INDEX] | listing PROGRAM N [SEED] | words N SEED PROGRAM.. | low N PROGRAM | staticlib [accesses] N [SEED] | whys FILE | bench [ROUNDS] | store DIR | replay FILE | \
samples DIR | kept]";

type Said = Result<(), String>;

fn main() {
    let words: Vec<String> = std::env::args().skip(1).collect();
    let words: Vec<&str> = words.iter().map(String::as_str).collect();
    if let Err(line) = command(&words) {
        eprintln!("oracle: {line}");
        exit(1);
    }
}

fn command(words: &[&str]) -> Said {
    match words {
        [] | ["selfcheck"] => selfcheck::run(50_000, cases::image),
        ["selfcheck", "accesses", n] => selfcheck::run(number(n)?, accesses::image),
        ["selfcheck", n] => selfcheck::run(number(n)?, cases::image),
        ["gen", seed, count, dir] => generate(number(seed)?, number(count)?, dir),
        ["answer", file] => answer(file, samples::ROOM, samples::TABLE),
        ["answer", file, room, table] => answer(file, number(room)? as usize, number(table)? as usize),
        ["analyse", file] => analyse(file),
        ["text", file] => text(file),
        ["why", file] => why(file, None),
        ["why", file, index] => why(file, Some(number(index)?)),
        ["listing", program, n] => selfcheck::listing(program, number(n)?, 0),
        ["listing", program, n, seed] => selfcheck::listing(program, number(n)?, number(seed)?),
        ["words", n, seed, program @ ..] => words::compare(number(n)?, number(seed)?, program),
        ["low", n, program] => low::compare(number(n)?, program),
        ["staticlib", "accesses", n] => foreign::compare(number(n)?, 0, accesses::image),
        ["staticlib", "accesses", n, seed] => foreign::compare(number(n)?, number(seed)?, accesses::image),
        ["staticlib", n] => foreign::compare(number(n)?, 0, cases::image),
        ["staticlib", n, seed] => foreign::compare(number(n)?, number(seed)?, cases::image),
        ["whys", file] => foreign::whys(file),
        ["bench"] => bench::run(9),
        ["bench", rounds] => bench::run(number(rounds)?),
        ["store", dir] => store::store(dir),
        ["replay", file] => store::replay(file),
        ["kept"] => kept::print(),
        ["samples", dir] => store::samples(dir),
        _ => Err(USE.into()),
    }
}

fn number(x: &str) -> Result<u64, String> {
    x.parse().map_err(|_| format!("{x} is no number"))
}

fn load(file: &str) -> Result<Vec<u8>, String> {
    std::fs::read(file).map_err(|e| format!("{file}: {e}"))
}

fn save(file: &str, bytes: &[u8]) -> Said {
    std::fs::write(file, bytes).map_err(|e| format!("{file}: {e}"))
}

fn generate(seed: u64, count: u64, dir: &str) -> Said {
    std::fs::create_dir_all(dir).map_err(|e| format!("{dir}: {e}"))?;
    (seed..seed + count).try_for_each(|s| save(&format!("{dir}/{s}.img"), &cases::image(s)))
}

fn answer(file: &str, room: usize, table: usize) -> Said {
    print!("{}", store::listing(&load(file)?, room, table));
    Ok(())
}

fn analyse(file: &str) -> Said {
    match model::analysed(&load(file)?) {
        Ok(_) => println!("analysed"),
        Err(r) => println!("refused {} {} 0", r.number, r.place),
    }
    Ok(())
}

fn text(file: &str) -> Said {
    let img = load(file)?;
    let refusal = compare::heard(&img, &model::program(&img));
    let a = model::text(refusal.as_ref(), &mut [0; model::TEXT_ROOM]);
    println!("{} {} {}", a.refusal, a.place, a.count);
    refusal.filter(|_| a.count > 0).iter().for_each(|r| println!("{}", r.text));
    Ok(())
}

fn why(file: &str, index: Option<u64>) -> Said {
    let p = model::program(&load(file)?);
    let words = p.as_ref().map_or(1, |p| p.words.len() as u64);
    for i in index.map_or(0..=words - 1, |i| i..=i) {
        let a = model::why(&p, i);
        if a.refusal != 0 {
            println!("refused {} {} {}", a.refusal, a.place, a.count);
        } else {
            println!("{i} {} {}", a.place, a.count);
        }
    }
    Ok(())
}
