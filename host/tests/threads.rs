//! Many threads at once, a thread with little stack, and a long function.
mod common;

use common::ast::{Contract, Stmt};
use common::{edges::*, guarded, listed, sample, samples, told, tree::*, whole, Told};
use haspnettle::{analyse, build_image, image, text, why};
use std::thread;

// An image, and its words or refusal.
type Case = (Vec<u8>, Result<Vec<u64>, Told>);

// Deep trees of several kinds, wide ones, and one with loops and structs.
fn heavy() -> Vec<Contract> {
    let deep = (0..56).fold(int(1), |e, _| mapping("m", e));
    let nested = (0..28).fold(vec![constrain(int(1))], |b, _| vec![if_(int(1), b, Some(vec![]))]);
    // 29 calls one in the other, 64 records deep.
    let call_deep = (0..29).fold(int(1), |e, _| call("g", vec![e]));
    let g = function("g", vec![("a", "u64")], Some("u64"), vec![]);
    let main = |body| function("main", vec![], None, body);
    vec![
        contract(vec![field("m", "u64")], vec![], vec![main(vec![does(deep)])]),
        main_of(nested),
        contract(vec![], vec![], vec![main(vec![does(call_deep)]), g]),
        contract(vec![], vec![], vec![main(vec![emit("e", vec![call("g", vec![]); 20])]), function("g", vec![], None, vec![])]),
        wide_calls(),
        wide_literals(),
        loops(),
    ]
}

fn loops() -> Contract {
    let body = vec![
        let_("q", literal("P", vec![("x", access(id("p"), "x"))])),
        for_("i", int(0), int(9), vec![write("s", add(id("i"), read("s")))]),
        Stmt::Return(Some(read("s"))),
    ];
    let main = function("main", vec![("p", "P")], Some("u64"), body);
    contract(vec![field("s", "u64")], vec![structure("P", vec![("x", "u64")])], vec![main])
}

// 2,700 times the statement of sample c15_most: the five words before it, its eight again and again, and the five behind it.
fn long() -> (Vec<u8>, Vec<u64>) {
    let one = listed("c15_most").unwrap();
    let words = [one[..5].to_vec(), one[5..13].repeat(2700), one[13..].to_vec()].concat();
    (image(&main_of(vec![does(int(u64::MAX)); 2700])).unwrap(), words)
}

// Images with words that are known from elsewhere: the samples' listings (but for C3, which is C1 with little room), the long function.
fn known() -> Vec<Case> {
    let names = samples().into_iter().filter(|n| n != "c3");
    let mut all: Vec<_> = names.map(|n| (sample(&format!("{n}.img")), listed(&n))).collect();
    let (img, words) = long();
    all.push((img, Ok(words)));
    all
}

// The known ones, and the heavy ones with what one thread alone says.
fn all() -> Vec<Case> {
    let alone = |c: &Contract| {
        let img = image(c).unwrap();
        let says = build_image(&img).map_err(told);
        (img, says)
    };
    known().into_iter().chain(heavy().iter().map(alone)).collect()
}

fn holds((img, says): &Case) {
    assert_eq!(build_image(img).map_err(told), *says);
    let analysed = says.as_ref().err().filter(|r| r.0 < 30).map_or(Ok(()), |r| Err(*r));
    assert_eq!(analyse(img).map_err(told), analysed);
    assert_eq!(text(img).is_some(), says.as_ref().is_err_and(|r| matches!(r.0, 10..=22 | 40..=47)));
    let words = says.as_ref().map_or(0, Vec::len) as u64;
    assert!([0, words / 2, words.saturating_sub(1)].iter().all(|index| why(img, *index).is_ok() == says.is_ok()));
    assert_eq!(why(img, words).map_err(told), Err(says.as_ref().err().copied().unwrap_or((53, 0, 0))));
}

#[test]
fn many_threads() {
    let all = &all();
    thread::scope(|s| {
        for t in 0..16 {
            s.spawn(move || (0..4 * all.len()).for_each(|k| holds(&all[(k * 7 + t) % all.len()])));
        }
    });
}

#[test]
fn a_stack_of_96_kib() {
    let all = all();
    let run = move || all.iter().for_each(holds);
    thread::Builder::new().stack_size(96 << 10).spawn(run).unwrap().join().unwrap();
}

#[test]
fn a_long_function() {
    let (img, words) = long();
    assert_eq!(words.len(), 21_610);
    let len = 8 * words.len() + 5;
    let (answer, bytes) = guarded(&img, len);
    assert_eq!(answer, Ok(words.len()));
    assert_eq!(bytes, whole(&Ok(words), len));
}
