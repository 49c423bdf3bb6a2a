//! The least stack, in KiB, on which the deepest trees of each kind are built, on which their text is told, and why each of their words is
//! there. (`many` has more parameters than there are registers: the answer is 41.)
//! Trees that end in a `lost` name are refused by analysis, so that theirs is the stack of analysis.
use haspnettle::ast::{Contract, Expr, Stmt, Struct};
use haspnettle::{ast, build_into, image, text, why, Unwritable};
use std::{env, process::Command, thread};
use tree::*;

#[path = "../tests/common/tree.rs"]
mod tree;

fn of(body: Vec<Stmt>) -> Contract {
    let wide = (0..64).map(|i| field(&format!("f{i}"), if i < 63 { "u64" } else { "W" })).collect();
    let names: Vec<String> = (0..64).map(|i| format!("p{i}")).collect();
    contract(
        vec![field("m", "u64")],
        vec![structure("S", vec![("x", "S")]), Struct { name: "W".into(), fields: wide }],
        vec![
            function("main", vec![("p", "S"), ("w", "W"), ("q", "u64")], Some("u64"), body),
            function("g", vec![("a", "u64")], Some("u64"), vec![]),
            function("many", names.iter().map(|p| (&p[..], "u64")).collect(), Some("u64"), vec![]),
        ],
    )
}

// Wraps again and again, until no image holds it.
fn deepest<T: Clone>(mut inner: T, wrap: impl Fn(T) -> T, body: impl Fn(T) -> Vec<Stmt>) -> Contract {
    let mut last = of(vec![]);
    loop {
        inner = wrap(inner);
        let next = of(body(inner.clone()));
        match image(&next) {
            Ok(_) => last = next,
            Err(Unwritable::TooDeep) => return last,
            Err(other) => panic!("{other}"),
        }
    }
}

fn deepest_expr(leaf: Expr, wrap: impl Fn(Expr) -> Expr) -> Contract {
    deepest(leaf, wrap, |e| vec![does(e)])
}

fn deepest_body(wrap: impl Fn(Vec<Stmt>) -> Stmt) -> Contract {
    deepest(vec![], |body| vec![wrap(body)], |body| body)
}

fn kinds() -> Vec<(&'static str, Contract)> {
    let q = || id("q");
    let lost = || id("lost");
    let inits = |e: Expr| (0..63).map(|i| (format!("f{i}"), q())).chain([("f63".into(), e)]).collect();
    vec![
        ("empty", of(vec![])),
        ("call", deepest_expr(int(1), |e| call("g", vec![e]))),
        ("wide call", deepest_expr(q(), |e| call("many", [vec![q(); 63], vec![e]].concat()))),
        ("poseidon", deepest_expr(int(1), |e| call("poseidon", vec![e, int(1)]))),
        ("merkle", deepest_expr(int(1), |e| call("verify_merkle_proof", vec![e, int(1), int(1)]))),
        ("mapping", deepest_expr(int(1), |e| mapping("m", e))),
        ("binary left", deepest_expr(int(1), |e| add(e, int(1)))),
        ("binary right", deepest_expr(int(1), |e| add(int(1), e))),
        ("literal", deepest_expr(id("p"), |e| literal("S", vec![("x", e)]))),
        ("wide literal", deepest_expr(id("w"), |e| Expr::StructLiteral("W".into(), inits(e)))),
        ("access", deepest_expr(id("p"), |e| access(e, "x"))),
        ("lost call", deepest_expr(lost(), |e| call("g", vec![e]))),
        ("lost mapping", deepest_expr(lost(), |e| mapping("m", e))),
        ("lost binary", deepest_expr(lost(), |e| add(e, int(1)))),
        ("lost access", deepest_expr(lost(), |e| access(e, "x"))),
        ("lost literal", deepest_expr(lost(), |e| literal("S", vec![("x", e)]))),
        ("if", deepest_body(|b| if_(int(1), b, None))),
        ("else", deepest_body(|b| if_(int(1), vec![], Some(b)))),
        ("while", deepest_body(|b| while_(int(1), b))),
        ("for", deepest_body(|b| for_("i", int(0), int(1), b))),
    ]
}

// What one call says of an image.
fn says(call: &str, img: &[u8]) -> String {
    match call {
        "build" => build_into(img, &mut vec![0; 8 * 65_536]).map_or_else(|r| r.to_string(), |n| format!("{n} words")),
        "text" => text(img).unwrap_or_default(),
        _ => format!("{} words", (0..).map_while(|index| why(img, index).ok()).count()),
    }
}

// The least stack on which a call returns, each tried in a process of its own; and what it says.
fn least(kind: &str, call: &str) -> (u32, String) {
    let run = |kib: u32| Command::new(env::current_exe().unwrap()).args([kind, call, &kib.to_string()]).output().unwrap();
    let (mut low, mut high) = (16, 1024);
    while low < high {
        let middle = (low + high) / 2;
        match run(middle).status.success() {
            true => high = middle,
            false => low = middle + 1,
        }
    }
    (high, String::from_utf8(run(high).stdout).unwrap())
}

fn main() {
    if let [_, kind, call, kib] = &env::args().collect::<Vec<_>>()[..] {
        let img = image(&kinds().into_iter().find(|k| k.0 == kind).unwrap().1).unwrap();
        let call = call.clone();
        let run = move || says(&call, &img);
        print!("{}", thread::Builder::new().stack_size(kib.parse::<usize>().unwrap() << 10).spawn(run).unwrap().join().unwrap());
        return;
    }
    for (kind, _) in kinds() {
        let ((build, answer), (text, _), (why, _)) = (least(kind, "build"), least(kind, "text"), least(kind, "why"));
        println!("{kind:14} build {build:4} KiB  text {text:4} KiB  why {why:4} KiB  {answer}");
    }
}
