// Groups of accepted images to time.
use crate::ast::{Contract, Expr, Struct};
use crate::edges;
use crate::gen::{self, Shape};
use crate::image::encode;
use crate::model::program;
use crate::rng::Rng;
use crate::tree::*;

pub type Group = (&'static str, Vec<Vec<u8>>);

pub fn all() -> Vec<Group> {
    let one = |name, c: Contract| (name, vec![encode(&c)]);
    let groups = vec![
        ("200 small (1 KB)", generated(200, 500..1500, shape(3, 6))),
        ("60 typical (3 KB)", generated(60, 2000..4500, shape(8, 12))),
        ("10 large (40 KB)", generated(10, 30_000..60_000, shape(60, 36))),
        one("700 calls of 20 functions", calls(20, 700)),
        one("1,300 calls of 3 functions", calls(3, 1300)),
        one("200 functions, 400 calls", calls(200, 400)),
        one("64-byte names, equal but for the end", long_names()),
        one("prefix of 56, the last 4 differ", prefixed(|i| format!("{}{i:04}", prefix(56)))),
        one("prefix of 56, 4 that differ, 4 equal", prefixed(|i| format!("{}{i:04}_end", prefix(56)))),
        one("the middle 4 of 60 differ", prefixed(|i| format!("{0}{i:04}{0}", prefix(28)))),
        one("prefix of 56, lengths differ", prefixed(|i| "a".repeat(56 + i % 9))),
        one("350 long field names", long_fields()),
        one("40 structs, 600 accesses", accesses()),
        one("7 structs of 50 fields, 230 accesses", shared_fields()),
        ("deep: expressions 50, statements 28", vec![encode(&deep_expr()), encode(&deep_stmt())]),
        one("400 locals, 800 uses", locals()),
        one("3,276 statements, 64 KiB", edges::sized(65_536)),
        one("largest program", largest()),
    ];
    for (name, images) in &groups {
        assert!(images.iter().all(|i| program(i).is_ok()), "{name} holds a refused image");
    }
    groups
}

fn shape(functions: usize, stmts: usize) -> Shape {
    Shape { functions, structs: 3, stmts, depth: 3, lets: 10, risk: 0, shared_fields: false, long_names: false }
}

fn generated(n: usize, size: std::ops::Range<usize>, s: Shape) -> Vec<Vec<u8>> {
    let fits = |img: &Vec<u8>| size.contains(&img.len()) && program(img).is_ok();
    (0..).map(|seed| encode(&gen::contract(&mut Rng::new(seed), s))).filter(fits).take(n).collect()
}

fn callee(i: usize) -> String {
    format!("function_{i}")
}

fn calls(functions: usize, calls: usize) -> Contract {
    let mut all: Vec<_> = (0..functions).map(|i| function(&callee(i), vec![("a", "u64")], None, vec![])).collect();
    let body = (0..calls).map(|i| does(call(&callee(i * 7 % functions), vec![int(i as u64)]))).collect();
    all.push(function("main", vec![], None, body));
    contract(vec![], vec![], all)
}

fn prefix(n: usize) -> String {
    "a_name_that_all_share".repeat(3)[..n].to_string()
}

fn long(i: usize) -> String {
    format!("{}{i:04}", prefix(60))
}

fn long_names() -> Contract {
    let mut body: Vec<_> = (0..20).map(|i| let_(&long(i), int(1))).collect();
    body.extend((0..300).map(|i| constrain(add(id(&long(i % 20)), id(&long(i * 3 % 20))))));
    main_of(body)
}

// 200 functions, 60 structs and 250 locals whose names differ in little (02: P4), and 50 uses of each.
fn prefixed(name: impl Fn(usize) -> String) -> Contract {
    let structs = (0..60).map(|i| Struct { name: name(i), fields: vec![field("a", "u64")] }).collect();
    let mut functions: Vec<_> = (0..200).map(|i| function(&name(i), vec![], None, vec![])).collect();
    let mut body = vec![let_("first", int(1))];
    body.extend((0..250).map(|i| let_(&name(i), id("first"))));
    body.extend((0..50).flat_map(|i| {
        [does(call(&name(i * 7 % 200), vec![])), does(access(literal(&name(i * 7 % 60), vec![]), "a")), constrain(id(&name(i * 7 % 250)))]
    }));
    functions.push(function("main", vec![], None, body));
    contract(vec![], structs, functions)
}

fn long_fields() -> Contract {
    let of = |s: usize| Struct { name: long(s), fields: (0..50).map(|i| field(&long(1000 + 50 * s + i), "u64")).collect() };
    let body = (0..120).map(|i| does(access(literal(&long(i % 7), vec![]), &long(1000 + 50 * (i % 7) + i % 50)))).collect();
    contract(vec![], (0..7).map(of).collect(), vec![function("main", vec![], None, body)])
}

fn accesses() -> Contract {
    let name = |s: usize, i: usize| format!("field_{s}_{i}");
    let of = |s: usize| Struct { name: format!("Struct_{s}"), fields: (0..5).map(|i| field(&name(s, i), "u64")).collect() };
    let body = (0..600).map(|i| does(access(literal(&format!("Struct_{}", i % 40), vec![]), &name(i % 40, i % 5)))).collect();
    contract(vec![], (0..40).map(of).collect(), vec![function("main", vec![], None, body)])
}

// Seven structs of the same fields in the same order, whose names differ behind 48 bytes, and accesses to the last one. So the Rust's words do
// not change from run to run, and it compares 50 names an access, in whichever struct it finds first.
fn shared_fields() -> Contract {
    let name = |i: usize| format!("{}{i:02}", &long(0)[..48]);
    let of = |s: usize| Struct { name: format!("Struct_{s}"), fields: (0..50).map(|i| field(&name(i), "u64")).collect() };
    let params: Vec<_> = (0..7).map(|s| (format!("p{s}"), format!("Struct_{s}"))).collect();
    let params = params.iter().map(|(p, s)| (p.as_str(), s.as_str())).collect();
    let body = (0..230).map(|i| does(access(id(&format!("p{}", i % 7)), &name(49)))).collect();
    contract(vec![], (0..7).map(of).collect(), vec![function("main", params, None, body)])
}

fn deep_expr() -> Contract {
    let e = |n: u64| (0..50).fold(int(n), |e, i| add(e, int(i)));
    main_of((0..20).map(|n| does(e(n))).collect())
}

fn deep_stmt() -> Contract {
    let nest = |n: u64| (0..28).fold(vec![does(int(n))], |b, i| vec![if i % 2 == 0 { if_(int(i), b, None) } else { while_(int(i), b) }]);
    main_of((0..20).flat_map(nest).collect())
}

// Lets of a plain name share one register.
fn locals() -> Contract {
    let name = |i: usize| format!("local_{i}");
    let mut body = vec![let_("first", int(1))];
    body.extend((0..400).map(|i| let_(&name(i), id("first"))));
    body.extend((0..400).map(|i| constrain(add(id(&name(i * 7 % 400)), id(&name(i * 11 % 400))))));
    main_of(body)
}

// Nested calls with 29 registers to save: 61 words for 19 bytes.
fn largest() -> Contract {
    let chain = || (0..27).fold(call("f", vec![]), |e: Expr, _| call("g", vec![e]));
    let body = (0..119).map(|_| does(chain())).collect();
    let mut all = lets(27);
    all.push(for_("i", id("x0"), id("x0"), body));
    let f = function("f", vec![], Some("u64"), vec![]);
    let g = function("g", vec![("a", "u64")], Some("u64"), vec![]);
    contract(vec![], vec![], vec![f, g, function("main", vec![], None, all)])
}
