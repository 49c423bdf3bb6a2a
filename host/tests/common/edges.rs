//! A contract at each bound of document 01, or over it; for this crate's tree here, for the Rust's in `oracle/`.
#![allow(dead_code)] // who includes it need not use all of it

use super::ast::{Contract, Expr, Param, Stmt, StorageField, Struct};
use super::tree::*;

fn named(n: usize) -> String {
    format!("n{n}")
}

fn fields(n: usize) -> Vec<StorageField> {
    (0..n).map(|i| field(&named(i), "u64")).collect()
}

fn params(n: usize) -> Vec<Param> {
    fields(n).into_iter().map(|f| Param { name: f.name, ty: f.ty }).collect()
}

pub fn storage(n: usize) -> Contract {
    let last = named(n - 1);
    let body = vec![does(read(&last)), map_write("n0", int(1), read(&last))];
    contract(fields(n), vec![], vec![function("main", vec![], None, body)])
}

pub fn structs(n: usize) -> Contract {
    let all = (0..n).map(|i| structure(&named(i), vec![("f", "u64")])).collect();
    contract(vec![], all, vec![function("main", vec![], None, vec![does(access(literal(&named(n - 1), vec![]), "f"))])])
}

pub fn struct_fields(n: usize) -> Contract {
    let last = named(n - 1);
    let body = vec![does(access(literal("S", vec![(&last, int(1))]), &last))];
    contract(vec![], vec![Struct { name: "S".into(), fields: fields(n) }], vec![function("main", vec![], None, body)])
}

pub fn functions(n: usize) -> Contract {
    let mut all: Vec<_> = (1..n).map(|i| function(&named(i), vec![], None, vec![])).collect();
    let body = vec![does(call(&named(n - 1), vec![])), does(call("n1", vec![]))];
    all.insert(n / 2, function("main", vec![], None, body));
    contract(vec![], vec![], all)
}

/// Inits of one name, of a plain variable: they take no register.
pub fn inits(n: usize) -> Contract {
    let all = (0..n).map(|_| ("f", id("x0"))).collect();
    let body = vec![let_("x0", int(1)), does(literal("S", all))];
    contract(vec![], vec![structure("S", vec![("f", "u64")])], vec![function("main", vec![], None, body)])
}

pub fn args(n: usize) -> Contract {
    let mut c = main_of(vec![let_("x0", int(1)), does(call("f", (0..n).map(|_| id("x0")).collect()))]);
    c.functions.push(function("f", vec![], None, vec![]));
    c.functions[1].params = params(if n > 64 { 0 } else { n });
    c
}

/// An Emit has no bound of its own.
pub fn logged(n: usize) -> Contract {
    main_of(vec![let_("x0", int(1)), emit("e", (0..n).map(|_| id("x0")).collect())])
}

/// Names of one function: parameters, Fors and Lets that share one register; and three in the next function.
pub fn names(parameters: usize, fors: usize, lets: usize) -> Contract {
    let mut body = Vec::new();
    for i in 0..fors {
        body.push(for_("i", id("n0"), id("n0"), vec![let_(&named(i), id("i"))]));
    }
    body.extend((fors..lets).map(|i| let_(&format!("x{i}"), id("n0"))));
    let mut c = main_of(body);
    c.functions[0].params = params(parameters);
    c.functions.push(function("f", vec![], None, (0..3).map(|_| let_("x", int(1))).collect()));
    c
}

/// Left operands nested: one register, any depth.
pub fn left_deep(depth: usize) -> Contract {
    main_of(vec![does((0..depth - 6).fold(int(1), |e, i| add(e, int(i as u64))))])
}

pub fn nested_ifs(depth: usize) -> Contract {
    main_of((0..(depth - 4) / 2).fold(vec![], |b, _| vec![if_(int(1), b, None)]))
}

/// A contract of exactly `size` bytes: 72 of an empty main, 20 for each `Int` statement, 18 and its name for an Emit.
pub fn sized(size: usize) -> Contract {
    let count = (size - 72 - 19) / 20;
    let mut body: Vec<Stmt> = (0..count).map(|i| does(int(i as u64))).collect();
    body.push(emit(&"e".repeat(size - 72 - 20 * count - 18), vec![]));
    main_of(body)
}

/// Calls one in the other, each behind 63 arguments: as wide as deep. (Of f no word is built: it has more parameters than there are registers.)
pub fn wide_calls() -> Contract {
    let x = || (0..63).map(|_| id("x")).collect::<Vec<_>>();
    let e = (0..28).fold(id("x"), |e, _| call("f", [x(), vec![e]].concat()));
    let mut c = contract(vec![], vec![], vec![function("main", vec![("x", "u64")], None, vec![does(e)])]);
    c.functions.push(function("f", vec![], Some("u64"), vec![]));
    c.functions[1].params = params(64);
    c
}

/// Literals one in the other, each behind 63 values.
pub fn wide_literals() -> Contract {
    let mut all = fields(64);
    all[63].ty = "W".into();
    let inits = |e: Expr| (0..63).map(|i| (named(i), id("x"))).chain([(named(63), e)]).collect();
    let e = (0..19).fold(id("w"), |e, _| Expr::StructLiteral("W".into(), inits(e)));
    let main = function("main", vec![("x", "u64"), ("w", "W")], None, vec![does(e)]);
    contract(vec![], vec![Struct { name: "W".into(), fields: all }], vec![main])
}
