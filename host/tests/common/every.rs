//! A contract with every construct; for this crate's tree here, for the Rust's in `oracle/`.
#![allow(dead_code)] // who includes it need not use it

use super::ast::{BinOp, Contract, Expr, Function, Stmt};
use super::tree::*;

/// Every statement and expression, every operator and builtin, each with and without what it may lack, one in the other where they go; two
/// functions of one name, and calls forward, back and of oneself.
pub fn every() -> Contract {
    let structs =
        vec![structure("Cell", vec![("land", "u64"), ("ice", "u64")]), structure("Grid", vec![("size", "u64"), ("cell", "Cell")])];
    let storage = vec![field("total", "u64"), field("mask", "u64")];
    let mask = function("mask", vec![("p", "u64")], Some("u64"), vec![returned(id("p"))]);
    let done = function("done", vec![], None, vec![]);
    contract(storage, structs, vec![mask, done, main(), last_mask()])
}

fn returned(e: Expr) -> Stmt {
    Stmt::Return(Some(e))
}

fn main() -> Function {
    let body = vec![
        let_("x", int(1 << 60)),
        let_("y", id("x")),
        constrain(operators()),
        assign("x", mapping("mask", add(id("y"), int(1 << 31)))),
        write("total", access(access(id("g"), "cell"), "ice")),
        map_write("mask", read("total"), call("poseidon", vec![id("x"), call("msg::sender", vec![])])),
        let_("q", literal("Grid", vec![("cell", literal("Cell", vec![("land", int(3)), ("ice", id("x"))])), ("size", int(4))])),
        if_(id("x"), vec![Stmt::Return(None)], Some(vec![does(call("done", vec![])), let_("z", int(5))])),
        if_(call("verify_merkle_proof", vec![id("x"), int(6), call("block::number", vec![])]), vec![], None),
        if_(int(7), vec![], Some(vec![])),
        while_(call("mask", vec![id("x"), call("mask", vec![int(8), id("y")])]), loops()),
        while_(read("total"), vec![]),
        emit("nothing", vec![]),
    ];
    function("main", vec![("g", "Grid"), ("n", "u64")], None, body)
}

fn operators() -> Expr {
    use BinOp::*;
    let ops = [Add, Sub, Mul, Div, Eq, Neq, Lt, Gt, Lte, Gte];
    ops.into_iter().fold(id("n"), |e, op| binary(e, op, id("x")))
}

// A loop of each kind in a loop of each kind, and what follows them.
fn loops() -> Vec<Stmt> {
    let inner = for_("j", id("i"), int(9), vec![emit("seen", vec![id("j"), call("msg::nonce", vec![]), literal("Cell", vec![])])]);
    let turns = vec![inner, while_(id("i"), vec![assign("x", id("i"))])];
    vec![for_("i", int(0), id("n"), turns), while_(id("n"), vec![for_("k", int(1), int(2), vec![])])]
}

fn last_mask() -> Function {
    let own = call("mask", vec![id("b"), id("a")]);
    let body = vec![if_(id("a"), vec![returned(own)], None), does(call("done", vec![])), returned(int(u64::MAX))];
    function("mask", vec![("a", "u64"), ("b", "u64")], Some("u64"), body)
}
