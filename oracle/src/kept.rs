// Faults of the Rust that are kept because the words must be equal: a small contract for each.
use crate::ast::{Contract, Expr, Function, Stmt, Struct};
use crate::compare::{hex, hold, rust_text};
use crate::image::{encode, op_of};
use crate::store::listing;
use crate::tree::*;

type Kept = (&'static str, Contract);

fn taking(ty: &str, body: Vec<Stmt>) -> Contract {
    contract(vec![], vec![], vec![function("main", vec![("p", ty)], None, body)])
}

fn with(structs: Vec<Struct>, body: Vec<Stmt>) -> Contract {
    contract(vec![], structs, vec![function("main", vec![], None, body)])
}

fn beside(f: Function, body: Vec<Stmt>) -> Contract {
    contract(vec![], vec![], vec![f, function("main", vec![], None, body)])
}

fn s() -> Vec<Struct> {
    vec![structure("S", vec![("x", "u64")])]
}

fn s_of(v: u64) -> Expr {
    literal("S", vec![("x", int(v))])
}

fn names() -> Vec<Kept> {
    let x = |v| vec![let_("x", int(v))];
    vec![
        (
            "a Let of one name in both arms leaves it at the register of `then`",
            main_of(vec![if_(int(0), x(1), Some(x(2))), constrain(id("x"))]),
        ),
        (
            "a Let in an arm takes an outer name over for all that follows",
            main_of(vec![let_("x", int(1)), if_(int(0), x(2), None), constrain(id("x"))]),
        ),
        ("a name let in an arm is there after it, written or not", main_of(vec![if_(int(0), x(1), None), constrain(id("x"))])),
        (
            "a name let in `then` is there in `else` for analysis, not for generation",
            main_of(vec![if_(int(1), x(1), Some(vec![constrain(id("x"))]))]),
        ),
        ("`let b = a` shares a's register", main_of(vec![let_("a", int(1)), let_("b", id("a")), assign("b", int(2)), constrain(id("a"))])),
        (
            "a For's end that is a plain name is read anew at each turn",
            main_of(vec![let_("n", int(1)), for_("i", id("n"), id("n"), vec![assign("n", int(2))])]),
        ),
    ]
}

fn types() -> Vec<Kept> {
    let of = |fields, e| with(vec![structure("S", fields)], vec![constrain(e)]);
    let same = binary(id("p"), op_of(4), id("p"));
    let two = vec![("x", "u64"), ("y", "u64")];
    let never = function("poseidon", vec![], None, vec![]);
    vec![
        (
            "a literal stores in Init order, an access reads at the declared position",
            of(two, access(literal("S", vec![("y", int(1))]), "y")),
        ),
        (
            "a repeated field has its last type and its first position",
            of(vec![("f", "u64"), ("x", "u64"), ("f", "bool")], access(literal("S", vec![]), "f")),
        ),
        ("a comparison has its left operand's type", taking("bool", vec![constrain(add(same, int(1)))])),
        (
            "a storage field's type is not looked at",
            contract(vec![field("s", "bool")], vec![], vec![function("main", vec![], None, vec![does(add(read("s"), int(1)))])]),
        ),
        (
            "a function of a builtin's name is translated and never called",
            beside(never, vec![does(call("poseidon", vec![int(1), int(2)]))]),
        ),
        ("a return type asks for no return", contract(vec![], vec![], vec![function("main", vec![], Some("u64"), vec![])])),
        ("`main` may have parameters, which nobody pushes", taking("u64", vec![])),
        ("the text says 31 registers, 30 can be had; a large number keeps three", main_of(vec![emit("e", vec![int(1 << 31); 10])])),
    ]
}

fn memory() -> Vec<Kept> {
    let nested = || [s(), vec![structure("T", vec![("s", "S")])]].concat();
    let in_t = |e| constrain(access(access(literal("T", vec![("s", e)]), "s"), "x"));
    let makes = function("f", vec![], Some("S"), vec![Stmt::Return(Some(s_of(7)))]);
    let mut called = beside(makes, vec![in_t(call("f", vec![]))]);
    called.structs = nested();
    let empty = vec![let_("a", literal("S", vec![])), let_("b", s_of(7)), constrain(access(id("a"), "x"))];
    let truth = binary(literal("S", vec![]), op_of(4), literal("S", vec![]));
    vec![
        ("a literal in a literal lies at the same address", with(nested(), vec![in_t(s_of(7))])),
        ("so does one that is made by a call in a literal", called),
        ("a literal takes room for its Inits, not for its fields", with(s(), empty)),
        ("structs are compared by their addresses", with(s(), vec![constrain(binary(s_of(7), op_of(4), s_of(7)))])),
        ("what an operator makes of two structs is one", with(s(), vec![constrain(access(truth, "x"))])),
    ]
}

fn control() -> Vec<Kept> {
    let x = |v| vec![let_("x", v)];
    let below = binary(id("i"), op_of(6), int(1));
    let once = while_(below, vec![let_("x", int(7)), assign("i", int(1))]);
    let logs = function("f", vec![], Some("u64"), vec![emit("e", vec![int(2)]), Stmt::Return(Some(int(3)))]);
    vec![
        (
            "a Let in `else` takes an outer name over in `then` too",
            main_of(vec![let_("x", int(2)), if_(int(1), vec![constrain(id("x"))], Some(x(int(3))))]),
        ),
        (
            "after both arms a name has the type of `else` and the register of `then`",
            with(s(), vec![if_(int(1), x(int(5)), Some(x(s_of(7)))), constrain(access(id("x"), "x"))]),
        ),
        (
            "a While's condition is made in the registers of the names let in its body",
            main_of(vec![let_("i", int(0)), once, constrain(id("x"))]),
        ),
        ("an assignment to a For's name changes its turns", main_of(vec![for_("i", int(0), int(2), vec![assign("i", int(0))])])),
        ("an Emit's arguments are logged one by one, without its name", beside(logs, vec![emit("e", vec![int(1), call("f", vec![])])])),
    ]
}

fn unasked() -> Vec<Kept> {
    let void = || function("f", vec![], None, vec![]);
    let own = function("f", vec![("p", "u64")], None, vec![]);
    let mut named = beside(own, vec![does(call("f", vec![literal("u64", vec![])]))]);
    named.structs = vec![structure("u64", vec![])];
    let main = || function("main", vec![], None, vec![]);
    vec![
        (
            "no type is asked of a condition or of what is constrained, stored or emitted",
            beside(void(), vec![constrain(call("f", vec![]))]),
        ),
        ("a name that is declared twice is no error", contract(vec![], vec![], vec![main(), main()])),
        ("a struct type need not be declared", taking("Foo", vec![constrain(access(id("p"), "x"))])),
        ("a struct called u64 is no u64", named),
    ]
}

// The Rust's offset changes from run to run.
fn not_kept() -> Vec<Kept> {
    let of = |ty| Contract {
        structs: vec![structure("A", vec![("x", "u64"), ("y", "u64")]), structure("B", vec![("y", "u64")])],
        ..taking(ty, vec![constrain(access(id("p"), "y"))])
    };
    vec![("not kept: an access has the position in its base's struct", of("A")), ("not kept: where that is not declared, 30", of("Open"))]
}

/// All of them, in the order of docs/DIFFERENCES.md.
pub fn all() -> Vec<Kept> {
    [names(), types(), memory(), control(), unasked(), not_kept()].concat()
}

/// Prints each with its image, its answer and the Rust's text.
pub fn print() -> Result<(), String> {
    for (what, c) in all() {
        let img = encode(&c);
        _ = hold(&img);
        let text = rust_text(&img);
        println!("{what}\nimage {}\nRust {}\n{}", hex(&img), if text.is_empty() { "builds it" } else { &text }, listing(&img, 8192, 768));
    }
    Ok(())
}
