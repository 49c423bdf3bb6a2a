// Which struct an access means (document 02, P2): a small contract for each case, with the answer that the rule gives.
use crate::ast::{Contract, Expr, Function, Stmt, Struct};
use crate::image::*;
use crate::model::program;
use crate::tree::*;

/// The answer: the offsets of the accesses in the order of the words; or 30, at the access of that number in the image; or another refusal.
pub enum Due {
    Built(&'static [u64]),
    Ambiguous(usize),
    Refused(u32),
}
use Due::*;

pub struct Case {
    pub what: &'static str,
    contract: Contract,
    due: Due,
}

fn case(what: &'static str, contract: Contract, due: Due) -> Case {
    Case { what, contract, due }
}

// By name y is ambiguous; x and a are not.
fn a_and_b() -> Vec<Struct> {
    vec![structure("A", vec![("x", "u64"), ("y", "u64")]), structure("B", vec![("y", "u64"), ("a", "A")])]
}

fn taking(structs: Vec<Struct>, params: Vec<(&str, &str)>, body: Vec<Stmt>) -> Contract {
    contract(vec![field("s", "u64")], structs, vec![function("main", params, None, body)])
}

// p is an A and q a B; the type of o is not declared.
fn of(body: Vec<Stmt>) -> Contract {
    taking(a_and_b(), vec![("p", "A"), ("q", "B"), ("o", "Open")], body)
}

fn y(x: &str) -> Stmt {
    constrain(access(id(x), "y"))
}

fn a(x: &str) -> Stmt {
    let_(x, literal("A", vec![]))
}

fn b(x: &str) -> Stmt {
    let_(x, literal("B", vec![]))
}

// Unknown: a field of an undeclared struct.
fn open() -> Expr {
    access(id("o"), "z")
}

/// All of them.
pub fn all() -> Vec<Case> {
    let mut out = bases();
    out.extend(others());
    out.extend(scopes());
    out.extend(structs());
    out.extend(calls());
    out
}

fn bases() -> Vec<Case> {
    let then = |e| of(vec![constrain(access(e, "y"))]);
    vec![
        case("a parameter, as in C11", of(vec![y("p")]), Built(&[8])),
        case("each its own", of(vec![y("p"), y("q"), y("p")]), Built(&[8, 0, 8])),
        case("an access", then(access(id("q"), "a")), Built(&[8, 8])),
        case("a literal", then(literal("A", vec![("x", access(id("p"), "y"))])), Built(&[8, 8])),
        case("a Binary", then(binary(id("p"), op_of(4), id("p"))), Built(&[8])),
        case("a Binary, Unknown on the right", then(add(id("p"), open())), Built(&[0, 8])),
        case("a Binary, Unknown on the left", then(add(open(), id("p"))), Ambiguous(0)),
        case("in a key", of(vec![does(mapping("s", access(id("p"), "y")))]), Built(&[8])),
    ]
}

fn others() -> Vec<Case> {
    let of_o = |x| constrain(access(id("o"), x));
    let then = |x, z| of(vec![constrain(access(access(id("o"), x), z))]);
    let mut unnamed = [of(vec![y("p")]), of(vec![y("o")])];
    unnamed.iter_mut().for_each(|c| c.functions[0].name = "f".into());
    let [no_main, nor_decided] = unnamed;
    vec![
        case("an undeclared struct", of(vec![y("o")]), Ambiguous(0)),
        case("an undeclared struct, fields of one position or none", of(vec![of_o("x"), of_o("a"), of_o("z")]), Built(&[0, 8, 0])),
        case("an Unknown", then("z", "y"), Ambiguous(0)),
        case("an undeclared struct in an Unknown", then("y", "x"), Ambiguous(1)),
        case("an Unknown, fields of one position", then("x", "a"), Built(&[0, 8])),
        case("only the second is ambiguous", of(vec![y("p"), y("o"), y("o")]), Ambiguous(1)),
        case("what is Unknown stays so", of(vec![let_("v", open()), assign("v", id("p")), y("v")]), Ambiguous(1)),
        case("what is declared stays so", of(vec![assign("p", open()), y("p")]), Built(&[0, 8])),
        case("analysis comes first", of(vec![y("o"), constrain(id("none"))]), Refused(10)),
        case("no main", no_main, Refused(40)),
        case("30 comes before that", nor_decided, Ambiguous(0)),
        case("registers", of([lets(26), vec![y("p")]].concat()), Refused(41)),
        case("30 comes before these", of([lets(26), vec![y("p"), y("o")]].concat()), Ambiguous(1)),
    ]
}

fn scopes() -> Vec<Case> {
    let loops = |body| for_("i", int(0), int(1), body);
    vec![
        case("let in `then`, read in `else`", of(vec![a("v"), if_(int(1), vec![b("v")], Some(vec![y("v")]))]), Built(&[0])),
        case("let in `then`, read after", of(vec![a("v"), if_(int(1), vec![b("v")], None), y("v")]), Built(&[0])),
        case("let in both arms", of(vec![if_(int(1), vec![b("v")], Some(vec![a("v")])), y("v")]), Built(&[8])),
        case("let in `else`, read in `then`", of(vec![a("v"), if_(int(1), vec![y("v")], Some(vec![b("v")]))]), Built(&[8])),
        case("let in a While", of(vec![a("v"), while_(int(1), vec![y("v"), b("v"), y("v")]), y("v")]), Built(&[8, 0, 0])),
        case("let in a For", of(vec![a("v"), loops(vec![y("v"), b("v"), y("v")]), y("v")]), Built(&[8, 0, 8])),
        case("let in an If in a For", of(vec![a("v"), loops(vec![if_(int(1), vec![b("v")], None), y("v")]), y("v")]), Built(&[0, 8])),
        case("after a For of the name", of(vec![for_("p", int(0), int(1), vec![]), y("p")]), Built(&[8])),
        case("in a For of the name", of(vec![for_("p", int(0), int(1), vec![y("p")])]), Refused(15)),
        case("a Let over a parameter", of(vec![let_("p", id("q")), y("p")]), Built(&[0])),
        case("a repeated parameter", taking(a_and_b(), vec![("p", "A"), ("p", "B")], vec![y("p")]), Built(&[0])),
    ]
}

fn structs() -> Vec<Case> {
    let p = |structs: Vec<Struct>, body| taking(structs, vec![("p", "A"), ("o", "Open")], body);
    let b_y = || structure("B", vec![("y", "u64")]);
    let again = |fields| [a_and_b(), vec![structure("A", fields)]].concat();
    let twice = || vec![structure("A", vec![("x", "u64"), ("y", "u64"), ("x", "B"), ("y", "bool")]), b_y()];
    let in_open = || vec![structure("A", vec![("x", "Open"), ("y", "u64")]), b_y()];
    let called = || vec![structure("u64", vec![("x", "u64"), ("y", "u64")]), b_y()];
    let x_y = || constrain(access(access(id("p"), "x"), "y"));
    vec![
        case("a replaced struct", p(again(vec![("z", "u64"), ("x", "u64"), ("y", "u64")]), vec![y("p")]), Built(&[16])),
        case("a replaced struct lacks it", p(again(vec![("x", "u64")]), vec![y("p")]), Refused(14)),
        case("a replaced struct does not count", p(again(vec![("y", "u64")]), vec![y("p"), y("o")]), Built(&[0, 0])),
        case("a repeated field", p(twice(), vec![y("p")]), Built(&[8])),
        case("a repeated field of two types", p(twice(), vec![x_y()]), Built(&[0, 0])),
        case("a field of an undeclared struct", p(in_open(), vec![x_y()]), Ambiguous(0)),
        case("a struct called u64", taking(called(), vec![], vec![constrain(access(literal("u64", vec![]), "y"))]), Built(&[8])),
        case("a u64 beside it", taking(called(), vec![("p", "u64")], vec![y("p")]), Refused(15)),
    ]
}

fn calls() -> Vec<Case> {
    let gives = |x: &str, ty: &str| function(x, vec![], Some(ty), vec![]);
    let of = |functions: Vec<Function>, x| {
        let main = function("main", vec![], None, vec![constrain(access(call(x, vec![]), "y"))]);
        contract(vec![], a_and_b(), [functions, vec![main]].concat())
    };
    let uncalled = function("f", vec![("o", "Open")], Some("A"), vec![y("o")]);
    vec![
        case("a call", of(vec![gives("f", "A")], "f"), Built(&[8])),
        case("a call of the last of two", of(vec![gives("f", "A"), gives("f", "B")], "f"), Built(&[0])),
        case("a call that gives an undeclared struct", of(vec![gives("f", "Open")], "f"), Ambiguous(0)),
        case("a builtin's call", of(vec![gives("msg::sender", "A")], "msg::sender"), Refused(15)),
        case("in a function that is not called", of(vec![uncalled, gives("f", "A")], "f"), Ambiguous(0)),
    ]
}

impl Case {
    pub fn image(&self) -> Vec<u8> {
        encode(&self.contract)
    }

    /// Whether the model gives the answer.
    pub fn holds(&self) -> Result<(), String> {
        let img = self.image();
        let said = program(&img).map(|p| loads(&p.words));
        let as_due = match (&said, &self.due) {
            (Ok(offsets), Built(due)) => offsets == due,
            (Err(r), Ambiguous(n)) => (r.number, Some(&r.place)) == (30, accesses(&img, rec_at(&img, 0)).get(*n)),
            (Err(r), Refused(number)) => r.number == *number,
            _ => false,
        };
        if as_due {
            Ok(())
        } else {
            Err(format!("{}: the model says {said:?}", self.what))
        }
    }
}

// The offsets of the Loads that read memory: register 0 is no base.
fn loads(words: &[u64]) -> Vec<u64> {
    words.iter().filter(|w| **w & 0xFF == 0x14 && **w >> 13 & 31 != 0).map(|w| w >> 23).collect()
}

// The places of the accesses, in image order.
fn accesses(img: &[u8], r: Rec) -> Vec<usize> {
    let own = (r.kind == FIELD_ACCESS).then_some(r.at);
    let parts: Vec<Rec> = if is_leaf(r.kind) { vec![] } else { r.parts(img).collect() };
    own.into_iter().chain(parts.into_iter().flat_map(|p| accesses(img, p))).collect()
}
