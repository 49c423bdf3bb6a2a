// Contracts with one mistake of a chosen number, put somewhere into a sound one.
use crate::ast::{Contract, Expr, Stmt};
use crate::rng::Rng;
use crate::tree::*;

/// The numbers that a contract of a sound image can get, whatever the room.
pub const NUMBERS: [u32; 22] = [10, 11, 12, 13, 14, 15, 16, 17, 18, 19, 20, 21, 22, 30, 40, 41, 42, 43, 44, 45, 46, 47];

/// Puts a mistake into a contract; nothing in front of it may be one.
pub fn inject(rng: &mut Rng, c: &mut Contract, number: u32) {
    match number {
        // By its name the field is ambiguous; by its base, which is declared, it is not.
        30 => {
            c.structs.push(structure("Zt", vec![("zb", "u64")]));
            place(rng, c, vec![does(access(literal("Zs", vec![]), "zb"))]);
        }
        40 => c.functions.iter_mut().filter(|f| f.name == "main").for_each(|f| f.name = "mine".into()),
        _ => {
            let body = mistake(rng, number);
            place(rng, c, body);
        }
    }
    declare(c);
}

// What the mistake names besides.
fn declare(c: &mut Contract) {
    let text = format!("{:?}", c.functions);
    if text.contains("Zs") {
        c.structs.push(structure("Zs", vec![("zz", "u64"), ("zb", "bool")]));
    }
    if text.contains("zvoid") {
        c.functions.push(function("zvoid", vec![], None, vec![]));
    }
    if text.contains("zbool") {
        c.functions.push(function("zbool", vec![("p", "bool")], Some("bool"), vec![Stmt::Return(Some(id("p")))]));
    }
}

fn mistake(rng: &mut Rng, number: u32) -> Vec<Stmt> {
    match number {
        11 => vec![assign("znone", id("zalso"))],
        12 => vec![let_("z", int(1)), assign("z", odd(rng))],
        13 => vec![Stmt::Return(Some(literal("Zs", vec![])))],
        41 if rng.chance(1, 2) => {
            let mut taken: Vec<Expr> = (0..rng.within(20, 28)).map(|_| int(1)).collect();
            taken.push(asking(rng));
            vec![emit("e", taken)]
        }
        41 => {
            let mut body = lets(rng.within(18, 28));
            body.push(asks(rng));
            body.extend(lets(rng.below(12)));
            body
        }
        42 => vec![if_(int(1), vec![let_("zthen", int(1))], Some(vec![in_stmt(rng, id("zthen"))]))],
        43 => vec![if_(int(1), vec![let_("zthen", int(1))], Some(vec![assign("zthen", int(2))]))],
        44 => vec![write("znone", int(1))],
        45 => vec![map_write("znone", int(1), int(2))],
        _ => {
            let e = wrong(rng, number);
            let e = wrap(rng, e);
            vec![in_stmt(rng, e)]
        }
    }
}

// An expression that is not of type u64.
fn odd(rng: &mut Rng) -> Expr {
    match rng.below(3) {
        0 => call("zvoid", vec![]),
        1 => access(literal("Zs", vec![]), "zb"),
        _ => literal("Zs", vec![]),
    }
}

fn wrong(rng: &mut Rng, number: u32) -> Expr {
    let s = || literal("Zs", vec![]);
    match number {
        10 => id("znone"),
        14 => access(s(), "znone"),
        15 => access(rng.pick(&[int(1), call("zvoid", vec![]), access(s(), "zb")]).clone(), "zz"),
        16 => literal("Zs", vec![("zz", int(1)), ("zb", int(2))]),
        17 => literal("Zs", vec![("zz", int(1)), ("znone", s())]),
        18 => literal("Znone", vec![("zz", id("zalso"))]),
        19 => rng
            .pick(&[call("zbool", vec![]), call("zvoid", vec![int(1)]), call("poseidon", vec![int(1)]), call("msg::nonce", vec![int(1)])])
            .clone(),
        20 => rng
            .pick(&[call("zbool", vec![int(1)]), call("poseidon", vec![int(1), s()]), call("verify_merkle_proof", vec![int(1), s(), s()])])
            .clone(),
        21 => call("znone", vec![int(1)]),
        22 => add(int(1), odd(rng)),
        46 => read("znone"),
        47 => mapping("znone", int(1)),
        n => panic!("no mistake for {n}"),
    }
}

// Each expression that asks for registers, at their end.
fn asking(rng: &mut Rng) -> Expr {
    let zs = || literal("Zs", vec![]);
    match rng.below(10) {
        0 => int(1 << 40),
        1 => mapping("znone", int(1)),
        2 => literal("Zs", vec![("zz", int(1)), ("zz", int(2)), ("zb", access(zs(), "zb"))]),
        3 => call("verify_merkle_proof", vec![int(1), int(2), int(1 << 50)]),
        4 => access(zs(), "zz"),
        5 => call("zvoid", vec![]),
        6 => add(int(1), add(int(2), add(int(3), int(4)))),
        7 => call("poseidon", vec![int(1), call("msg::sender", vec![])]),
        8 => read("znone"),
        _ => call("zbool", vec![access(zs(), "zb")]),
    }
}

// Each statement that does, behind some Lets.
fn asks(rng: &mut Rng) -> Stmt {
    match rng.below(8) {
        0 => for_("i", int(1), id("x0"), vec![]),
        1 => for_("i", id("x0"), id("x0"), lets(2)),
        2 => Stmt::Expr(call("poseidon", vec![id("x0"), id("x1")])),
        3 => does(add(id("x0"), id("x1"))),
        4 => emit("e", (0..9).map(int).collect()),
        5 => map_write("znone", int(1), int(2)),
        6 => Stmt::Return(None),
        _ => does(asking(rng)),
    }
}

fn wrap(rng: &mut Rng, e: Expr) -> Expr {
    match rng.below(6) {
        0 => call("poseidon", vec![int(1), e]),
        1 => call("verify_merkle_proof", vec![int(1), e, id("zlater")]),
        2 => literal("Zs", vec![("zz", e)]),
        _ => e,
    }
}

fn in_stmt(rng: &mut Rng, e: Expr) -> Stmt {
    match rng.below(10) {
        0 => let_("zlet", e),
        1 => constrain(e),
        2 => emit("e", vec![int(1), e, id("zlater")]),
        3 => if_(e, vec![], None),
        4 => while_(e, vec![]),
        5 => for_("z", int(0), e, vec![]),
        6 => for_("z", e, int(0), vec![]),
        7 => write("znone", e),
        8 => if_(int(1), vec![], Some(vec![does(e)])),
        _ => does(e),
    }
}

// Somewhere in the body of one of the functions.
fn place(rng: &mut Rng, c: &mut Contract, what: Vec<Stmt>) {
    let n = rng.below(c.functions.len());
    put(rng, &mut c.functions[n].body, what);
}

fn put(rng: &mut Rng, body: &mut Vec<Stmt>, what: Vec<Stmt>) {
    if !body.is_empty() && rng.chance(1, 2) {
        let at = rng.below(body.len());
        match &mut body[at] {
            Stmt::If(_, then, _) if rng.chance(1, 2) => return put(rng, then, what),
            Stmt::If(_, _, Some(other)) => return put(rng, other, what),
            Stmt::While(_, inner) => return put(rng, inner, what),
            Stmt::For { body, .. } => return put(rng, body, what),
            _ => {}
        }
    }
    let at = rng.below(body.len() + 1);
    body.splice(at..at, what);
}
