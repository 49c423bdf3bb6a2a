// The Rust's texts (document 02, P1): each type, names of 64 bytes, numbers of more digits; a small contract for each, with its text.
use crate::ast::{Contract, Stmt};
use crate::image::encode;
use crate::model::program;
use crate::tree::*;

/// Two names of 64 bytes; each has every byte that a name may have.
const LONG: &str = "ABCDEFGHIJKLMNOPQRSTUVWXYZabcdefghijklmnopqrstuvwxyz0123456789_:";
const OTHER: &str = ":_9876543210zyxwvutsrqponmlkjihgfedcbaZYXWVUTSRQPONMLKJIHGFEDCBA";

pub struct Case {
    contract: Contract,
    text: String,
}

// A case of the analysis.
fn bad(contract: Contract, text: String) -> Case {
    Case { contract, text: format!("SemanticError: {text}") }
}

/// All of them.
pub fn all() -> Vec<Case> {
    let mut out = types();
    out.extend(analysed());
    out.extend(generated());
    out.extend(counts());
    out.extend(arguments());
    out
}

// Each type once as what is expected and once as what is got, in an Assign and in a Return.
fn types() -> Vec<Case> {
    let names = [
        ("u", Some("u64"), "U64"),
        ("b", Some("bool"), "Bool"),
        ("f", Some("field"), "Field"),
        ("v", None, "Void"),
        ("s", Some("Void"), r#"Struct("Void")"#),
    ];
    let of = |ret, last| {
        let params = names.iter().filter_map(|n| n.1.map(|ty| (n.0, ty))).collect();
        let body = vec![let_("v", call("void", vec![])), last];
        contract(vec![], vec![], vec![function("void", vec![], None, vec![]), function("main", params, ret, body)])
    };
    let pairs = names.iter().zip(names.iter().cycle().skip(1));
    pairs
        .flat_map(|((x, ret, expected), (y, _, got))| {
            let says = |what| format!("Type mismatch in {what}: expected {expected}, got {got}");
            [bad(of(None, assign(x, id(y))), says("assign")), bad(of(*ret, Stmt::Return(Some(id(y)))), says("return"))]
        })
        .collect()
}

// The longest text of each number of the analysis; 19 and 20 are below.
fn analysed() -> Vec<Case> {
    let of = |last: Stmt, text: String| {
        let main = function("main", vec![("p", LONG), ("q", OTHER)], Some(OTHER), vec![last]);
        bad(contract(vec![], vec![structure(LONG, vec![(LONG, "u64")])], vec![main]), text)
    };
    let differ = |what, x, y| format!("Type mismatch in {what}: expected Struct(\"{x}\"), got Struct(\"{y}\")");
    vec![
        of(constrain(id(LONG)), format!("Undefined identifier: {LONG}")),
        of(assign(LONG, int(1)), format!("Undefined variable: {LONG}")),
        of(assign("p", id("q")), differ("assign", LONG, OTHER)),
        of(Stmt::Return(Some(id("p"))), differ("return", OTHER, LONG)),
        of(does(access(id("p"), OTHER)), format!("Struct {LONG} has no field {OTHER}")),
        of(does(literal(LONG, vec![(LONG, id("p"))])), format!("Field {LONG} type mismatch")),
        of(does(literal(LONG, vec![(OTHER, int(1))])), format!("Unknown field {OTHER}")),
        of(does(literal(OTHER, vec![])), format!("Undefined struct: {OTHER}")),
        of(does(call(LONG, vec![])), format!("Undefined function: {LONG}")),
    ]
}

// The longest text of each number of the generation that has a name.
fn generated() -> Vec<Case> {
    let of = |last, text| Case { contract: main_of(vec![last]), text: format!("CodegenError: {text}: {LONG}") };
    let in_else = |last| if_(int(1), vec![let_(LONG, int(1))], Some(vec![last]));
    vec![
        of(in_else(constrain(id(LONG))), "Undefined variable in codegen"),
        of(in_else(assign(LONG, int(1))), "Undefined variable"),
        of(write(LONG, int(1)), "Unknown storage variable"),
        of(map_write(LONG, int(1), int(2)), "Unknown mapping variable"),
        of(does(read(LONG)), "Unknown storage variable in codegen"),
        of(does(mapping(LONG, int(1))), "Unknown mapping in codegen"),
    ]
}

// A function of so many parameters, and a main with one statement.
fn beside(params: usize, last: Stmt) -> Contract {
    let called = function(LONG, vec![("a", "u64"); params], None, vec![]);
    contract(vec![], vec![], vec![called, function("main", vec![("b", "bool")], None, vec![last])])
}

// 19, with numbers around one digit more and at their bounds.
fn counts() -> Vec<Case> {
    let of = |name: &str, params, args| {
        let c = beside(params, does(call(name, vec![int(1); args])));
        bad(c, format!("Function {name} expects {params} args, got {args}"))
    };
    let own = [(0, 1), (9, 10), (10, 9), (12, 0), (99, 64), (100, 63), (512, 64)];
    own.into_iter().map(|(params, args)| of(LONG, params, args)).chain([of("verify_merkle_proof", 3, 10)]).collect()
}

// 20, the argument's number around one digit more and at its bound.
fn arguments() -> Vec<Case> {
    let of = |wrong: usize| {
        let args = [vec![int(1); wrong], vec![id("b")]].concat();
        bad(beside(wrong + 1, does(call(LONG, args))), format!("Arg {wrong} type mismatch in {LONG}"))
    };
    [0, 9, 10, 63].into_iter().map(of).collect()
}

impl Case {
    pub fn image(&self) -> Vec<u8> {
        encode(&self.contract)
    }

    /// Whether the model gives the text.
    pub fn holds(&self) -> Result<(), String> {
        let said = program(&self.image()).err().map(|r| r.text);
        if said.as_ref() == Some(&self.text) {
            Ok(())
        } else {
            Err(format!("\"{}\": the model says {said:?}", self.text))
        }
    }
}
