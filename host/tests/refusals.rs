//! A failure says what is wrong, once, in the Rust's own text where it has one.
mod common;

use common::ast::{Contract, Stmt};
use common::{listed, sample, told, tree::*};
use haspnettle::{analyse, analyse_contract, build, build_image, build_into, image, text, why, Failure, Refusal};
use std::error::Error;

fn refused(contract: &Contract) -> Refusal {
    match build(contract) {
        Err(Failure::Refused(r)) => r,
        other => panic!("{other:?}"),
    }
}

#[test]
fn no_main_is_refused() {
    let none = contract(vec![], vec![], vec![]);
    assert_eq!(told(refused(&none)), (40, 0, 0));
    assert_eq!(build(&none).unwrap_err().to_string(), "CodegenError: main function not found");
    assert_eq!(analyse_contract(&none), Ok(()));
}

#[test]
fn analysis_refuses_alike() {
    let lost = main_of(vec![constrain(id("x"))]);
    assert_eq!(told(refused(&lost)), (10, 78, 0));
    assert_eq!(analyse_contract(&lost), Err(refused(&lost).into()));
}

// By its name alone y is ambiguous. The base's struct decides; where that is not declared the build refuses, at the access.
#[test]
fn an_ambiguous_field_is_refused() {
    let of = |ty| {
        let structs = vec![structure("A", vec![("x", "u64"), ("y", "u64")]), structure("B", vec![("y", "u64")])];
        contract(vec![], structs, vec![function("main", vec![("p", ty)], None, vec![constrain(access(id("p"), "y"))])])
    };
    let refusal = refused(&of("Open"));
    assert_eq!((told(refusal), refusal.text()), ((30, 205, 0), None));
    assert_eq!(refusal.to_string(), "ambiguous field (30), at byte 205");
    assert_eq!(analyse_contract(&of("Open")), Ok(()));
    assert_eq!(build(&of("A")), Ok(listed("c11").unwrap()));
}

#[test]
fn a_failure_is_told_once() {
    let refused = build(&contract(vec![], vec![], vec![])).unwrap_err();
    let unwritable = build(&main_of(vec![let_("a-b", int(1))])).unwrap_err();
    assert_eq!(unwritable.to_string(), "\"a-b\" is no name: 1 to 64 bytes of A-Z a-z 0-9 _ :");
    assert!(refused.source().is_none() && unwritable.source().is_none());
    assert!(matches!(analyse_contract(&main_of(vec![let_("", int(1))])), Err(Failure::Unwritable(_))));
}

// `main` has a u64 `n`, a bool `b` and a Mask `p`; the struct Mask has a u64 `x`, and `g` returns nothing.
fn of(body: Vec<Stmt>) -> Contract {
    let main = function("main", vec![("n", "u64"), ("b", "bool"), ("p", "Mask")], Some("bool"), body);
    contract(vec![], vec![structure("Mask", vec![("x", "u64")])], vec![main, function("g", vec![], None, vec![])])
}

// A contract for each refusal that has a text.
fn texts() -> Vec<(u8, Contract, &'static str)> {
    let one = |s: Stmt| of(vec![s]);
    let mask = |x, e| does(literal("Mask", vec![(x, e)]));
    // Analysis goes through `then` first, generation through `else`.
    let parted = |s: Stmt| one(if_(int(1), vec![let_("x", int(1))], Some(vec![s])));
    vec![
        (10, one(constrain(id("x"))), "SemanticError: Undefined identifier: x"),
        (11, one(assign("x", int(1))), "SemanticError: Undefined variable: x"),
        (12, one(assign("p", call("g", vec![]))), "SemanticError: Type mismatch in assign: expected Struct(\"Mask\"), got Void"),
        (13, one(Stmt::Return(Some(id("n")))), "SemanticError: Type mismatch in return: expected Bool, got U64"),
        (14, one(does(access(id("p"), "y"))), "SemanticError: Struct Mask has no field y"),
        (15, one(does(access(id("n"), "y"))), "SemanticError: Field access on non-struct"),
        (16, one(mask("x", id("b"))), "SemanticError: Field x type mismatch"),
        (17, one(mask("y", id("n"))), "SemanticError: Unknown field y"),
        (18, one(does(literal("S", vec![]))), "SemanticError: Undefined struct: S"),
        (19, one(does(call("poseidon", vec![id("n")]))), "SemanticError: Function poseidon expects 2 args, got 1"),
        (20, one(does(call("poseidon", vec![id("n"), id("b")]))), "SemanticError: Arg 1 type mismatch in poseidon"),
        (21, one(does(call("f", vec![]))), "SemanticError: Undefined function: f"),
        (22, one(does(add(id("n"), id("b")))), "SemanticError: Type mismatch in binary expression"),
        (40, contract(vec![], vec![], vec![]), "CodegenError: main function not found"),
        (41, of(lets(30)), "RegisterExhausted"),
        (42, parted(constrain(id("x"))), "CodegenError: Undefined variable in codegen: x"),
        (43, parted(assign("x", int(1))), "CodegenError: Undefined variable: x"),
        (44, one(write("s", int(1))), "CodegenError: Unknown storage variable: s"),
        (45, one(map_write("m", int(1), int(1))), "CodegenError: Unknown mapping variable: m"),
        (46, one(does(read("s"))), "CodegenError: Unknown storage variable in codegen: s"),
        (47, one(does(mapping("m", int(1)))), "CodegenError: Unknown mapping in codegen: m"),
    ]
}

#[test]
fn every_text_is_told_by_every_call() {
    assert!(texts().iter().map(|t| t.0).eq((10..=22).chain(40..=47)));
    for (number, contract, says) in texts() {
        let (img, refusal) = (image(&contract).unwrap(), refused(&contract));
        assert_eq!((refusal.number, refusal.text(), refusal.to_string()), (number, Some(says), says.to_string()));
        assert_eq!(text(&img).as_deref(), Some(says));
        assert!(format!("{refusal:?}").contains(&format!("text: Some({says:?})")));
        assert_eq!(build_image(&img), Err(refusal));
        assert_eq!(build_into(&img, &mut []), Err(refusal));
        assert_eq!(why(&img, 0), Err(refusal));
        let analysed = if number < 30 { Err(refusal) } else { Ok(()) };
        assert_eq!(analyse(&img), analysed);
        assert_eq!(analyse_contract(&contract), analysed.map_err(Failure::from));
    }
}

#[test]
fn the_longest_text_is_whole() {
    let [one, other] = ["A".repeat(64), "B".repeat(64)];
    let body = vec![assign("a", id("b"))];
    let long = contract(vec![], vec![], vec![function("main", vec![("a", &one), ("b", &other)], None, body)]);
    let says = format!("SemanticError: Type mismatch in assign: expected Struct({one:?}), got Struct({other:?})");
    assert_eq!(says.len(), 203);
    assert_eq!(refused(&long).text(), Some(&says[..]));
}

#[test]
fn the_others_have_no_text() {
    assert_eq!(text(&sample("c1.img")), None);
    let short = build_into(&sample("c1.img"), &mut [0; 79]).unwrap_err();
    assert_eq!((told(short), short.text()), ((50, 0, 10), None));
    let past = why(&sample("c1.img"), 10).unwrap_err();
    assert_eq!((told(past), past.text()), ((53, 0, 0), None));
    for img in [&[][..], &[1, 2, 3], &[0; 65_537]] {
        assert_eq!((text(img), build_image(img).unwrap_err().text()), (None, None));
    }
}
