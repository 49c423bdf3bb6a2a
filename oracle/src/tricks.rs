// Small contracts for the rules that are easy to lose (document 01), one each.
use crate::ast::{Contract, Expr, Function, Stmt, Struct};
use crate::image::{encode, op_of};
use crate::tree::*;

fn s() -> Vec<Struct> {
    vec![structure("S", vec![("f", "u64"), ("g", "bool"), ("h", "S")])]
}

fn with(structs: Vec<Struct>, body: Vec<Stmt>) -> Contract {
    contract(vec![field("s", "u64"), field("t", "u64")], structs, vec![function("main", vec![], None, body)])
}

fn given(params: Vec<(&str, &str)>, structs: Vec<Struct>, body: Vec<Stmt>) -> Contract {
    contract(vec![field("s", "u64")], structs, vec![function("main", params, None, body)])
}

fn beside(others: Vec<Function>, body: Vec<Stmt>) -> Contract {
    let mut c = with(s(), body);
    c.functions.splice(0..0, others);
    c
}

fn empty(x: &str, params: Vec<(&str, &str)>, ret: Option<&str>) -> Function {
    function(x, params, ret, vec![])
}

fn lit(x: &str) -> Expr {
    literal(x, vec![])
}

fn none() -> Expr {
    id("none")
}

/// Images of all of them.
pub fn all() -> Vec<Vec<u8>> {
    let sets = [structs(), names(), scopes(), order(), functions(), registers(), numbers(), arms(), undecided()];
    sets.concat().iter().map(encode).collect()
}

fn structs() -> Vec<Contract> {
    let twice = || vec![structure("A", vec![("x", "u64"), ("y", "u64")]), structure("A", vec![("y", "bool")])];
    let fields = || vec![structure("A", vec![("x", "u64"), ("f", "u64"), ("f", "bool")])];
    let of = |e| given(vec![("p", "A"), ("b", "bool"), ("o", "Open"), ("u", "u64")], twice(), vec![constrain(e)]);
    let fl = |e| given(vec![("p", "A"), ("b", "bool")], fields(), vec![constrain(e)]);
    vec![
        of(access(id("p"), "y")),
        of(access(id("p"), "x")),
        of(add(access(id("p"), "y"), id("b"))),
        of(add(access(id("p"), "y"), int(1))),
        of(literal("A", vec![("x", int(1))])),
        fl(add(access(id("p"), "f"), id("b"))),
        fl(add(access(id("p"), "f"), int(1))),
        fl(literal("A", vec![("f", id("b"))])),
        fl(literal("A", vec![("f", int(1))])),
        of(access(access(access(id("o"), "a"), "b"), "y")),
        of(add(access(id("o"), "z"), lit("A"))),
        of(literal("A", vec![("y", access(id("o"), "z"))])),
        of(literal("A", vec![("y", id("b")), ("y", id("b"))])),
        of(call("poseidon", vec![access(id("o"), "z"), int(1)])),
        of(access(id("u"), "y")),
        with(vec![structure("u64", vec![("f", "u64")])], vec![constrain(access(lit("u64"), "f"))]),
        given(vec![("p", "u64")], vec![structure("u64", vec![("f", "u64")])], vec![constrain(access(id("p"), "f"))]),
        with(s(), vec![does(add(lit("u64"), int(1)))]),
        with(s(), vec![does(literal("S", vec![("h", lit("S")), ("f", int(1)), ("h", lit("S"))]))]),
        with(s(), vec![does(literal("S", vec![("none", none())]))]),
        with(s(), vec![does(literal("None", vec![("none", none())]))]),
    ]
}

fn names() -> Vec<Contract> {
    let storage =
        |body| contract(vec![field("s", "u64"), field("t", "u64"), field("s", "u64")], vec![], vec![function("main", vec![], None, body)]);
    vec![
        storage(vec![does(read("s"))]),
        storage(vec![write("s", int(1)), map_write("s", int(1), int(2)), does(mapping("s", int(1)))]),
        given(vec![("p", "u64"), ("q", "u64"), ("p", "bool")], vec![], vec![constrain(id("p"))]),
        given(vec![("p", "u64"), ("p", "bool")], vec![], vec![constrain(add(id("p"), int(1)))]),
        given(vec![("p", "u64")], vec![], vec![let_("p", int(2)), constrain(id("p"))]),
        given(vec![("p", "u64")], s(), vec![let_("p", lit("S")), constrain(access(id("p"), "f"))]),
        given(vec![("a", "u64"), ("b", "u64")], vec![], vec![let_("c", id("a")), assign("c", int(5)), constrain(id("a"))]),
    ]
}

fn scopes() -> Vec<Contract> {
    let y = || vec![let_("y", int(1))];
    vec![
        with(s(), vec![if_(int(1), y(), None), constrain(id("y"))]),
        with(s(), vec![if_(int(1), vec![], Some(y())), constrain(id("y"))]),
        with(s(), vec![while_(int(1), y()), constrain(id("y"))]),
        with(s(), vec![for_("i", int(0), int(1), y()), constrain(id("y"))]),
        with(s(), vec![for_("i", int(0), int(1), y()), constrain(id("i"))]),
        with(s(), vec![let_("i", lit("S")), for_("i", int(0), int(1), vec![constrain(id("i"))]), constrain(access(id("i"), "f"))]),
        with(s(), vec![let_("y", lit("S")), for_("i", int(0), int(1), y()), constrain(access(id("y"), "f"))]),
        with(s(), vec![let_("y", int(2)), for_("i", id("y"), id("i"), vec![])]),
        with(s(), vec![for_("i", int(0), int(1), vec![if_(int(1), y(), None), assign("i", id("y"))])]),
        with(s(), vec![let_("y", lit("S")), if_(int(1), y(), Some(vec![constrain(add(id("y"), int(1)))]))]),
        with(s(), vec![let_("y", lit("S")), if_(int(1), y(), Some(vec![constrain(access(id("y"), "f"))]))]),
    ]
}

fn order() -> Vec<Contract> {
    let f = || vec![empty("f", vec![("a", "u64"), ("b", "bool")], None)];
    vec![
        with(s(), vec![does(call("nof", vec![none()]))]),
        with(s(), vec![assign("z", none())]),
        with(s(), vec![does(add(none(), id("other")))]),
        with(s(), vec![map_write("none", none(), id("other"))]),
        with(s(), vec![if_(none(), vec![assign("z", int(1))], None)]),
        with(s(), vec![if_(int(1), vec![assign("z", int(1))], Some(vec![assign("w", int(1))]))]),
        beside(f(), vec![does(call("f", vec![lit("S")]))]),
        beside(f(), vec![does(call("f", vec![lit("S"), int(1)]))]),
        beside(f(), vec![does(call("f", vec![int(1), int(1)]))]),
        beside(f(), vec![does(access(access(int(1), "a"), "b"))]),
        with(s(), vec![does(binary(add(int(1), lit("S")), op_of(4), access(int(1), "f")))]),
        with(s(), vec![does(binary(binary(lit("S"), op_of(4), lit("S")), op_of(5), int(1)))]),
        with(s(), vec![does(binary(binary(lit("S"), op_of(4), lit("S")), op_of(5), lit("S")))]),
        with(s(), vec![write("none", read("also"))]),
        with(s(), vec![map_write("none", read("also"), int(1))]),
        with(s(), vec![does(mapping("none", read("also")))]),
        with(s(), vec![if_(int(1), vec![write("none", int(1))], Some(vec![write("also", int(1))]))]),
    ]
}

fn functions() -> Vec<Contract> {
    let ret = |e| Stmt::Return(Some(e));
    vec![
        beside(vec![empty("f", vec![], Some("u64")), empty("f", vec![], Some("bool"))], vec![does(add(call("f", vec![]), int(1)))]),
        beside(vec![empty("f", vec![], Some("bool")), empty("f", vec![], Some("u64"))], vec![does(add(call("f", vec![]), int(1)))]),
        beside(vec![empty("f", vec![("a", "u64")], None), empty("f", vec![], None)], vec![does(call("f", vec![]))]),
        beside(vec![function("main", vec![], None, lets(2)), empty("f", vec![], None)], vec![does(call("main", vec![]))]),
        beside(vec![empty("msg::sender", vec![("a", "bool")], Some("bool"))], vec![does(add(call("msg::sender", vec![]), int(1)))]),
        beside(vec![empty("poseidon", vec![], None)], vec![does(call("poseidon", vec![int(1), int(2)]))]),
        beside(vec![function("verify_merkle_proof", vec![], None, vec![does(none())])], vec![]),
        beside(vec![empty("f", vec![], None)], vec![does(add(call("f", vec![]), call("f", vec![])))]),
        beside(vec![empty("f", vec![], None)], vec![ret(call("f", vec![]))]),
        beside(vec![function("f", vec![], Some("S"), vec![ret(lit("S"))])], vec![does(access(call("f", vec![]), "f"))]),
        beside(vec![function("f", vec![], Some("u64"), vec![Stmt::Return(None)])], vec![]),
        beside(vec![function("f", vec![("p", "Open")], Some("u64"), vec![ret(access(id("p"), "x"))])], vec![]),
        beside(vec![empty("f", vec![("a", "u64")], Some("u64"))], vec![let_("x", int(1)), does(call("f", vec![call("f", vec![id("x")])]))]),
        with(
            s(),
            vec![
                does(call("verify_merkle_proof", vec![int(1), int(2), int(3)])),
                does(call("msg::nonce", vec![])),
                does(call("block::number", vec![])),
            ],
        ),
        with(s(), vec![let_("x", int(1)), does(call("poseidon", vec![id("x"), id("x")])), does(call("poseidon", vec![id("x"), int(1)]))]),
        given(vec![("a", "u64"), ("b", "bool"), ("c", "u64")], vec![], vec![]),
        contract(vec![], vec![], vec![]),
        contract(vec![], vec![], vec![function("f", vec![], None, vec![write("none", int(1))])]),
    ]
}

fn registers() -> Vec<Contract> {
    let ints = |n| (0..n).map(int).collect::<Vec<_>>();
    let logs = |n, e: Expr| with(s(), vec![emit("e", [ints(n), vec![e]].concat())]);
    let asks = [
        int(1 << 40),
        read("none"),
        mapping("none", int(1)),
        mapping("s", int(1)),
        access(lit("S"), "f"),
        lit("S"),
        call("msg::sender", vec![]),
        call("main", vec![]),
    ];
    let mut out: Vec<Contract> = asks.iter().flat_map(|e| [26, 27, 28, 29].map(|n| logs(n, e.clone()))).collect();
    for n in [25, 26, 27] {
        let taken = lets(n);
        out.push(with(s(), [taken.clone(), vec![for_("i", id("x0"), id("x0"), vec![])]].concat()));
        out.push(with(s(), [taken.clone(), vec![Stmt::Return(None)]].concat()));
        out.push(with(s(), [taken.clone(), vec![map_write("s", id("x0"), id("x1"))]].concat()));
        out.push(with(s(), [taken, vec![if_(id("x0"), lets(1), None)]].concat()));
    }
    for n in [26, 27, 28] {
        let mut c = with(s(), vec![]);
        c.functions[0].params = (0..n).map(|i| crate::ast::Param { name: format!("p{i}"), ty: "u64".into() }).collect();
        out.push(c);
    }
    out
}

fn numbers() -> Vec<Contract> {
    let low = (1 << 30) - 1;
    let values = [
        0,
        1,
        low,
        low + 1,
        (1 << 31) - 1,
        1 << 31,
        1 << 32,
        (1 << 60) - 1,
        1 << 60,
        (1 << 60) + 1,
        (1 << 60) + (1 << 30),
        1 << 63,
        low << 30,
        u64::MAX,
    ];
    values.iter().map(|v| main_of(vec![let_("x", int(*v)), constrain(add(id("x"), int(*v)))])).collect()
}

fn arms() -> Vec<Contract> {
    let x = |v| vec![let_("x", int(v))];
    vec![
        main_of(vec![if_(int(1), x(1), Some(x(2))), constrain(id("x"))]),
        main_of(vec![let_("x", int(0)), if_(int(1), x(1), Some(x(2))), let_("y", id("x"))]),
        main_of(vec![if_(int(1), vec![], Some(vec![])), while_(int(1), vec![if_(int(2), x(1), None)]), let_("z", int(3))]),
        main_of(vec![for_("i", int(0), int(3), vec![for_("j", id("i"), int(4), x(5))]), let_("z", int(3))]),
        main_of(vec![Stmt::Return(None), Stmt::Return(None), emit("e", vec![])]),
        main_of(vec![let_("a", int(1)), let_("b", id("a")), let_("c", add(id("a"), id("b"))), assign("b", add(int(1), id("c")))]),
    ]
}

fn undecided() -> Vec<Contract> {
    let two = || vec![structure("A", vec![("x", "u64"), ("y", "u64")]), structure("B", vec![("y", "u64")])];
    let p = |e| given(vec![("p", "A"), ("o", "Open")], two(), vec![constrain(e)]);
    let mut unnamed = p(access(id("p"), "y"));
    unnamed.functions[0].name = "f".into();
    let mut uncalled = p(access(id("p"), "x"));
    uncalled.functions.push(function("f", vec![("p", "A")], None, vec![constrain(access(id("p"), "y"))]));
    let full = given(vec![("p", "A")], two(), [lets(28), vec![constrain(access(id("p"), "y"))]].concat());
    let again = [two(), vec![structure("A", vec![("y", "u64")])]].concat();
    let parted = [two(), vec![structure("B", vec![("z", "u64"), ("y", "u64")])]].concat();
    vec![
        p(access(id("p"), "x")),
        p(access(id("o"), "y")),
        p(access(access(id("o"), "y"), "y")),
        p(access(access(id("o"), "y"), "x")),
        p(add(access(access(id("o"), "x"), "x"), access(id("p"), "y"))),
        p(add(access(id("p"), "y"), none())),
        unnamed,
        uncalled,
        full,
        given(vec![("p", "A")], again, vec![constrain(access(id("p"), "y"))]),
        given(vec![("p", "A")], parted, vec![constrain(access(id("p"), "y"))]),
    ]
}
