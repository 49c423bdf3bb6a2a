// Each bound of document 01 at its edge and one over it.
use crate::ast::{Contract, Expr, Stmt};
use crate::check::{check, Fault};
use crate::edges::*;
use crate::image::{encode, op_of};
use crate::rng::Rng;
use crate::tree::*;

/// An edge: what it is, and its image.
pub type Edge = (&'static str, Vec<u8>);

/// An expression whose record is `height` records high.
pub fn high(rng: &mut Rng, height: usize) -> Expr {
    match (height, rng.below(10)) {
        (1, _) => int(1),
        (4.., 0) => literal("S", vec![("f", high(rng, height - 3))]),
        (3.., 1) => call("f", vec![high(rng, height - 2)]),
        (3.., 2) => call("poseidon", vec![high(rng, height - 2), int(7)]),
        (_, 3) => mapping("m", high(rng, height - 1)),
        (_, 4) => binary(int(2), op_of(rng.below(10) as u8), high(rng, height - 1)),
        (5.., 5) => access(literal("S", vec![("f", high(rng, height - 4))]), "f"),
        _ => binary(high(rng, height - 1), op_of(rng.below(10) as u8), int(3)),
    }
}

/// A contract whose deepest record has the depth given.
pub fn deep(rng: &mut Rng, depth: usize) -> Contract {
    let mut nest = rng.below((depth - 6) / 2);
    nest = if rng.chance(1, 2) { nest.min(4) } else { nest };
    let e = high(rng, depth - 5 - 2 * nest);
    let mut body = vec![does(e)];
    for _ in 0..nest {
        body = vec![match rng.below(4) {
            0 => if_(int(1), body, None),
            1 => if_(int(1), vec![], Some(body)),
            2 => while_(int(1), body),
            _ => if_(int(0), lets(1), Some(body)),
        }];
    }
    let f = function("f", vec![("p", "u64")], Some("u64"), vec![Stmt::Return(Some(id("p")))]);
    let all = vec![f, function("main", vec![], None, body)];
    contract(vec![field("m", "u64")], vec![structure("S", vec![("f", "u64")])], all)
}

fn pairs(out: &mut Vec<(&'static str, Contract)>, what: [&'static str; 2], most: usize, of: fn(usize) -> Contract) {
    out.push((what[0], of(most)));
    out.push((what[1], of(most + 1)));
}

/// The edges that are trees, and whose images are under 16 KB.
pub fn trees() -> Vec<(&'static str, Contract)> {
    let mut out = vec![];
    pairs(&mut out, ["storage 256", "storage 257"], 256, storage);
    pairs(&mut out, ["structs 64", "structs 65"], 64, structs);
    pairs(&mut out, ["fields 64", "fields 65"], 64, struct_fields);
    pairs(&mut out, ["functions 256", "functions 257"], 256, functions);
    pairs(&mut out, ["Inits 64", "Inits 65"], 64, inits);
    pairs(&mut out, ["arguments 64", "arguments 65"], 64, args);
    pairs(&mut out, ["Emit's 64", "Emit's 65"], 64, logged);
    pairs(&mut out, ["depth 64, left", "depth 65, left"], 64, left_deep);
    pairs(&mut out, ["depth 64, ifs", "depth 65, ifs"], 64, |d| nested_ifs(d + 1));
    pairs(&mut out, ["512 Lets", "513 Lets"], 511, |n| names(1, 0, n));
    pairs(&mut out, ["512 Fors and Lets", "513 Fors and Lets"], 412, |n| names(1, 99, n));
    pairs(&mut out, ["512 parameters", "513 parameters"], 512, |n| names(n, 0, 0));
    out.push(("a name over, Fors and Lets", names(1, 256, 256)));
    pairs(&mut out, ["a name of 64", "a name of 65"], 64, |n| Contract { name: "x".repeat(n), ..main_of(vec![]) });
    out
}

/// The trees at the bound of bytes, and of stack.
pub fn large_trees() -> Vec<(&'static str, Contract)> {
    let mut out = vec![];
    pairs(&mut out, ["65,536 bytes", "65,537 bytes"], 65_536, sized);
    out.push(("calls of 64 arguments, 28 deep", wide_calls()));
    out.push(("literals of 64 values, 19 deep", wide_literals()));
    out
}

fn encoded(trees: Vec<(&'static str, Contract)>) -> Vec<Edge> {
    trees.into_iter().map(|(what, tree)| (what, encode(&tree))).collect()
}

/// All edges whose images are under 16 KB.
pub fn small() -> Vec<Edge> {
    [vec![("no bytes", vec![])], encoded(trees()), returns()].concat()
}

/// The first record over a bound or too deep, with a wrong length, kind or first part besides.
pub fn worse() -> Vec<Edge> {
    let mut out = Vec::new();
    for (what, img) in small() {
        let Err(Fault { number: 6 | 7, place }) = check(&img) else { continue };
        for (at, byte) in [(place, 1), (place + 3, 0x80), (place + 4, 99), (place + 10, 99)] {
            let mut bad = img.clone();
            bad[at] = byte;
            bad[place + 1] &= if at == place { 0 } else { 255 };
            out.push((what, bad));
        }
    }
    out
}

// A second return type, and what else may stand in its List.
fn returns() -> Vec<Edge> {
    let img = encode(&contract(vec![], vec![], vec![function("main", vec![], Some("u64"), vec![])]));
    let second = crate::image::rec_at(&img, 0).part(&img, 3).part(&img, 0).part(&img, 2);
    let grown = |extra: &[u8]| {
        let mut out = img.clone();
        out.splice(second.end..second.end, extra.iter().copied());
        for at in
            [0, crate::image::rec_at(&img, 0).part(&img, 3).at, crate::image::rec_at(&img, 0).part(&img, 3).part(&img, 0).at, second.at]
        {
            let len = crate::image::u32_at(&img, at) + extra.len() as u32;
            out[at..at + 4].copy_from_slice(&len.to_le_bytes());
        }
        out
    };
    vec![
        ("one return type", img.clone()),
        ("a second return type", grown(&[3, 0, 0, 0, 1, 0, 66])),
        ("a second return type, of wrong bytes", grown(&[3, 0, 0, 0, 1, 0, 0])),
        ("a second return type, no Name", grown(&[2, 0, 0, 0, 2, 0])),
    ]
}

/// Every image that is looked at besides the seeds'.
pub fn all() -> Vec<Edge> {
    let mut out = [small(), worse(), large()].concat();
    out.extend(crate::tricks::all().into_iter().map(|img| ("a rule that is easy to lose", img)));
    out.extend(crate::meant::all().iter().map(|c| (c.what, c.image())));
    out.extend(crate::texts::all().iter().map(|c| ("a text", c.image())));
    let every = encode(&crate::every::every());
    out.extend(crate::damage::every(&every).into_iter().map(|img| ("the contract of all constructs, changed", img)));
    out.push(("the contract of all constructs", every));
    out
}

/// Images at the bound of bytes, and of stack.
pub fn large() -> Vec<Edge> {
    let mut out = encoded(large_trees());
    let mut cut = out[1].1.clone();
    cut.pop();
    out.insert(2, ("65,537 bytes cut by one", cut));
    out
}
