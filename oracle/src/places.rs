// The place of an error, held against the Rust: cut just before the record it accepts, with the record it says the same.
use crate::codegen::Codegen;
use crate::compare::told;
use crate::image::*;
use crate::model::Refusal;
use crate::node::Node;
use crate::sema::SemanticAnalyzer;

/// The kinds of record that may be the place of a number.
fn kinds(number: u32) -> &'static [u16] {
    match number {
        10 | 42 => &[IDENT],
        11 | 12 | 43 => &[ASSIGN],
        13 => &[RETURN],
        14 | 15 => &[FIELD_ACCESS],
        16 | 17 => &[INIT],
        18 => &[STRUCT_LITERAL],
        19 | 21 => &[CALL],
        20 => &[INT, IDENT, STORAGE_READ, MAPPING_READ, FIELD_ACCESS, STRUCT_LITERAL, BINARY, CALL],
        22 => &[BINARY],
        41 => &[FUNCTION, MAPPING_WRITE, FOR, RETURN, INT, STORAGE_READ, MAPPING_READ, FIELD_ACCESS, STRUCT_LITERAL, BINARY, CALL],
        44 => &[STORAGE_WRITE],
        45 => &[MAPPING_WRITE],
        46 => &[STORAGE_READ],
        47 => &[MAPPING_READ],
        _ => &[],
    }
}

/// Whether a refusal of 10 to 47 stands at the record where the Rust first errs.
pub fn stands(img: &[u8], r: &Refusal) -> Result<(), String> {
    if r.number == 40 {
        return if r.place == 0 { Ok(()) } else { Err("40 is not at 0".into()) };
    }
    let top = Node::read(img, rec_at(img, 0));
    let here = top.find(r.place).ok_or("no record stands at the place")?;
    if !kinds(r.number).contains(&here.kind) {
        return Err(format!("{} at a record of kind {}", r.number, here.kind));
    }
    if here.kind == FUNCTION {
        return Ok(());
    }
    let with = |list: Vec<Node>| text(&cut(&top, r, list), r.number);
    let stmt = innermost(&top, r);
    let before = with(vec![])?;
    let spared = |t: &str| t.is_empty() || (r.number >= 40 && t == "RegisterExhausted");
    if !spared(&before) {
        return Err(format!("the Rust errs before the statement: {before}"));
    }
    if with(vec![stmt.clone()])? != r.text {
        return Err("the Rust does not err at the statement".into());
    }
    if r.number == 41 || here.is_stmt() {
        return Ok(());
    }
    in_statement(stmt, here, r, &with, &spared)
}

// What stands in the statement before the expression, and the expression with what its error needs around it.
fn split(stmt: &Node, here: &Node, r: &Refusal) -> Result<(Vec<Node>, Node), String> {
    let mut earlier = Vec::new();
    former(stmt, r.place, &mut earlier);
    let mut last = here.clone();
    match r.number {
        16 | 17 => {
            last = parent(stmt, r.place, STRUCT_LITERAL);
            last.parts[1].parts.retain(|i| i.at <= r.place);
            let mut less = last.clone();
            less.parts[1].parts.pop();
            earlier.push(less);
            earlier.push(here.parts[1].clone());
        }
        20 => {
            last = parent(stmt, r.place, CALL);
            let index = last.parts[1].parts.iter().position(|a| a.at == r.place);
            let told = index.map(|i| format!("Arg {i} "));
            if !told.is_some_and(|t| r.text.contains(&t)) {
                return Err("the argument's number is another".into());
            }
            earlier.extend(last.parts[1].parts.iter().cloned());
        }
        18 | 47 => {}
        _ => inner(here, &mut earlier),
    }
    Ok((earlier, last))
}

// What stands in the statement before the expression passes; with the expression the Rust errs.
fn in_statement(
    stmt: &Node,
    here: &Node,
    r: &Refusal,
    with: &dyn Fn(Vec<Node>) -> Result<String, String>,
    spared: &dyn Fn(&str) -> bool,
) -> Result<(), String> {
    let (earlier, last) = split(stmt, here, r)?;
    let mut list: Vec<Node> = earlier.into_iter().map(does).collect();
    let before = with(list.clone())?;
    if !spared(&before) {
        return Err(format!("the Rust errs before the expression: {before}"));
    }
    list.push(does(last));
    if with(list)? == r.text {
        Ok(())
    } else {
        Err("the Rust does not err at the expression".into())
    }
}

// An expression as a statement.
fn does(e: Node) -> Node {
    Node { at: e.at, end: e.end, kind: EXPR, bytes: vec![], parts: vec![e] }
}

fn parent(n: &Node, place: usize, kind: u16) -> Node {
    let next = n.parts.iter().find(|p| p.holds(place)).expect("the way to the place");
    let mine = n.kind == kind && n.parts[1].parts.iter().any(|p| p.at == place);
    if mine {
        n.clone()
    } else {
        parent(next, place, kind)
    }
}

// The largest expressions that end before a place.
fn former(n: &Node, place: usize, out: &mut Vec<Node>) {
    for p in &n.parts {
        match (p.end <= place, p.is_expr()) {
            (true, true) => out.push(p.clone()),
            (true, false) => inner(p, out),
            (false, _) if p.at < place => former(p, place, out),
            _ => {}
        }
    }
}

// The largest expressions inside a record.
fn inner(n: &Node, out: &mut Vec<Node>) {
    for p in &n.parts {
        if p.is_expr() {
            out.push(p.clone())
        } else {
            inner(p, out)
        }
    }
}

// The statement lists of a statement, in the order of the analysis or of the generation.
fn bodies(s: &Node, number: u32) -> Vec<usize> {
    match s.kind {
        IF if number < 40 => vec![1, 2],
        IF => vec![2, 1],
        WHILE => vec![1],
        FOR => vec![3],
        _ => vec![],
    }
}

fn body_with(s: &Node, r: &Refusal) -> Option<usize> {
    bodies(s, r.number).into_iter().find(|&b| s.parts.get(b).is_some_and(|l| l.holds(r.place)))
}

fn innermost<'n>(n: &'n Node, r: &Refusal) -> &'n Node {
    let next = n.parts.iter().find(|p| p.holds(r.place));
    match next {
        Some(p) if !n.is_stmt() || body_with(n, r).is_some() => innermost(p, r),
        _ => n,
    }
}

// The contract up to the innermost statement that holds the place, with other statements for it.
fn cut(top: &Node, r: &Refusal, last: Vec<Node>) -> Vec<u8> {
    let mut top = top.clone();
    let mut past = false;
    for f in &mut top.parts[3].parts {
        let body = &mut f.parts[4];
        if past {
            body.parts.clear();
        } else if body.holds(r.place) {
            past = true;
            cut_list(body, r, &last);
        }
    }
    top.image()
}

fn cut_list(list: &mut Node, r: &Refusal, last: &[Node]) {
    let at = list.parts.iter().position(|s| s.holds(r.place)).expect("a statement at the place");
    list.parts.truncate(at + 1);
    let s = &mut list.parts[at];
    let Some(b) = body_with(s, r) else {
        list.parts.truncate(at);
        return list.parts.extend_from_slice(last);
    };
    for later in bodies(s, r.number).into_iter().skip_while(|&k| k != b).skip(1) {
        s.parts.get_mut(later).into_iter().for_each(|l| l.parts.clear());
    }
    cut_list(&mut s.parts[b], r, last);
}

// What the Rust says of a cut contract, in the part of it that the number comes from.
fn text(img: &[u8], number: u32) -> Result<String, String> {
    if crate::check::check(img).is_err() {
        return Err("the cut image is not sound".into());
    }
    let tree = decode(img);
    let said = if number < 40 { SemanticAnalyzer::new().analyze(&tree) } else { Codegen::new().generate(&tree).map(|_| ()) };
    Ok(said.map_err(|e| told(&e)).err().unwrap_or_default())
}
