// The image check a second time, slowly, from a table: rows 1 to 7 have no judge in the Rust.
use crate::check::Fault;
use crate::image::*;

/// What may be due at a place: a class of records, and for Lists what they hold.
#[derive(Clone, Copy, PartialEq)]
enum Due {
    One(u16),
    Param,
    Statement,
    Expression,
    List(&'static (Due, u32)),
    Maybe(&'static Due),
}
use Due::*;

const NAMED: Due = One(NAME);
const ALL: u32 = u32::MAX;
const STATEMENTS: Due = List(&(Statement, ALL));

// The parts of each kind, in order.
fn parts(kind: u16) -> &'static [Due] {
    match kind {
        CONTRACT => &[NAMED, List(&(One(FIELD), 256)), List(&(One(STRUCT), 64)), List(&(One(FUNCTION), 256))],
        FIELD => &[NAMED, NAMED],
        STRUCT => &[NAMED, List(&(One(FIELD), 64))],
        FUNCTION => &[NAMED, List(&(Param, ALL)), List(&(NAMED, 1)), One(FLAG), STATEMENTS],
        INIT => &[NAMED, Expression],
        LET | ASSIGN | STORAGE_WRITE => &[NAMED, Expression],
        CONSTRAIN | EXPR => &[Expression],
        MAPPING_WRITE => &[NAMED, Expression, Expression],
        IF => &[Expression, STATEMENTS, Maybe(&STATEMENTS)],
        WHILE => &[Expression, STATEMENTS],
        FOR => &[NAMED, Expression, Expression, STATEMENTS],
        RETURN => &[Maybe(&Expression)],
        EMIT => &[NAMED, List(&(Expression, ALL))],
        IDENT | STORAGE_READ => &[NAMED],
        MAPPING_READ => &[NAMED, Expression],
        FIELD_ACCESS => &[Expression, NAMED],
        STRUCT_LITERAL => &[NAMED, List(&(One(INIT), 64))],
        BINARY => &[Expression, One(OP), Expression],
        CALL => &[NAMED, List(&(Expression, 64))],
        _ => &[],
    }
}

fn fits(due: Due, kind: u16) -> bool {
    match due {
        One(k) => kind == k,
        Param => kind == FIELD,
        Statement => (32..=42).contains(&kind),
        Expression => (64..=71).contains(&kind),
        List(_) => kind == LIST,
        Maybe(d) => fits(*d, kind),
    }
}

fn own_bytes(kind: u16, b: &[u8]) -> bool {
    let letter = |c: &u8| matches!(c, b'A'..=b'Z' | b'a'..=b'z' | b'0'..=b'9' | b'_' | b':');
    match kind {
        NAME => (1..=64).contains(&b.len()) && b.iter().all(letter),
        FLAG => b == [0] || b == [1],
        OP => b.len() == 1 && b[0] <= 9,
        INT => b.len() == 8,
        _ => true,
    }
}

/// The first fault of an image.
pub fn check(img: &[u8]) -> Result<(), Fault> {
    if img.len() > 65_536 {
        return Err(Fault { number: 1, place: 0 });
    }
    let end = record(img, &mut 0, One(CONTRACT), (0, img.len()), 1, false)?;
    if end < img.len() {
        Err(Fault { number: 4, place: end })
    } else {
        Ok(())
    }
}

fn record(img: &[u8], names: &mut u32, due: Due, (at, parent): (usize, usize), depth: u32, over: bool) -> Result<usize, Fault> {
    let bad = |number| Err(Fault { number, place: at });
    if parent - at < 6 || u32_at(img, at) < 2 || at + 4 + u32_at(img, at) as usize > parent {
        return bad(2);
    }
    let rec = rec_at(img, at);
    if depth == 65 {
        return bad(6);
    }
    if !fits(due, rec.kind) {
        return bad(3);
    }
    if rec.kind == FUNCTION {
        *names = 0;
    }
    let names_one = due == Param || rec.kind == LET || rec.kind == FOR;
    *names += names_one as u32;
    if over || (names_one && *names > 512) {
        return bad(7);
    }
    if !own_bytes(rec.kind, rec.bytes(img)) {
        return bad(5);
    }
    if is_leaf(rec.kind) {
        return Ok(rec.end);
    }
    let left = children(img, names, due, rec, depth)?;
    if left < rec.end {
        Err(Fault { number: 4, place: left })
    } else {
        Ok(rec.end)
    }
}

fn children(img: &[u8], names: &mut u32, due: Due, rec: Rec, depth: u32) -> Result<usize, Fault> {
    let mut at = rec.body;
    let due = if let Maybe(d) = due { *d } else { due };
    if let List(&(each, most)) = due {
        let mut n = 0;
        while at < rec.end {
            at = record(img, names, each, (at, rec.end), depth + 1, n >= most)?;
            n += 1;
        }
        return Ok(at);
    }
    for part in parts(rec.kind) {
        if matches!(part, Maybe(_)) && at == rec.end {
            continue;
        }
        at = record(img, names, *part, (at, rec.end), depth + 1, false)?;
    }
    Ok(at)
}
