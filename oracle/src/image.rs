// The contract image of document 01: records, a reader into the Rust's own tree, a writer.
use crate::ast::{BinOp, Contract, Expr, Function, Param, Stmt, StorageField, Struct};

pub const NAME: u16 = 1;
pub const LIST: u16 = 2;
pub const FLAG: u16 = 3;
pub const OP: u16 = 4;
pub const CONTRACT: u16 = 16;
pub const FIELD: u16 = 17;
pub const STRUCT: u16 = 18;
pub const FUNCTION: u16 = 19;
pub const INIT: u16 = 20;
pub const LET: u16 = 32;
pub const CONSTRAIN: u16 = 33;
pub const ASSIGN: u16 = 34;
pub const STORAGE_WRITE: u16 = 35;
pub const MAPPING_WRITE: u16 = 36;
pub const IF: u16 = 37;
pub const WHILE: u16 = 38;
pub const FOR: u16 = 39;
pub const RETURN: u16 = 40;
pub const EMIT: u16 = 41;
pub const EXPR: u16 = 42;
pub const INT: u16 = 64;
pub const IDENT: u16 = 65;
pub const STORAGE_READ: u16 = 66;
pub const MAPPING_READ: u16 = 67;
pub const FIELD_ACCESS: u16 = 68;
pub const STRUCT_LITERAL: u16 = 69;
pub const BINARY: u16 = 70;
pub const CALL: u16 = 71;

/// Records whose payload is bytes, not records.
pub fn is_leaf(kind: u16) -> bool {
    matches!(kind, NAME | FLAG | OP | INT)
}

/// A record of a sound image: where it starts, its kind, its payload.
#[derive(Clone, Copy)]
pub struct Rec {
    pub at: usize,
    pub kind: u16,
    pub body: usize,
    pub end: usize,
}

pub fn u32_at(img: &[u8], at: usize) -> u32 {
    u32::from_le_bytes(img[at..at + 4].try_into().unwrap())
}

pub fn u16_at(img: &[u8], at: usize) -> u16 {
    u16::from_le_bytes(img[at..at + 2].try_into().unwrap())
}

pub fn rec_at(img: &[u8], at: usize) -> Rec {
    Rec { at, kind: u16_at(img, at + 4), body: at + 6, end: at + 4 + u32_at(img, at) as usize }
}

/// The records that stand one behind the other in a record's payload.
pub struct Parts<'a> {
    img: &'a [u8],
    at: usize,
    end: usize,
}

impl Iterator for Parts<'_> {
    type Item = Rec;
    fn next(&mut self) -> Option<Rec> {
        if self.at >= self.end {
            return None;
        }
        let rec = rec_at(self.img, self.at);
        self.at = rec.end;
        Some(rec)
    }
}

impl Rec {
    pub fn parts<'a>(&self, img: &'a [u8]) -> Parts<'a> {
        Parts { img, at: self.body, end: self.end }
    }
    pub fn bytes<'a>(&self, img: &'a [u8]) -> &'a [u8] {
        &img[self.body..self.end]
    }
    pub fn part(&self, img: &[u8], n: usize) -> Rec {
        self.parts(img).nth(n).expect("a part of a sound record")
    }
}

/// Reads a sound image into the Rust's own tree.
pub fn decode(img: &[u8]) -> Contract {
    let mut parts = rec_at(img, 0).parts(img);
    let mut next = || parts.next().expect("a part");
    Contract {
        name: name(img, next()),
        storage: list(img, next(), field),
        structs: list(img, next(), structure),
        functions: list(img, next(), function),
    }
}

fn name(img: &[u8], r: Rec) -> String {
    std::str::from_utf8(r.bytes(img)).expect("a sound name").to_string()
}

fn list<T>(img: &[u8], r: Rec, each: fn(&[u8], Rec) -> T) -> Vec<T> {
    r.parts(img).map(|p| each(img, p)).collect()
}

fn field(img: &[u8], r: Rec) -> StorageField {
    let mut p = r.parts(img);
    StorageField { name: name(img, p.next().unwrap()), ty: name(img, p.next().unwrap()) }
}

fn param(img: &[u8], r: Rec) -> Param {
    let f = field(img, r);
    Param { name: f.name, ty: f.ty }
}

fn structure(img: &[u8], r: Rec) -> Struct {
    let mut p = r.parts(img);
    Struct { name: name(img, p.next().unwrap()), fields: list(img, p.next().unwrap(), field) }
}

fn function(img: &[u8], r: Rec) -> Function {
    let mut p = r.parts(img);
    let mut next = || p.next().expect("a part");
    let (called, params) = (name(img, next()), list(img, next(), param));
    let return_type = next().parts(img).next().map(|t| name(img, t));
    let is_pub = next().bytes(img)[0] == 1;
    Function { name: called, params, return_type, body: list(img, next(), stmt), is_pub }
}

fn stmt(img: &[u8], r: Rec) -> Stmt {
    let mut p = r.parts(img);
    let mut next = || p.next().expect("a part");
    match r.kind {
        LET => Stmt::Let(name(img, next()), expr(img, next())),
        CONSTRAIN => Stmt::Constrain(expr(img, next())),
        ASSIGN => Stmt::Assign(name(img, next()), expr(img, next())),
        STORAGE_WRITE => Stmt::StorageWrite(name(img, next()), expr(img, next())),
        MAPPING_WRITE => Stmt::MappingWrite(name(img, next()), expr(img, next()), expr(img, next())),
        IF => {
            let (cond, then) = (expr(img, next()), list(img, next(), stmt));
            Stmt::If(cond, then, p.next().map(|e| list(img, e, stmt)))
        }
        WHILE => Stmt::While(expr(img, next()), list(img, next(), stmt)),
        FOR => Stmt::For { var: name(img, next()), start: expr(img, next()), end: expr(img, next()), body: list(img, next(), stmt) },
        RETURN => Stmt::Return(p.next().map(|e| expr(img, e))),
        EMIT => Stmt::Emit(name(img, next()), list(img, next(), expr)),
        EXPR => Stmt::Expr(expr(img, next())),
        k => panic!("statement of kind {k} in a sound image"),
    }
}

fn init(img: &[u8], r: Rec) -> (String, Expr) {
    let mut p = r.parts(img);
    (name(img, p.next().unwrap()), expr(img, p.next().unwrap()))
}

fn expr(img: &[u8], r: Rec) -> Expr {
    let mut p = r.parts(img);
    let mut next = || p.next().expect("a part");
    match r.kind {
        INT => Expr::Int(u64::from_le_bytes(r.bytes(img).try_into().unwrap())),
        IDENT => Expr::Ident(name(img, next())),
        STORAGE_READ => Expr::StorageRead(name(img, next())),
        MAPPING_READ => Expr::MappingRead(name(img, next()), Box::new(expr(img, next()))),
        FIELD_ACCESS => Expr::FieldAccess(Box::new(expr(img, next())), name(img, next())),
        STRUCT_LITERAL => Expr::StructLiteral(name(img, next()), list(img, next(), init)),
        BINARY => {
            let left = Box::new(expr(img, next()));
            let op = op_of(next().bytes(img)[0]);
            Expr::Binary(left, op, Box::new(expr(img, next())))
        }
        CALL => Expr::Call(name(img, next()), list(img, next(), expr)),
        k => panic!("expression of kind {k} in a sound image"),
    }
}

pub fn op_of(byte: u8) -> BinOp {
    use BinOp::*;
    [Add, Sub, Mul, Div, Eq, Neq, Lt, Gt, Lte, Gte].into_iter().nth(byte as usize).expect("an operator")
}

/// Writes a tree as an image; lengths are filled in when a record ends.
pub fn encode(c: &Contract) -> Vec<u8> {
    let mut w = Writer { out: Vec::new() };
    w.rec(CONTRACT, |w| {
        w.name(&c.name);
        w.list(&c.storage, |w, f| w.field(&f.name, &f.ty));
        w.list(&c.structs, |w, s| {
            w.rec(STRUCT, |w| {
                w.name(&s.name);
                w.list(&s.fields, |w, f| w.field(&f.name, &f.ty));
            })
        });
        w.list(&c.functions, Writer::function);
    });
    w.out
}

struct Writer {
    out: Vec<u8>,
}

impl Writer {
    fn rec(&mut self, kind: u16, payload: impl FnOnce(&mut Self)) {
        let at = self.out.len();
        self.out.extend([0; 4]);
        self.out.extend(kind.to_le_bytes());
        payload(self);
        let len = (self.out.len() - at - 4) as u32;
        self.out[at..at + 4].copy_from_slice(&len.to_le_bytes());
    }
    fn bytes(&mut self, kind: u16, payload: &[u8]) {
        self.rec(kind, |w| w.out.extend(payload));
    }
    fn name(&mut self, x: &str) {
        self.bytes(NAME, x.as_bytes());
    }
    fn list<T>(&mut self, items: &[T], each: impl Fn(&mut Self, &T)) {
        self.rec(LIST, |w| items.iter().for_each(|i| each(w, i)));
    }
    fn field(&mut self, x: &str, ty: &str) {
        self.rec(FIELD, |w| {
            w.name(x);
            w.name(ty);
        });
    }
    fn function(&mut self, f: &Function) {
        self.rec(FUNCTION, |w| {
            w.name(&f.name);
            w.list(&f.params, |w, p| w.field(&p.name, &p.ty));
            w.list(f.return_type.as_slice(), |w, t| w.name(t));
            w.bytes(FLAG, &[f.is_pub as u8]);
            w.list(&f.body, Writer::stmt);
        });
    }
    fn stmt(&mut self, s: &Stmt) {
        match s {
            Stmt::Let(x, e) => self.rec(LET, |w| (w.name(x), w.expr(e)).1),
            Stmt::Constrain(e) => self.rec(CONSTRAIN, |w| w.expr(e)),
            Stmt::Assign(x, e) => self.rec(ASSIGN, |w| (w.name(x), w.expr(e)).1),
            Stmt::StorageWrite(x, e) => self.rec(STORAGE_WRITE, |w| (w.name(x), w.expr(e)).1),
            Stmt::MappingWrite(x, k, v) => self.rec(MAPPING_WRITE, |w| (w.name(x), w.expr(k), w.expr(v)).2),
            Stmt::If(c, t, e) => self.rec(IF, |w| {
                w.expr(c);
                w.list(t, Writer::stmt);
                e.iter().for_each(|e| w.list(e, Writer::stmt));
            }),
            Stmt::While(c, b) => self.rec(WHILE, |w| (w.expr(c), w.list(b, Writer::stmt)).1),
            Stmt::For { var, start, end, body } => self.rec(FOR, |w| {
                w.name(var);
                w.expr(start);
                w.expr(end);
                w.list(body, Writer::stmt);
            }),
            Stmt::Return(e) => self.rec(RETURN, |w| e.iter().for_each(|e| w.expr(e))),
            Stmt::Emit(x, a) => self.rec(EMIT, |w| (w.name(x), w.list(a, Writer::expr)).1),
            Stmt::Expr(e) => self.rec(EXPR, |w| w.expr(e)),
        }
    }
    fn expr(&mut self, e: &Expr) {
        match e {
            Expr::Int(v) => self.bytes(INT, &v.to_le_bytes()),
            Expr::Ident(x) => self.rec(IDENT, |w| w.name(x)),
            Expr::StorageRead(x) => self.rec(STORAGE_READ, |w| w.name(x)),
            Expr::MappingRead(x, k) => self.rec(MAPPING_READ, |w| (w.name(x), w.expr(k)).1),
            Expr::FieldAccess(b, x) => self.rec(FIELD_ACCESS, |w| (w.expr(b), w.name(x)).1),
            Expr::StructLiteral(x, inits) => self.rec(STRUCT_LITERAL, |w| {
                w.name(x);
                w.list(inits, |w, (f, v)| w.rec(INIT, |w| (w.name(f), w.expr(v)).1));
            }),
            Expr::Binary(l, op, r) => self.rec(BINARY, |w| (w.expr(l), w.bytes(OP, &[op.clone() as u8]), w.expr(r)).2),
            Expr::Call(x, a) => self.rec(CALL, |w| (w.name(x), w.list(a, Writer::expr)).1),
        }
    }
}
