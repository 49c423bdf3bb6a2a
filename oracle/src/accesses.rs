// A seeded generator of contracts rich in accesses: structs that share the names of their fields, bases of every kind. Mostly well typed.
use crate::ast::{Contract, Expr, Function, Param, Stmt, StorageField, Struct};
use crate::image::{encode, op_of};
use crate::rng::Rng;
use crate::tree::*;

/// How large a contract is.
struct Size {
    structs: usize,
    fields: usize,
    functions: usize,
    stmts: usize,
    depth: usize,
}

/// The image of a seed.
pub fn image(seed: u64) -> Vec<u8> {
    let mut rng = Rng::new(seed);
    let (structs, fields) = if rng.chance(1, 30) { (20, 16) } else { (rng.within(2, 5), rng.within(1, 5)) };
    let size = Size { structs, fields, functions: rng.within(1, 3), stmts: rng.within(1, 7), depth: rng.within(1, 4) };
    encode(&contract(&mut rng, size))
}

/// The small image of a seed.
pub fn tiny_image(seed: u64) -> Vec<u8> {
    let mut rng = Rng::new(seed);
    let size = Size { structs: rng.within(2, 3), fields: 2, functions: 1, stmts: rng.within(1, 3), depth: rng.within(1, 2) };
    encode(&contract(&mut rng, size))
}

/// A type of 001: its name, or none where it is Unknown.
type Ty = Option<String>;

const LOCALS: [&str; 5] = ["p", "q", "r", "s", "t"];
const PLAIN: [&str; 3] = ["u64", "bool", "field"];
/// What the names of structs and of fields share at their ends: mostly nothing.
const AROUND: [(&str, &str); 3] = [("same", "tail"), ("begins_alike_", ""), ("", "_ends_with_what_all_the_others_end_with")];

struct Gen<'r> {
    rng: &'r mut Rng,
    size: Size,
    around: (&'static str, &'static str),
    structs: Vec<Struct>,
    functions: Vec<Function>,
    env: Vec<(String, Ty)>,
    ret: Ty,
    /// Whether mistakes are made.
    loose: bool,
}

fn contract(rng: &mut Rng, size: Size) -> Contract {
    let around = if rng.chance(1, 6) { *rng.pick(&AROUND) } else { ("", "") };
    let loose = rng.chance(1, 10);
    let mut g = Gen { rng, size, around, structs: vec![], functions: vec![], env: vec![], ret: None, loose };
    g.structs = (0..g.size.structs).map(|_| g.structure()).collect();
    g.functions = (0..g.size.functions).map(|i| g.function(i)).collect();
    for i in 0..g.functions.len() {
        g.functions[i].body = g.body(i);
    }
    Contract { name: "c".into(), storage: vec![field("k", "u64")], structs: g.structs, functions: g.functions }
}

impl Gen<'_> {
    // One of some letters, with what all names share around it.
    fn letter(&mut self, first: u8, n: usize) -> String {
        let c = (first + self.rng.below(n) as u8) as char;
        format!("{}{c}{}", self.around.0, self.around.1)
    }

    fn field_name(&mut self) -> String {
        self.letter(b'a', self.size.fields + 1)
    }

    // Some structs are declared more than once, and some never.
    fn struct_name(&mut self) -> String {
        self.letter(b'A', self.size.structs + 1)
    }

    fn type_name(&mut self) -> String {
        match self.rng.below(8) {
            0 | 1 => self.rng.pick(&PLAIN).to_string(),
            _ => self.struct_name(),
        }
    }

    fn structure(&mut self) -> Struct {
        let n = self.rng.within(1, self.size.fields);
        let fields = (0..n).map(|_| StorageField { name: self.field_name(), ty: self.type_name() }).collect();
        Struct { name: self.struct_name(), fields }
    }

    // The last one is main; parameters may be repeated.
    fn function(&mut self, i: usize) -> Function {
        let name = if i + 1 == self.size.functions { "main" } else { "f" };
        let n = self.rng.within(1, 3);
        let params = (0..n).map(|_| Param { name: self.rng.pick(&LOCALS).to_string(), ty: self.type_name() }).collect();
        Function { name: name.into(), params, return_type: Some(self.type_name()), body: vec![], is_pub: false }
    }

    fn body(&mut self, i: usize) -> Vec<Stmt> {
        self.env = self.functions[i].params.iter().map(|p| (p.name.clone(), Some(p.ty.clone()))).collect();
        self.ret = self.functions[i].return_type.clone();
        let mut out = lets(if self.rng.chance(1, 15) { self.rng.within(16, 26) } else { 0 });
        let n = self.rng.within(1, self.size.stmts);
        out.extend((0..n).map(|_| self.stmt(3)));
        out
    }

    fn inner(&mut self, nest: usize) -> Vec<Stmt> {
        (0..self.rng.below(4)).map(|_| self.stmt(nest - 1)).collect()
    }

    fn stmt(&mut self, nest: usize) -> Stmt {
        match self.rng.below(if nest == 0 { 13 } else { 20 }) {
            0..=3 => self.let_stmt(),
            4 => self.assign_stmt(),
            5 => emit("e", vec![self.read(), self.read()]),
            6 => write("k", self.read()),
            7 => map_write("k", self.read(), self.read()),
            8 => self.of(&self.ret.clone(), self.size.depth).map_or(constrain(int(1)), |e| Stmt::Return(Some(e))),
            13..=16 => self.if_stmt(nest),
            17 => while_(self.read(), self.inner(nest)),
            18 | 19 => self.for_stmt(nest),
            _ => constrain(self.read()),
        }
    }

    fn let_stmt(&mut self) -> Stmt {
        let (e, ty) = self.some(self.size.depth);
        let x = *self.rng.pick(&LOCALS);
        self.env.push((x.into(), ty));
        let_(x, e)
    }

    fn assign_stmt(&mut self) -> Stmt {
        let (x, ty) = self.known();
        let e = if self.loose { Some(self.read()) } else { self.of(&ty, self.size.depth) };
        assign(&x, e.unwrap_or(id(&x)))
    }

    // `else` is analysed after `then`, whose types its names have, and generated before it: it has the registers from before the If.
    fn if_stmt(&mut self, nest: usize) -> Stmt {
        let (cond, before) = (self.read(), self.env.clone());
        let then = self.inner(nest);
        if self.rng.chance(1, 3) {
            return if_(cond, then, None);
        }
        let after = self.env.clone();
        self.env.retain(|(x, _)| self.loose || before.iter().any(|(y, _)| x == y));
        let mark = self.env.len();
        let other = self.inner(nest);
        self.env = [&after, &self.env[mark..]].concat();
        if_(cond, then, Some(other))
    }

    fn for_stmt(&mut self, nest: usize) -> Stmt {
        let (x, start, end) = (*self.rng.pick(&LOCALS), self.read(), self.read());
        let mark = self.env.len();
        self.env.push((x.into(), Some("u64".into())));
        let body = self.inner(nest);
        self.env.truncate(mark);
        for_(x, start, end, body)
    }

    fn read(&mut self) -> Expr {
        self.access(self.size.depth).0
    }

    // A name that stands there (a parameter always does), with the type of the newest of the name.
    fn known(&mut self) -> (String, Ty) {
        let x = &self.rng.pick(&self.env).0;
        self.env.iter().rev().find(|e| e.0 == *x).cloned().expect("a name")
    }

    // An expression, and the type that analysis finds.
    fn some(&mut self, depth: usize) -> (Expr, Ty) {
        let made = match self.rng.below(if depth == 0 { 5 } else { 14 }) {
            0 => None,
            1..=3 => Some(self.known()).map(|(x, ty)| (id(&x), ty)),
            4 | 5 => self.literal(depth),
            6 | 7 => self.call(depth - 1),
            8 => {
                let (left, ty) = self.some(depth - 1);
                self.of(&ty, depth - 1).map(|right| (binary(left, op_of(self.rng.below(10) as u8), right), ty))
            }
            _ => Some(self.access(depth - 1)),
        };
        made.unwrap_or((int(1), Some("u64".into())))
    }

    // An expression that fits where a type is asked for.
    fn of(&mut self, ty: &Ty, depth: usize) -> Option<Expr> {
        let fits = |found: &Ty| found == ty || found.is_none() || ty.is_none();
        let made = (0..9).map(|_| self.some(depth)).find(|m| fits(&m.1)).map(|m| m.0);
        made.or_else(|| self.declared(ty).map(|s| literal(&s.name, vec![])))
    }

    // The last struct of a type's name.
    fn declared(&self, ty: &Ty) -> Option<&Struct> {
        self.structs.iter().rev().find(|s| Some(&s.name) == ty.as_ref())
    }

    fn literal(&mut self, depth: usize) -> Option<(Expr, Ty)> {
        let ty = Some(self.rng.pick(&self.structs).name.clone());
        let s = self.declared(&ty)?.clone();
        let mut inits = vec![];
        for _ in 0..self.rng.below(if depth == 0 { 1 } else { 3 }) {
            let name = self.rng.pick(&s.fields).name.clone();
            let value = self.of(&member(&s, &name), depth - 1);
            inits.extend(value.map(|v| (name, v)));
        }
        Some((Expr::StructLiteral(s.name, inits), ty))
    }

    fn call(&mut self, depth: usize) -> Option<(Expr, Ty)> {
        let x = self.rng.pick(&self.functions).name.clone();
        let f = self.functions.iter().rev().find(|f| f.name == x)?;
        let (params, ret) = (f.params.clone(), f.return_type.clone());
        let args: Option<Vec<Expr>> = params.into_iter().map(|p| self.of(&Some(p.ty), depth)).collect();
        Some((call(&x, args?), ret))
    }

    fn access(&mut self, depth: usize) -> (Expr, Ty) {
        let (base, ty) = self.some(depth);
        let s = self.declared(&ty).cloned();
        let plain = ty.as_ref().is_some_and(|x| PLAIN.contains(&x.as_str()));
        let x = match &s {
            _ if self.loose && self.rng.chance(1, 4) => self.field_name(),
            Some(s) => self.rng.pick(&s.fields).name.clone(),
            None if plain => return (base, ty),
            None => self.open_field(),
        };
        (access(base, &x), s.and_then(|s| member(&s, &x)))
    }

    // Of an open base: mostly a field that no struct has, or all at one position.
    fn open_field(&mut self) -> String {
        let x = self.field_name();
        let mut found: Vec<_> = self.structs.iter().filter_map(|s| s.fields.iter().position(|f| f.name == x)).collect();
        found.dedup();
        let other = found.len() > 1 && self.rng.chance(15, 16);
        String::from(if other { "far" } else { &x })
    }
}

// The type of a struct's last field of a name.
fn member(s: &Struct, x: &str) -> Ty {
    s.fields.iter().rev().find(|f| f.name == x).map(|f| f.ty.clone())
}
