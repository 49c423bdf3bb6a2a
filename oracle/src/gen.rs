// A seeded generator of contracts: well typed, or with a few mistakes.
use crate::ast::{Contract, Expr, Function, Param, Stmt, StorageField, Struct};
use crate::image::op_of;
use crate::rng::Rng;

/// How a contract is to look.
#[derive(Clone, Copy)]
pub struct Shape {
    pub functions: usize,
    pub structs: usize,
    pub stmts: usize,
    pub depth: usize,
    pub lets: usize,
    /// Mistakes in a thousand nodes.
    pub risk: usize,
    /// Field names shared between structs.
    pub shared_fields: bool,
    pub long_names: bool,
}

/// Small shapes mostly; now and then a larger one, or one near the end of the registers.
pub fn shape(rng: &mut Rng, risk: usize) -> Shape {
    let big = rng.chance(1, 20);
    Shape {
        functions: rng.within(1, if big { 12 } else { 4 }),
        structs: rng.below(4),
        stmts: rng.within(1, if big { 24 } else { 7 }),
        depth: rng.within(1, 4),
        lets: *rng.pick(&[3, 6, 12, 20, 27]),
        risk,
        shared_fields: rng.chance(1, 8),
        long_names: rng.chance(1, 12),
    }
}

/// Shapes whose images are tens of kilobytes.
pub fn huge(rng: &mut Rng, risk: usize) -> Shape {
    Shape { functions: 50, structs: rng.below(9), stmts: 30, depth: rng.within(2, 4), lets: 10, ..shape(rng, risk) }
}

/// Shapes whose images are a few hundred bytes.
pub fn tiny(rng: &mut Rng, risk: usize) -> Shape {
    Shape { functions: rng.within(1, 2), structs: rng.below(3), stmts: rng.within(1, 4), depth: rng.within(1, 2), ..shape(rng, risk) }
}

// A type of 001: a name, or one of the two without.
#[derive(Clone, PartialEq)]
enum Ty {
    Named(String),
    Void,
    Unknown,
}
use Ty::*;

fn u64_() -> Ty {
    Named("u64".into())
}

const BUILTINS: [(&str, usize); 5] =
    [("poseidon", 2), ("verify_merkle_proof", 3), ("msg::sender", 0), ("msg::nonce", 0), ("block::number", 0)];
const NAMES: [&str; 16] = ["a", "b", "x", "y", "p", "q", "f", "g", "h", "main", "u64", "Foo", "A", "n_1", "k:v", "total"];
const MAX_LET_DEPTH: usize = 4;

struct Gen<'r> {
    rng: &'r mut Rng,
    shape: Shape,
    structs: Vec<Struct>,
    functions: Vec<Function>,
    storage: Vec<StorageField>,
    env: Vec<(String, Ty)>,
    ret: Ty,
    lets: usize,
}

pub fn contract(rng: &mut Rng, shape: Shape) -> Contract {
    let mut g = Gen { rng, shape, structs: vec![], functions: vec![], storage: vec![], env: vec![], ret: Void, lets: 0 };
    g.declare();
    for i in 0..g.functions.len() {
        g.functions[i].body = g.body(i);
    }
    let name = g.name();
    Contract { name, storage: g.storage, structs: g.structs, functions: g.functions }
}

impl Gen<'_> {
    fn name(&mut self) -> String {
        if !self.shape.long_names || self.rng.chance(1, 2) {
            return self.rng.pick(&NAMES).to_string();
        }
        // Long names that differ at one end only.
        let len = *self.rng.pick(&[7, 8, 9, 15, 16, 17, 63, 64]);
        let mut x = vec![b'z'; len];
        let at = if self.rng.chance(1, 2) { len - 1 } else { 0 };
        x[at] = b'0' + self.rng.below(4) as u8;
        String::from_utf8(x).unwrap()
    }

    fn type_name(&mut self) -> String {
        match self.rng.below(8) {
            0 => "bool".into(),
            1 => "field".into(),
            2 | 3 if !self.structs.is_empty() => self.rng.pick(&self.structs).name.clone(),
            4 => self.name(),
            _ => "u64".into(),
        }
    }

    fn risky(&mut self) -> bool {
        self.shape.risk > 0 && self.rng.chance(self.shape.risk, 1000)
    }

    fn declare(&mut self) {
        for _ in 0..self.rng.below(5) {
            let (name, ty) = (self.name(), self.type_name());
            self.storage.push(StorageField { name, ty });
        }
        for i in 0..self.shape.structs {
            self.declare_struct(i);
        }
        let count = self.rng.within(1, self.shape.functions);
        for _ in 0..count {
            self.declare_function();
        }
        let mains = self.rng.below(count);
        if !self.risky() {
            self.functions[mains].name = "main".into();
        }
    }

    fn declare_struct(&mut self, i: usize) {
        let mut s = Struct { name: self.name(), fields: vec![] };
        for k in 0..self.rng.below(5) {
            let own = format!("f{i}{k}");
            let name = if self.shape.shared_fields { self.name() } else { own };
            let ty = self.type_name();
            s.fields.push(StorageField { name, ty });
        }
        if s.fields.len() > 1 && self.rng.chance(1, 5) {
            s.fields[1].name = s.fields[0].name.clone();
        }
        self.structs.push(s);
    }

    fn declare_function(&mut self) {
        let name = if self.rng.chance(1, 12) { self.rng.pick(&BUILTINS).0.into() } else { self.name() };
        let mut params = Vec::new();
        for _ in 0..self.rng.below(4) {
            let (name, ty) = (self.name(), self.type_name());
            params.push(Param { name, ty });
        }
        let return_type = if self.rng.chance(1, 2) { Some(self.type_name()) } else { None };
        self.functions.push(Function { name, params, return_type, body: vec![], is_pub: self.rng.chance(1, 2) });
    }

    fn body(&mut self, i: usize) -> Vec<Stmt> {
        self.env = self.functions[i].params.iter().map(|p| (p.name.clone(), Named(p.ty.clone()))).collect();
        self.ret = self.functions[i].return_type.clone().map_or(Void, Named);
        self.lets = 0;
        let n = self.rng.below(self.shape.stmts + 1);
        self.stmts(n, MAX_LET_DEPTH)
    }

    fn stmts(&mut self, n: usize, nest: usize) -> Vec<Stmt> {
        (0..n).map(|_| self.stmt(nest)).collect()
    }

    fn inner(&mut self, nest: usize) -> Vec<Stmt> {
        let n = self.rng.below(4);
        self.stmts(n, nest - 1)
    }

    fn any(&mut self) -> Expr {
        let ty = Named(self.type_name());
        self.typed(&ty)
    }

    fn number(&mut self) -> Expr {
        self.typed(&u64_())
    }

    fn stmt(&mut self, nest: usize) -> Stmt {
        match self.rng.below(if nest == 0 { 12 } else { 18 }) {
            0..=2 if self.lets < self.shape.lets => self.let_stmt(),
            3 => Stmt::Constrain(self.any()),
            4 | 5 => self.assign_stmt(),
            6 => {
                let x = self.stored();
                x.map_or(Stmt::Return(None), |x| Stmt::StorageWrite(x, self.any()))
            }
            7 => {
                let x = self.stored();
                x.map_or(Stmt::Emit("e".into(), vec![]), |x| Stmt::MappingWrite(x, self.any(), self.any()))
            }
            8 => self.return_stmt(),
            9 => {
                let n = self.rng.below(4);
                Stmt::Emit(self.name(), (0..n).map(|_| self.any()).collect())
            }
            12 | 13 => self.if_stmt(nest),
            14 | 15 => Stmt::While(self.any(), self.inner(nest)),
            16 | 17 => self.for_stmt(nest),
            _ => Stmt::Expr(self.any()),
        }
    }

    fn let_stmt(&mut self) -> Stmt {
        self.lets += 1;
        let x = self.name();
        if !self.env.is_empty() && self.rng.chance(1, 5) {
            let (y, ty) = self.rng.pick(&self.env).clone();
            let ty = self.look(&y).unwrap_or(ty);
            self.env.push((x.clone(), ty));
            return Stmt::Let(x, Expr::Ident(y));
        }
        let (e, ty) = self.valued();
        self.env.push((x.clone(), ty));
        Stmt::Let(x, e)
    }

    // An expression of any type that can be had, Void among them.
    fn valued(&mut self) -> (Expr, Ty) {
        let voids = self.functions.iter().filter(|f| f.return_type.is_none() && f.params.is_empty()).count();
        if voids > 0 && self.rng.chance(1, 12) {
            if let Some(e) = self.call(&Void, 1) {
                return (e, Void);
            }
        }
        let ty = Named(self.type_name());
        match self.expr(&ty, self.shape.depth) {
            Some(e) => (e, ty),
            None => (self.number(), u64_()),
        }
    }

    fn assign_stmt(&mut self) -> Stmt {
        if self.env.is_empty() || self.risky() {
            let risk = self.shape.risk > 0;
            return if risk { Stmt::Assign(self.name(), self.number()) } else { Stmt::Expr(self.number()) };
        }
        let x = self.rng.pick(&self.env).0.clone();
        let ty = self.look(&x).unwrap();
        match self.expr(&ty, self.shape.depth) {
            Some(e) => Stmt::Assign(x, e),
            None => Stmt::Assign(x.clone(), Expr::Ident(x)),
        }
    }

    fn return_stmt(&mut self) -> Stmt {
        let ty = self.ret.clone();
        if ty == Void || self.risky() {
            return Stmt::Return(None);
        }
        match self.expr(&ty, self.shape.depth) {
            Some(e) => Stmt::Return(Some(e)),
            None => Stmt::Constrain(self.number()),
        }
    }

    // Names let in `then` are there for the analysis of `else`, not for its generation.
    fn if_stmt(&mut self, nest: usize) -> Stmt {
        let cond = self.any();
        let before = self.env.clone();
        let then = self.inner(nest);
        if self.rng.chance(1, 3) {
            return Stmt::If(cond, then, None);
        }
        let after = self.env.clone();
        if !self.risky() {
            self.env.retain(|(x, _)| before.iter().any(|(y, _)| x == y));
        }
        let mark = self.env.len();
        let other = self.inner(nest);
        let added = self.env.split_off(mark);
        self.env = after;
        self.env.extend(added);
        Stmt::If(cond, then, Some(other))
    }

    fn for_stmt(&mut self, nest: usize) -> Stmt {
        let (var, start, end) = (self.name(), self.any(), self.any());
        let mark = self.env.len();
        self.env.push((var.clone(), u64_()));
        let body = self.inner(nest);
        self.env.truncate(mark);
        Stmt::For { var, start, end, body }
    }

    fn stored(&mut self) -> Option<String> {
        if self.risky() {
            return Some(self.name());
        }
        if self.storage.is_empty() {
            None
        } else {
            Some(self.rng.pick(&self.storage).name.clone())
        }
    }

    fn look(&self, x: &str) -> Option<Ty> {
        self.env.iter().rev().find(|e| e.0 == x).map(|e| e.1.clone())
    }

    // An expression of a type, or of u64 where none can be had.
    fn typed(&mut self, ty: &Ty) -> Expr {
        let e = self.expr(ty, self.shape.depth);
        e.unwrap_or_else(|| Expr::Int(self.value()))
    }

    fn value(&mut self) -> u64 {
        let wide = self.rng.below(65) as u32;
        let v = self.rng.next().checked_shr(wide).unwrap_or(0);
        match self.rng.below(8) {
            0 => 1 << self.rng.below(64),
            1 => (1u64 << self.rng.below(64)).wrapping_sub(1),
            2 => v & !0x3FFF_FFFF,
            3 => v,
            _ => v % 100,
        }
    }

    fn expr(&mut self, ty: &Ty, depth: usize) -> Option<Expr> {
        if self.risky() {
            return Some(self.mistake());
        }
        for _ in 0..4 {
            let e = match self.rng.below(if depth == 0 { 4 } else { 10 }) {
                0 | 1 => self.ident(ty),
                2 if *ty == u64_() => Some(Expr::Int(self.value())),
                3 if *ty == u64_() => self.stored().map(Expr::StorageRead),
                4 if *ty == u64_() => {
                    let key = self.expr(&u64_(), depth - 1);
                    self.stored().and_then(|x| key.map(|k| Expr::MappingRead(x, Box::new(k))))
                }
                5 | 6 => self.binary(ty, depth - 1),
                7 => self.call(ty, depth - 1),
                8 => self.access(ty, depth - 1),
                9 => self.literal(ty, depth - 1),
                _ => None,
            };
            if e.is_some() {
                return e;
            }
        }
        if *ty == u64_() {
            Some(Expr::Int(self.value()))
        } else {
            self.ident(ty)
        }
    }

    fn mistake(&mut self) -> Expr {
        match self.rng.below(5) {
            0 => Expr::Ident(self.name()),
            1 => Expr::Call(self.name(), vec![]),
            2 => Expr::StructLiteral(self.name(), vec![(self.name(), Expr::Int(1))]),
            3 => Expr::FieldAccess(Box::new(Expr::Int(2)), self.name()),
            _ => self.number_or_name(),
        }
    }

    fn number_or_name(&mut self) -> Expr {
        if self.env.is_empty() {
            Expr::Int(3)
        } else {
            Expr::Ident(self.rng.pick(&self.env).0.clone())
        }
    }

    fn ident(&mut self, ty: &Ty) -> Option<Expr> {
        let fit: Vec<String> = self.env.iter().filter(|e| self.look(&e.0).as_ref() == Some(ty)).map(|e| e.0.clone()).collect();
        if fit.is_empty() {
            None
        } else {
            Some(Expr::Ident(self.rng.pick(&fit).clone()))
        }
    }

    fn binary(&mut self, ty: &Ty, depth: usize) -> Option<Expr> {
        let (l, r) = (self.expr(ty, depth)?, self.expr(ty, depth)?);
        Some(Expr::Binary(Box::new(l), op_of(self.rng.below(10) as u8), Box::new(r)))
    }

    // The signature that 001 finds: a builtin's, or the last function's of the name.
    fn signature(&self, x: &str) -> Option<(Vec<Ty>, Ty)> {
        if let Some((_, n)) = BUILTINS.iter().find(|b| b.0 == x) {
            return Some((vec![u64_(); *n], u64_()));
        }
        let f = self.functions.iter().rev().find(|f| f.name == x)?;
        Some((f.params.iter().map(|p| Named(p.ty.clone())).collect(), f.return_type.clone().map_or(Void, Named)))
    }

    fn call(&mut self, ty: &Ty, depth: usize) -> Option<Expr> {
        let builtin = *ty == u64_() && self.rng.chance(1, 3);
        let x = if builtin { self.rng.pick(&BUILTINS).0.to_string() } else { self.rng.pick(&self.functions).name.clone() };
        let (params, ret) = self.signature(&x)?;
        if ret != *ty {
            return None;
        }
        let args: Option<Vec<Expr>> = params.iter().map(|p| self.expr(p, depth)).collect();
        Some(Expr::Call(x, args?))
    }

    // Fields of a type, as 001 finds them: the last struct of the name, the last field of the name.
    fn members(&self, ty: &Ty) -> Vec<(String, String)> {
        let mut found = Vec::new();
        for (i, s) in self.structs.iter().enumerate() {
            if self.structs[i + 1..].iter().any(|t| t.name == s.name) {
                continue;
            }
            for (k, f) in s.fields.iter().enumerate() {
                let newest = !s.fields[k + 1..].iter().any(|g| g.name == f.name);
                if newest && Named(f.ty.clone()) == *ty {
                    found.push((s.name.clone(), f.name.clone()));
                }
            }
        }
        found
    }

    fn declared(&self, x: &str) -> bool {
        self.structs.iter().any(|s| s.name == x)
    }

    fn plain(x: &str) -> bool {
        matches!(x, "u64" | "bool" | "field")
    }

    fn access(&mut self, ty: &Ty, depth: usize) -> Option<Expr> {
        if self.rng.chance(1, 3) {
            return self.unknown();
        }
        let fit = self.members(ty);
        if fit.is_empty() {
            return None;
        }
        let (s, f) = self.rng.pick(&fit).clone();
        if Self::plain(&s) {
            return None;
        }
        let base = self.expr(&Named(s), depth)?;
        Some(Expr::FieldAccess(Box::new(base), f))
    }

    // A field of an undeclared struct is Unknown and fits everywhere.
    fn unknown(&mut self) -> Option<Expr> {
        let open = |t: &Ty| matches!(t, Named(x) if !self.declared(x) && !Self::plain(x)) || *t == Unknown;
        let fit: Vec<String> = self.env.iter().filter(|e| self.look(&e.0).as_ref().is_some_and(open)).map(|e| e.0.clone()).collect();
        if fit.is_empty() {
            return None;
        }
        let base = Expr::Ident(self.rng.pick(&fit).clone());
        Some(Expr::FieldAccess(Box::new(base), self.name()))
    }

    fn literal(&mut self, ty: &Ty, depth: usize) -> Option<Expr> {
        let Named(x) = ty else { return None };
        if Self::plain(x) {
            return None;
        }
        let s = self.structs.iter().rev().find(|s| s.name == *x)?.clone();
        let mut inits = Vec::new();
        for _ in 0..self.rng.below(4).min(s.fields.len()) {
            let f = self.rng.pick(&s.fields).name.clone();
            let fty = s.fields.iter().rev().find(|g| g.name == f).unwrap().ty.clone();
            if let Some(v) = self.expr(&Named(fty), depth) {
                inits.push((f, v));
            }
        }
        Some(Expr::StructLiteral(x.clone(), inits))
    }
}
