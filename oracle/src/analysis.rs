// The analysis of 001, read on the image itself, so that each error has its place.
use crate::image::*;
use crate::model::Refusal;
use std::collections::BTreeMap;

/// 001: Type; names are slices of the image.
#[derive(Clone, Copy, PartialEq, Eq)]
pub enum Ty<'a> {
    U64,
    Bool,
    Field,
    Struct(&'a [u8]),
    Void,
    Unknown,
}
use Ty::*;

pub fn text(x: &[u8]) -> &str {
    std::str::from_utf8(x).expect("a sound name")
}

// 001: the debug form of a type.
fn shown(t: Ty) -> String {
    match t {
        U64 => "U64".into(),
        Bool => "Bool".into(),
        Field => "Field".into(),
        Struct(x) => format!("Struct({:?})", text(x)),
        Void => "Void".into(),
        Unknown => "Unknown".into(),
    }
}

fn ty_of(x: &[u8]) -> Ty<'_> {
    match x {
        b"u64" => U64,
        b"bool" => Bool,
        b"field" => Field,
        _ => Struct(x),
    }
}

fn differ(a: Ty, b: Ty) -> bool {
    a != b && a != Unknown && b != Unknown
}

// 001: the five builtins take numbers and give one.
pub fn builtin_arity(x: &[u8]) -> Option<usize> {
    match x {
        b"poseidon" => Some(2),
        b"verify_merkle_proof" => Some(3),
        b"msg::sender" | b"msg::nonce" | b"block::number" => Some(0),
        _ => None,
    }
}

/// The declarations of a sound image, in order.
pub struct Lists {
    pub storage: Vec<Rec>,
    pub structs: Vec<Rec>,
    pub functions: Vec<Rec>,
}

pub fn lists(img: &[u8]) -> Lists {
    let top = rec_at(img, 0);
    let all = |n| top.part(img, n).parts(img).collect();
    Lists { storage: all(1), structs: all(2), functions: all(3) }
}

pub fn name_of<'a>(img: &'a [u8], r: &Rec) -> &'a [u8] {
    r.part(img, 0).bytes(img)
}

/// The last record of a name.
pub fn last<'b>(img: &[u8], list: &'b [Rec], x: &[u8]) -> Option<&'b Rec> {
    list.iter().rev().find(|r| name_of(img, r) == x)
}

/// By the place of an access the struct that its base is of, as last declared; none where the base's type is no declared struct.
pub type Bases = BTreeMap<usize, Rec>;

struct Sema<'a> {
    img: &'a [u8],
    lists: Lists,
    ret: Ty<'a>,
    env: Vec<(&'a [u8], Ty<'a>)>,
    bases: Bases,
}

type Typed<'a> = Result<Ty<'a>, Refusal>;

fn bad<T>(number: u32, place: usize, text: String) -> Result<T, Refusal> {
    Err(Refusal { number, place, text: format!("SemanticError: {text}") })
}

/// The first error of 001 over a sound image, or what it found each access's base to be.
pub fn analyse(img: &[u8]) -> Result<Bases, Refusal> {
    let mut s = Sema { img, lists: lists(img), ret: Void, env: Vec::new(), bases: Bases::new() };
    for i in 0..s.lists.functions.len() {
        s.function(s.lists.functions[i])?;
    }
    Ok(s.bases)
}

impl<'a> Sema<'a> {
    fn field_ty(&self, f: Rec) -> Ty<'a> {
        ty_of(f.part(self.img, 1).bytes(self.img))
    }

    fn return_ty(&self, f: &Rec) -> Ty<'a> {
        f.part(self.img, 2).parts(self.img).next().map_or(Void, |t| ty_of(t.bytes(self.img)))
    }

    fn look(&self, x: &[u8]) -> Option<Ty<'a>> {
        self.env.iter().rev().find(|(y, _)| *y == x).map(|e| e.1)
    }

    fn function(&mut self, f: Rec) -> Result<(), Refusal> {
        self.env.clear();
        for p in f.part(self.img, 1).parts(self.img) {
            let ty = self.field_ty(p);
            self.env.push((name_of(self.img, &p), ty));
        }
        self.ret = self.return_ty(&f);
        self.stmts(f.part(self.img, 4))
    }

    fn stmts(&mut self, list: Rec) -> Result<(), Refusal> {
        list.parts(self.img).try_for_each(|s| self.stmt(s))
    }

    fn stmt(&mut self, s: Rec) -> Result<(), Refusal> {
        let img = self.img;
        let part = |n| s.part(img, n);
        match s.kind {
            LET => {
                let ty = self.expr(part(1))?;
                self.env.push((name_of(img, &s), ty));
            }
            ASSIGN => self.assign(s)?,
            CONSTRAIN | EXPR => _ = self.expr(part(0))?,
            STORAGE_WRITE => _ = self.expr(part(1))?,
            MAPPING_WRITE => {
                self.expr(part(1))?;
                self.expr(part(2))?;
            }
            IF => {
                self.expr(part(0))?;
                s.parts(img).skip(1).try_for_each(|b| self.stmts(b))?;
            }
            WHILE => {
                self.expr(part(0))?;
                self.stmts(part(1))?;
            }
            FOR => {
                self.expr(part(1))?;
                self.expr(part(2))?;
                let mark = self.env.len();
                self.env.push((name_of(img, &s), U64));
                self.stmts(part(3))?;
                self.env.truncate(mark);
            }
            RETURN => self.ret(s)?,
            _ => part(1).parts(img).try_for_each(|a| self.expr(a).map(|_| ()))?,
        }
        Ok(())
    }

    fn assign(&mut self, s: Rec) -> Result<(), Refusal> {
        let x = name_of(self.img, &s);
        let Some(expected) = self.look(x) else {
            return bad(11, s.at, format!("Undefined variable: {}", text(x)));
        };
        let ty = self.expr(s.part(self.img, 1))?;
        if differ(ty, expected) {
            return bad(12, s.at, format!("Type mismatch in assign: expected {}, got {}", shown(expected), shown(ty)));
        }
        Ok(())
    }

    fn ret(&mut self, s: Rec) -> Result<(), Refusal> {
        let ty = match s.parts(self.img).next() {
            Some(e) => self.expr(e)?,
            None => Void,
        };
        if differ(ty, self.ret) {
            return bad(13, s.at, format!("Type mismatch in return: expected {}, got {}", shown(self.ret), shown(ty)));
        }
        Ok(())
    }

    fn expr(&mut self, e: Rec) -> Typed<'a> {
        match e.kind {
            INT | STORAGE_READ => Ok(U64),
            IDENT => {
                let x = name_of(self.img, &e);
                self.look(x).map_or_else(|| bad(10, e.at, format!("Undefined identifier: {}", text(x))), Ok)
            }
            MAPPING_READ => self.expr(e.part(self.img, 1)).map(|_| U64),
            FIELD_ACCESS => self.access(e),
            STRUCT_LITERAL => self.literal(e),
            BINARY => {
                let left = self.expr(e.part(self.img, 0))?;
                let right = self.expr(e.part(self.img, 2))?;
                if differ(left, right) {
                    bad(22, e.at, "Type mismatch in binary expression".into())
                } else {
                    Ok(left)
                }
            }
            _ => self.call(e),
        }
    }

    // The type of a struct's last field of a name.
    fn member(&self, s: &Rec, x: &[u8]) -> Option<Ty<'a>> {
        let fields: Vec<Rec> = s.part(self.img, 1).parts(self.img).collect();
        last(self.img, &fields, x).map(|f| self.field_ty(*f))
    }

    fn access(&mut self, e: Rec) -> Typed<'a> {
        let base = self.expr(e.part(self.img, 0))?;
        let x = e.part(self.img, 1).bytes(self.img);
        match base {
            Unknown => Ok(Unknown),
            Struct(s) => match last(self.img, &self.lists.structs, s).copied() {
                None => Ok(Unknown),
                Some(r) => {
                    self.bases.insert(e.at, r);
                    self.member(&r, x).map_or_else(|| bad(14, e.at, format!("Struct {} has no field {}", text(s), text(x))), Ok)
                }
            },
            _ => bad(15, e.at, "Field access on non-struct".into()),
        }
    }

    fn literal(&mut self, e: Rec) -> Typed<'a> {
        let name = name_of(self.img, &e);
        let Some(&s) = last(self.img, &self.lists.structs, name) else {
            return bad(18, e.at, format!("Undefined struct: {}", text(name)));
        };
        for i in e.part(self.img, 1).parts(self.img) {
            let ty = self.expr(i.part(self.img, 1))?;
            let x = name_of(self.img, &i);
            match self.member(&s, x) {
                Some(expected) if differ(ty, expected) => return bad(16, i.at, format!("Field {} type mismatch", text(x))),
                Some(_) => {}
                None => return bad(17, i.at, format!("Unknown field {}", text(x))),
            }
        }
        Ok(Struct(name))
    }

    fn call(&mut self, e: Rec) -> Typed<'a> {
        let name = name_of(self.img, &e);
        let args: Vec<Rec> = e.part(self.img, 1).parts(self.img).collect();
        let mut types = Vec::new();
        for a in &args {
            types.push(self.expr(*a)?);
        }
        let (params, ret) = match (builtin_arity(name), last(self.img, &self.lists.functions, name)) {
            (Some(n), _) => (vec![U64; n], U64),
            (None, Some(f)) => (f.part(self.img, 1).parts(self.img).map(|p| self.field_ty(p)).collect(), self.return_ty(f)),
            (None, None) => return bad(21, e.at, format!("Undefined function: {}", text(name))),
        };
        if params.len() != args.len() {
            return bad(19, e.at, format!("Function {} expects {} args, got {}", text(name), params.len(), args.len()));
        }
        match (0..args.len()).find(|&i| differ(params[i], types[i])) {
            Some(i) => bad(20, args[i].at, format!("Arg {} type mismatch in {}", i, text(name))),
            None => Ok(ret),
        }
    }
}
