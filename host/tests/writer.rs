//! The writer of images: every stored image that passes the check, read into a tree, is written back byte for byte.
mod common;

use common::ast::{BinOp, Contract, Expr, Function, Param, Stmt, StorageField, Struct};
use common::{guarded, stored, tree::*, whole};
use haspnettle::{build_image, image};
use std::collections::BTreeSet;

const OPS: [BinOp; 10] =
    [BinOp::Add, BinOp::Sub, BinOp::Mul, BinOp::Div, BinOp::Eq, BinOp::Neq, BinOp::Lt, BinOp::Gt, BinOp::Lte, BinOp::Gte];

// A record of a sound image: its kind and its payload.
#[derive(Clone, Copy)]
struct Rec<'a>(u16, &'a [u8]);

impl<'a> Rec<'a> {
    fn parts(self) -> Vec<Rec<'a>> {
        let (mut rest, mut out) = (self.1, vec![]);
        while !rest.is_empty() {
            let (first, behind) = rest.split_at(4 + u32::from_le_bytes(rest[..4].try_into().unwrap()) as usize);
            out.push(Rec(u16::from_le_bytes(first[4..6].try_into().unwrap()), &first[6..]));
            rest = behind;
        }
        out
    }

    fn text(self) -> String {
        String::from_utf8(self.1.to_vec()).unwrap()
    }
}

// Reads trees, and keeps in mind which kinds and which operators it saw.
#[derive(Default)]
struct Reader {
    kinds: BTreeSet<u16>,
    ops: BTreeSet<u8>,
}

impl Reader {
    fn list<T>(&mut self, r: Rec, each: fn(&mut Self, Rec) -> T) -> Vec<T> {
        r.parts().into_iter().map(|p| each(self, p)).collect()
    }

    fn contract(&mut self, r: Rec) -> Contract {
        let p = r.parts();
        let (storage, structs) = (self.list(p[1], Self::field), self.list(p[2], Self::structure));
        Contract { name: p[0].text(), storage, structs, functions: self.list(p[3], Self::function) }
    }

    fn field(&mut self, r: Rec) -> StorageField {
        let p = r.parts();
        StorageField { name: p[0].text(), ty: p[1].text() }
    }

    fn param(&mut self, r: Rec) -> Param {
        let f = self.field(r);
        Param { name: f.name, ty: f.ty }
    }

    fn structure(&mut self, r: Rec) -> Struct {
        let p = r.parts();
        Struct { name: p[0].text(), fields: self.list(p[1], Self::field) }
    }

    fn function(&mut self, r: Rec) -> Function {
        let p = r.parts();
        let return_type = p[2].parts().first().map(|t| t.text());
        Function { name: p[0].text(), params: self.list(p[1], Self::param), return_type, is_pub: p[3].1 == [1], body: self.body(p[4]) }
    }

    fn body(&mut self, r: Rec) -> Vec<Stmt> {
        self.list(r, Self::stmt)
    }

    fn stmt(&mut self, r: Rec) -> Stmt {
        self.kinds.insert(r.0);
        let p = r.parts();
        match r.0 {
            32 => Stmt::Let(p[0].text(), self.expr(p[1])),
            33 => Stmt::Constrain(self.expr(p[0])),
            34 => Stmt::Assign(p[0].text(), self.expr(p[1])),
            35 => Stmt::StorageWrite(p[0].text(), self.expr(p[1])),
            36 => Stmt::MappingWrite(p[0].text(), self.expr(p[1]), self.expr(p[2])),
            37 => Stmt::If(self.expr(p[0]), self.body(p[1]), p.get(2).map(|e| self.body(*e))),
            38 => Stmt::While(self.expr(p[0]), self.body(p[1])),
            39 => Stmt::For { var: p[0].text(), start: self.expr(p[1]), end: self.expr(p[2]), body: self.body(p[3]) },
            40 => Stmt::Return(p.first().map(|e| self.expr(*e))),
            41 => Stmt::Emit(p[0].text(), self.list(p[1], Self::expr)),
            42 => Stmt::Expr(self.expr(p[0])),
            kind => panic!("a statement of kind {kind}"),
        }
    }

    fn expr(&mut self, r: Rec) -> Expr {
        self.kinds.insert(r.0);
        if r.0 == 64 {
            return Expr::Int(u64::from_le_bytes(r.1.try_into().unwrap()));
        }
        let p = r.parts();
        match r.0 {
            65 => Expr::Ident(p[0].text()),
            66 => Expr::StorageRead(p[0].text()),
            67 => Expr::MappingRead(p[0].text(), Box::new(self.expr(p[1]))),
            68 => Expr::FieldAccess(Box::new(self.expr(p[0])), p[1].text()),
            69 => Expr::StructLiteral(p[0].text(), self.list(p[1], Self::init)),
            70 => {
                self.ops.insert(p[1].1[0]);
                Expr::Binary(Box::new(self.expr(p[0])), OPS[p[1].1[0] as usize], Box::new(self.expr(p[2])))
            }
            71 => Expr::Call(p[0].text(), self.list(p[1], Self::expr)),
            kind => panic!("an expression of kind {kind}"),
        }
    }

    fn init(&mut self, r: Rec) -> (String, Expr) {
        let p = r.parts();
        (p[0].text(), self.expr(p[1]))
    }
}

#[test]
fn every_stored_image_is_written_back() {
    let mut reader = Reader::default();
    let all: Vec<_> = stored().into_iter().filter(|c| !(1..=7).contains(&c.built.0)).collect();
    for case in &all {
        let tree = reader.contract(Rec(16, &case.image[6..]));
        assert_eq!(image(&tree).as_ref(), Ok(&case.image), "{tree:?}");
    }
    assert!(all.len() > 1500);
    assert!(reader.kinds.into_iter().eq((32..=42).chain(64..=71)));
    assert!(reader.ops.into_iter().eq(0..=9));
}

#[test]
fn more_words_than_bytes() {
    let mut c = main_of(vec![emit("e", vec![call("g", vec![]); 27])]);
    c.functions.push(function("g", vec![], None, vec![]));
    let img = image(&c).unwrap();
    let words = build_image(&img).unwrap();
    assert!(words.len() > img.len(), "{} words of {} bytes", words.len(), img.len());
    let (answer, bytes) = guarded(&img, 8 * 8192);
    assert_eq!(answer, Ok(words.len()));
    assert_eq!(bytes, whole(&Ok(words), 8 * 8192));
}
