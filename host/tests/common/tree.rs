//! Short hands for trees: of this crate here, of the Rust in `oracle/`.
#![allow(dead_code)] // who includes it need not use all of it

use super::ast::{BinOp, Contract, Expr, Function, Param, Stmt, StorageField, Struct};

pub fn int(v: u64) -> Expr {
    Expr::Int(v)
}
pub fn id(x: &str) -> Expr {
    Expr::Ident(x.into())
}
pub fn read(x: &str) -> Expr {
    Expr::StorageRead(x.into())
}
pub fn mapping(x: &str, k: Expr) -> Expr {
    Expr::MappingRead(x.into(), Box::new(k))
}
pub fn access(b: Expr, x: &str) -> Expr {
    Expr::FieldAccess(Box::new(b), x.into())
}
pub fn literal(x: &str, inits: Vec<(&str, Expr)>) -> Expr {
    Expr::StructLiteral(x.into(), inits.into_iter().map(|(f, v)| (f.to_string(), v)).collect())
}
pub fn binary(l: Expr, op: BinOp, r: Expr) -> Expr {
    Expr::Binary(Box::new(l), op, Box::new(r))
}
pub fn add(l: Expr, r: Expr) -> Expr {
    binary(l, BinOp::Add, r)
}
pub fn call(x: &str, args: Vec<Expr>) -> Expr {
    Expr::Call(x.into(), args)
}
pub fn let_(x: &str, e: Expr) -> Stmt {
    Stmt::Let(x.into(), e)
}
pub fn assign(x: &str, e: Expr) -> Stmt {
    Stmt::Assign(x.into(), e)
}
pub fn constrain(e: Expr) -> Stmt {
    Stmt::Constrain(e)
}
pub fn write(x: &str, e: Expr) -> Stmt {
    Stmt::StorageWrite(x.into(), e)
}
pub fn map_write(x: &str, k: Expr, v: Expr) -> Stmt {
    Stmt::MappingWrite(x.into(), k, v)
}
pub fn if_(c: Expr, t: Vec<Stmt>, e: Option<Vec<Stmt>>) -> Stmt {
    Stmt::If(c, t, e)
}
pub fn while_(c: Expr, b: Vec<Stmt>) -> Stmt {
    Stmt::While(c, b)
}
pub fn for_(x: &str, start: Expr, end: Expr, body: Vec<Stmt>) -> Stmt {
    Stmt::For { var: x.into(), start, end, body }
}
pub fn emit(x: &str, args: Vec<Expr>) -> Stmt {
    Stmt::Emit(x.into(), args)
}
pub fn does(e: Expr) -> Stmt {
    Stmt::Expr(e)
}
pub fn field(x: &str, ty: &str) -> StorageField {
    StorageField { name: x.into(), ty: ty.into() }
}
pub fn structure(x: &str, fields: Vec<(&str, &str)>) -> Struct {
    Struct { name: x.into(), fields: fields.into_iter().map(|(f, t)| field(f, t)).collect() }
}
pub fn function(x: &str, params: Vec<(&str, &str)>, ret: Option<&str>, body: Vec<Stmt>) -> Function {
    let params = params.into_iter().map(|(p, t)| Param { name: p.into(), ty: t.into() }).collect();
    Function { name: x.into(), params, return_type: ret.map(String::from), body, is_pub: false }
}
pub fn main_of(body: Vec<Stmt>) -> Contract {
    contract(vec![], vec![], vec![function("main", vec![], None, body)])
}
pub fn contract(storage: Vec<StorageField>, structs: Vec<Struct>, functions: Vec<Function>) -> Contract {
    Contract { name: "c".into(), storage, structs, functions }
}
/// Lets of different names: `x0 = 1`, `x1 = 1`, ..
pub fn lets(n: usize) -> Vec<Stmt> {
    (0..n).map(|i| let_(&format!("x{i}"), int(1))).collect()
}
