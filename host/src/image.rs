//! The writer of images (document 01: The contract image).

use crate::ast::{BinOp, Contract, Expr, Function, Stmt, StorageField, Struct};
use std::error::Error;
use std::fmt;

/// What no image can hold.
#[derive(Debug, Clone, PartialEq, Eq)]
#[non_exhaustive]
pub enum Unwritable {
    /// A name is 1 to 64 bytes of A-Z a-z 0-9 _ : and this is none.
    Name(String),
    /// More of these than the bound: storage 256, structs 64, fields of a struct 64, functions 256, initial values of a literal 64,
    /// arguments of a call 64, names of a function (parameters, Lets and Fors) 512.
    TooMany {
        /// What there are too many of.
        what: &'static str,
        /// The bound.
        most: usize,
        /// How many there are; of a function's names the first over the bound.
        found: usize,
    },
    /// Records within records, more than 64 deep.
    TooDeep,
    /// An image has at most 65,536 bytes.
    TooLong {
        /// What it would have.
        bytes: usize,
    },
}

impl fmt::Display for Unwritable {
    fn fmt(&self, f: &mut fmt::Formatter<'_>) -> fmt::Result {
        match self {
            Unwritable::Name(name) => write!(f, "{name:?} is no name: 1 to 64 bytes of A-Z a-z 0-9 _ :"),
            Unwritable::TooMany { what, most, found } => write!(f, "{found} {what}, and an image holds {most} at most"),
            Unwritable::TooDeep => write!(f, "the tree is more than 64 records deep"),
            Unwritable::TooLong { bytes } => write!(f, "the image would have {bytes} bytes, and 65,536 is the most"),
        }
    }
}

impl Error for Unwritable {}

type Written = Result<(), Unwritable>;

const LONGEST: usize = 65_536;
const DEEPEST: usize = 64;

pub(crate) const NAME: u16 = 1;
pub(crate) const LIST: u16 = 2;
pub(crate) const FLAG: u16 = 3;
pub(crate) const OP: u16 = 4;
pub(crate) const CONTRACT: u16 = 16;
pub(crate) const FIELD: u16 = 17;
pub(crate) const STRUCT: u16 = 18;
pub(crate) const FUNCTION: u16 = 19;
pub(crate) const INIT: u16 = 20;
pub(crate) const LET: u16 = 32;
pub(crate) const CONSTRAIN: u16 = 33;
pub(crate) const ASSIGN: u16 = 34;
pub(crate) const STORAGE_WRITE: u16 = 35;
pub(crate) const MAPPING_WRITE: u16 = 36;
pub(crate) const IF: u16 = 37;
pub(crate) const WHILE: u16 = 38;
pub(crate) const FOR: u16 = 39;
pub(crate) const RETURN: u16 = 40;
pub(crate) const EMIT: u16 = 41;
pub(crate) const EXPR: u16 = 42;
pub(crate) const INT: u16 = 64;
pub(crate) const IDENT: u16 = 65;
pub(crate) const STORAGE_READ: u16 = 66;
pub(crate) const MAPPING_READ: u16 = 67;
pub(crate) const FIELD_ACCESS: u16 = 68;
pub(crate) const STRUCT_LITERAL: u16 = 69;
pub(crate) const BINARY: u16 = 70;
pub(crate) const CALL: u16 = 71;

/// The image of a contract.
///
/// ```
/// use haspnettle::ast::{Contract, Function};
///
/// let main = Function { name: "main".into(), params: vec![], return_type: None, body: vec![], is_pub: false };
/// let contract = Contract { name: "c".into(), storage: vec![], structs: vec![], functions: vec![main] };
/// assert_eq!(haspnettle::image(&contract).unwrap().len(), 72);
/// ```
pub fn image(contract: &Contract) -> Result<Vec<u8>, Unwritable> {
    let mut w = Writer { bytes: Vec::new(), depth: 0, names: 0 };
    w.contract(contract)?;
    match w.bytes.len() {
        0..=LONGEST => Ok(w.bytes),
        bytes => Err(Unwritable::TooLong { bytes }),
    }
}

struct Writer {
    bytes: Vec<u8>,
    depth: usize,
    // Parameters, Lets and Fors of the function so far.
    names: usize,
}

impl Writer {
    // A length of kind and payload, the kind, and what `payload` writes.
    fn record(&mut self, kind: u16, payload: impl FnOnce(&mut Self) -> Written) -> Written {
        if self.depth == DEEPEST {
            return Err(Unwritable::TooDeep);
        }
        self.depth += 1;
        let at = self.bytes.len();
        self.bytes.extend([0; 4]);
        self.bytes.extend(kind.to_le_bytes());
        payload(self)?;
        let length = u32::try_from(self.bytes.len() - at - 4).map_err(|_| Unwritable::TooLong { bytes: self.bytes.len() })?;
        self.bytes.iter_mut().skip(at).zip(length.to_le_bytes()).for_each(|(byte, due)| *byte = due);
        self.depth -= 1;
        Ok(())
    }

    fn name(&mut self, name: &str) -> Written {
        let fits = |b: u8| b.is_ascii_alphanumeric() || b == b'_' || b == b':';
        if name.is_empty() || name.len() > 64 || !name.bytes().all(fits) {
            return Err(Unwritable::Name(name.into()));
        }
        self.record(NAME, |w| w.raw(name.as_bytes()))
    }

    fn raw(&mut self, bytes: &[u8]) -> Written {
        self.bytes.extend(bytes);
        Ok(())
    }

    fn list<T>(&mut self, items: &[T], each: impl Fn(&mut Self, &T) -> Written) -> Written {
        self.record(LIST, |w| items.iter().try_for_each(|i| each(w, i)))
    }

    fn few<T>(&mut self, what: &'static str, most: usize, items: &[T], each: impl Fn(&mut Self, &T) -> Written) -> Written {
        if items.len() > most {
            return Err(Unwritable::TooMany { what, most, found: items.len() });
        }
        self.list(items, each)
    }

    // One more parameter, Let or For of the function.
    fn declares(&mut self) -> Written {
        self.names += 1;
        match self.names {
            0..=512 => Ok(()),
            found => Err(Unwritable::TooMany { what: "parameters, Lets and Fors in one function", most: 512, found }),
        }
    }

    fn contract(&mut self, c: &Contract) -> Written {
        self.record(CONTRACT, |w| {
            w.name(&c.name)?;
            w.few("storage fields", 256, &c.storage, Self::field)?;
            w.few("structs", 64, &c.structs, Self::structure)?;
            w.few("functions", 256, &c.functions, Self::function)
        })
    }

    fn named(&mut self, name: &str, ty: &str) -> Written {
        self.record(FIELD, |w| {
            w.name(name)?;
            w.name(ty)
        })
    }

    fn field(&mut self, f: &StorageField) -> Written {
        self.named(&f.name, &f.ty)
    }

    fn structure(&mut self, s: &Struct) -> Written {
        self.record(STRUCT, |w| {
            w.name(&s.name)?;
            w.few("fields in one struct", 64, &s.fields, Self::field)
        })
    }

    fn function(&mut self, f: &Function) -> Written {
        self.names = 0;
        self.record(FUNCTION, |w| {
            w.name(&f.name)?;
            w.list(&f.params, |w, p| {
                w.declares()?;
                w.named(&p.name, &p.ty)
            })?;
            w.list(f.return_type.as_slice(), |w, t| w.name(t))?;
            w.record(FLAG, |w| w.raw(&[f.is_pub.into()]))?;
            w.body(&f.body)
        })
    }

    fn body(&mut self, body: &[Stmt]) -> Written {
        self.list(body, Self::stmt)
    }

    fn stmt(&mut self, s: &Stmt) -> Written {
        match s {
            Stmt::Let(x, e) => {
                self.declares()?;
                self.named_exprs(LET, x, &[e])
            }
            Stmt::Constrain(e) => self.record(CONSTRAIN, |w| w.expr(e)),
            Stmt::Assign(x, e) => self.named_exprs(ASSIGN, x, &[e]),
            Stmt::StorageWrite(x, e) => self.named_exprs(STORAGE_WRITE, x, &[e]),
            Stmt::MappingWrite(x, key, value) => self.named_exprs(MAPPING_WRITE, x, &[key, value]),
            Stmt::If(condition, then, otherwise) => self.record(IF, |w| {
                w.expr(condition)?;
                w.body(then)?;
                otherwise.iter().try_for_each(|body| w.body(body))
            }),
            Stmt::While(condition, body) => self.record(WHILE, |w| {
                w.expr(condition)?;
                w.body(body)
            }),
            Stmt::For { var, start, end, body } => {
                self.declares()?;
                self.record(FOR, |w| {
                    w.name(var)?;
                    w.expr(start)?;
                    w.expr(end)?;
                    w.body(body)
                })
            }
            Stmt::Return(value) => self.record(RETURN, |w| value.iter().try_for_each(|e| w.expr(e))),
            Stmt::Emit(x, arguments) => self.record(EMIT, |w| {
                w.name(x)?;
                w.list(arguments, Self::expr)
            }),
            Stmt::Expr(e) => self.record(EXPR, |w| w.expr(e)),
        }
    }

    fn named_exprs(&mut self, kind: u16, x: &str, parts: &[&Expr]) -> Written {
        self.record(kind, |w| {
            w.name(x)?;
            parts.iter().try_for_each(|e| w.expr(e))
        })
    }

    fn expr(&mut self, e: &Expr) -> Written {
        match e {
            Expr::Int(n) => self.record(INT, |w| w.raw(&n.to_le_bytes())),
            Expr::Ident(x) => self.record(IDENT, |w| w.name(x)),
            Expr::StorageRead(x) => self.record(STORAGE_READ, |w| w.name(x)),
            Expr::MappingRead(x, key) => self.named_exprs(MAPPING_READ, x, &[key]),
            Expr::FieldAccess(base, x) => self.record(FIELD_ACCESS, |w| {
                w.expr(base)?;
                w.name(x)
            }),
            Expr::StructLiteral(x, inits) => self.record(STRUCT_LITERAL, |w| {
                w.name(x)?;
                w.few("initial values in one literal", 64, inits, |w, (x, e)| w.named_exprs(INIT, x, &[e]))
            }),
            Expr::Binary(left, op, right) => self.record(BINARY, |w| {
                w.expr(left)?;
                w.record(OP, |w| w.raw(&[op_byte(op)]))?;
                w.expr(right)
            }),
            Expr::Call(f, arguments) => self.record(CALL, |w| {
                w.name(f)?;
                w.few("arguments in one call", 64, arguments, Self::expr)
            }),
        }
    }
}

fn op_byte(op: &BinOp) -> u8 {
    match op {
        BinOp::Add => 0,
        BinOp::Sub => 1,
        BinOp::Mul => 2,
        BinOp::Div => 3,
        BinOp::Eq => 4,
        BinOp::Neq => 5,
        BinOp::Lt => 6,
        BinOp::Gt => 7,
        BinOp::Lte => 8,
        BinOp::Gte => 9,
    }
}
