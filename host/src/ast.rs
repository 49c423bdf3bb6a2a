//! The tree of a contract, as the compiler's parser makes it.

/// A contract: what one image holds.
#[derive(Debug, Clone, PartialEq, Eq)]
pub struct Contract {
    /// Its name.
    pub name: String,
    /// The fields of its storage, a slot each.
    pub storage: Vec<StorageField>,
    /// Its structs; a later one replaces an earlier one of its name.
    pub structs: Vec<Struct>,
    /// Its functions; calls go to the last of a name, and the program starts at `main`.
    pub functions: Vec<Function>,
}

/// A field of the storage, or of a struct.
#[derive(Debug, Clone, PartialEq, Eq)]
pub struct StorageField {
    /// Its name.
    pub name: String,
    /// Its type: `u64`, `bool`, `field`, or a struct's name.
    pub ty: String,
}

/// A struct.
#[derive(Debug, Clone, PartialEq, Eq)]
pub struct Struct {
    /// Its name.
    pub name: String,
    /// Its fields, 8 bytes each, in this order.
    pub fields: Vec<StorageField>,
}

/// A function.
#[derive(Debug, Clone, PartialEq, Eq)]
pub struct Function {
    /// Its name.
    pub name: String,
    /// Its parameters.
    pub params: Vec<Param>,
    /// The type that it returns, if it returns a value.
    pub return_type: Option<String>,
    /// Its statements.
    pub body: Vec<Stmt>,
    /// Whether it is public; no word depends on it.
    pub is_pub: bool,
}

/// A parameter of a function.
#[derive(Debug, Clone, PartialEq, Eq)]
pub struct Param {
    /// Its name.
    pub name: String,
    /// Its type: `u64`, `bool`, `field`, or a struct's name.
    pub ty: String,
}

/// A statement.
#[derive(Debug, Clone, PartialEq, Eq)]
pub enum Stmt {
    /// `let name = value`.
    Let(String, Expr),
    /// `constrain value`.
    Constrain(Expr),
    /// `name = value`.
    Assign(String, Expr),
    /// The storage field of this name is written.
    StorageWrite(String, Expr),
    /// The mapping of this name is written: its key, then the value.
    MappingWrite(String, Expr, Expr),
    /// `if condition { .. } else { .. }`.
    If(Expr, Vec<Stmt>, Option<Vec<Stmt>>),
    /// `while condition { .. }`.
    While(Expr, Vec<Stmt>),
    /// `for var in start..end { .. }`.
    For {
        /// The variable.
        var: String,
        /// Its first value.
        start: Expr,
        /// The value at which it ends.
        end: Expr,
        /// What is done at each turn.
        body: Vec<Stmt>,
    },
    /// `return`, with or without a value.
    Return(Option<Expr>),
    /// An event of this name, with its arguments.
    Emit(String, Vec<Expr>),
    /// An expression whose value is dropped.
    Expr(Expr),
}

/// An expression.
#[derive(Debug, Clone, PartialEq, Eq)]
pub enum Expr {
    /// A number.
    Int(u64),
    /// A parameter or variable.
    Ident(String),
    /// The storage field of this name.
    StorageRead(String),
    /// The mapping of this name, at a key.
    MappingRead(String, Box<Expr>),
    /// `base.field`.
    FieldAccess(Box<Expr>, String),
    /// `Struct { field: value, .. }`.
    StructLiteral(String, Vec<(String, Expr)>),
    /// `left op right`.
    Binary(Box<Expr>, BinOp, Box<Expr>),
    /// `function(argument, ..)`.
    Call(String, Vec<Expr>),
}

/// The operator of a [`Expr::Binary`].
#[derive(Debug, Clone, Copy, PartialEq, Eq)]
pub enum BinOp {
    /// `+`
    Add,
    /// `-`
    Sub,
    /// `*`
    Mul,
    /// `/`
    Div,
    /// `==`
    Eq,
    /// `!=`
    Neq,
    /// `<`
    Lt,
    /// `>`
    Gt,
    /// `<=`
    Lte,
    /// `>=`
    Gte,
}
