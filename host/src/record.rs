//! What stands at a place of an image. Any bytes and any place will do.

use crate::image::*;
use std::str;

/// A record of an image: its kind, and the function that it belongs to.
#[derive(Debug, Clone, Copy, PartialEq, Eq, Hash)]
#[non_exhaustive]
pub struct Record<'a> {
    /// Its kind, by the name that document 01 or the tree has for it: `Contract`, `Function`, `If`, `Binary` ..
    pub kind: &'static str,
    /// The name of the function that it is or lies in, if any.
    pub function: Option<&'a str>,
}

/// The record that stands at a place of an image; none where none starts there.
///
/// ```
/// # use haspnettle::ast::{Contract, Expr, Function, Stmt};
/// # let body = vec![Stmt::Constrain(Expr::Int(1))];
/// # let main = Function { name: "main".into(), params: vec![], return_type: None, body, is_pub: false };
/// # let contract = Contract { name: "c".into(), storage: vec![], structs: vec![], functions: vec![main] };
/// let image = haspnettle::image(&contract).unwrap();
/// let at = |place| haspnettle::record(&image, place).map(|r| (r.kind, r.function));
/// assert_eq!(at(0), Some(("Contract", None)));
/// assert_eq!(at(31), Some(("Function", Some("main"))));
/// assert_eq!(at(72), Some(("Constrain", Some("main"))));
/// assert_eq!(at(73), None);
/// ```
pub fn record(image: &[u8], place: u32) -> Option<Record<'_>> {
    // Records one behind the other, and how far before the place the first of them starts.
    let (mut rest, mut ahead, mut function) = (image, place as usize, None);
    loop {
        let (kind, payload, behind) = split(rest)?;
        let length = HEADER + payload.len();
        if length <= ahead {
            (rest, ahead) = (behind, ahead - length);
            continue;
        }
        if kind == FUNCTION {
            function = split(payload).and_then(|(_, name, _)| str::from_utf8(name).ok());
        }
        if ahead == 0 {
            return Some(Record { kind: named(kind)?, function });
        }
        if matches!(kind, NAME | FLAG | OP | INT) {
            return None;
        }
        (rest, ahead) = (payload, ahead.checked_sub(HEADER)?);
    }
}

// A length of 4 bytes, which counts kind and payload, and a kind of 2.
const HEADER: usize = 6;

// The first record's kind and payload, and what stands behind it.
fn split(bytes: &[u8]) -> Option<(u16, &[u8], &[u8])> {
    let (length, rest) = bytes.split_first_chunk()?;
    let length = u32::from_le_bytes(*length) as usize;
    let (kind, payload) = rest.get(..length)?.split_first_chunk()?;
    Some((u16::from_le_bytes(*kind), payload, rest.get(length..)?))
}

fn named(kind: u16) -> Option<&'static str> {
    Some(match kind {
        NAME => "Name",
        LIST => "List",
        FLAG => "Flag",
        OP => "Op",
        CONTRACT => "Contract",
        FIELD => "Field",
        STRUCT => "Struct",
        FUNCTION => "Function",
        INIT => "Init",
        LET => "Let",
        CONSTRAIN => "Constrain",
        ASSIGN => "Assign",
        STORAGE_WRITE => "StorageWrite",
        MAPPING_WRITE => "MappingWrite",
        IF => "If",
        WHILE => "While",
        FOR => "For",
        RETURN => "Return",
        EMIT => "Emit",
        EXPR => "Expr",
        INT => "Int",
        IDENT => "Ident",
        STORAGE_READ => "StorageRead",
        MAPPING_READ => "MappingRead",
        FIELD_ACCESS => "FieldAccess",
        STRUCT_LITERAL => "StructLiteral",
        BINARY => "Binary",
        CALL => "Call",
        _ => return None,
    })
}
