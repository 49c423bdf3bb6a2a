// The image check, document 01's rows 1 to 7: the first fault in image order.
use crate::image::*;

pub const MOST_BYTES: usize = 65_536;
pub const MOST_DEPTH: u32 = 64;
pub const MOST_STORAGE: u32 = 256;
pub const MOST_STRUCTS: u32 = 64;
pub const MOST_FIELDS: u32 = 64;
pub const MOST_FUNCTIONS: u32 = 256;
pub const MOST_PARTS: u32 = 64;
pub const MOST_NAMES: u32 = 512;
const NO_BOUND: u32 = u32::MAX;

#[derive(Clone, Copy, Debug, PartialEq, Eq)]
pub struct Fault {
    pub number: u32,
    pub place: usize,
}

pub fn check(img: &[u8]) -> Result<(), Fault> {
    if img.len() > MOST_BYTES {
        return fault(1, 0);
    }
    let mut c = Check { img, names: 0 };
    let end = c.contract()?;
    close(end, img.len()).map(|_| ())
}

/// Where a record stands: from `at`, in a parent that ends at `end`, at a depth, first over a bound or not.
#[derive(Clone, Copy)]
struct Due {
    at: usize,
    end: usize,
    depth: u32,
    over: bool,
}

struct Check<'a> {
    img: &'a [u8],
    names: u32,
}

type Then = Result<usize, Fault>;

#[cold]
fn fault<T>(number: u32, place: usize) -> Result<T, Fault> {
    Err(Fault { number, place })
}

// Behind the last part nothing may be left.
#[inline]
fn close(at: usize, end: usize) -> Then {
    if at == end {
        Ok(end)
    } else {
        fault(4, at)
    }
}

const LETTERS: [bool; 256] = letters();

const fn letters() -> [bool; 256] {
    let mut t = [false; 256];
    let mut b = 0;
    while b < 256 {
        let c = b as u8;
        t[b] = c.is_ascii_alphanumeric() || c == b'_' || c == b':';
        b += 1;
    }
    t
}

impl Check<'_> {
    // Length, then depth: the kind and the end of the record that is due.
    #[inline]
    fn open(&self, d: Due) -> Result<(u16, usize), Fault> {
        let left = d.end - d.at;
        if left < 6 {
            return fault(2, d.at);
        }
        let head = &self.img[d.at..d.at + 6];
        let len = u32::from_le_bytes([head[0], head[1], head[2], head[3]]) as usize;
        if len < 2 || len > left - 4 {
            return fault(2, d.at);
        }
        if d.depth > MOST_DEPTH {
            return fault(6, d.at);
        }
        Ok((u16::from_le_bytes([head[4], head[5]]), d.at + 4 + len))
    }

    // A record of one kind, not over its bound: its end.
    #[inline]
    fn only(&self, kind: u16, d: Due) -> Then {
        let (k, end) = self.open(d)?;
        if k != kind {
            return fault(3, d.at);
        }
        if d.over {
            fault(7, d.at)
        } else {
            Ok(end)
        }
    }

    fn name(&self, d: Due) -> Then {
        let end = self.only(NAME, d)?;
        let x = &self.img[d.at + 6..end];
        let sound = !x.is_empty() && x.len() <= 64 && x.iter().all(|&b| LETTERS[b as usize]);
        if sound {
            Ok(end)
        } else {
            fault(5, d.at)
        }
    }

    // Flag and Op: one byte below a limit.
    fn small(&self, kind: u16, limit: u8, d: Due) -> Then {
        let end = self.only(kind, d)?;
        let sound = end == d.at + 7 && self.img[d.at + 6] < limit;
        if sound {
            Ok(end)
        } else {
            fault(5, d.at)
        }
    }

    // A List; the record number `bound` (from 0) is the first over it.
    #[inline]
    fn list(&mut self, d: Due, bound: u32, each: fn(&mut Self, Due) -> Then) -> Then {
        let end = self.only(LIST, d)?;
        let (mut at, mut n) = (d.at + 6, 0);
        while at < end {
            at = each(self, Due { at, end, depth: d.depth + 1, over: n >= bound })?;
            n += 1;
        }
        Ok(end)
    }

    fn contract(&mut self) -> Then {
        let d = Due { at: 0, end: self.img.len(), depth: 1, over: false };
        let end = self.only(CONTRACT, d)?;
        let part = |at| Due { at, end, depth: 2, over: false };
        let at = self.name(part(6))?;
        let at = self.list(part(at), MOST_STORAGE, Self::field)?;
        let at = self.list(part(at), MOST_STRUCTS, Self::structure)?;
        let at = self.list(part(at), MOST_FUNCTIONS, Self::function)?;
        close(at, end)
    }

    fn field(&mut self, d: Due) -> Then {
        let end = self.only(FIELD, d)?;
        let part = |at| Due { at, end, depth: d.depth + 1, over: false };
        let at = self.name(part(d.at + 6))?;
        close(self.name(part(at))?, end)
    }

    fn structure(&mut self, d: Due) -> Then {
        let end = self.only(STRUCT, d)?;
        let part = |at| Due { at, end, depth: d.depth + 1, over: false };
        let at = self.name(part(d.at + 6))?;
        close(self.list(part(at), MOST_FIELDS, Self::field)?, end)
    }

    fn function(&mut self, d: Due) -> Then {
        let end = self.only(FUNCTION, d)?;
        self.names = 0;
        let part = |at| Due { at, end, depth: d.depth + 1, over: false };
        let at = self.name(part(d.at + 6))?;
        let at = self.list(part(at), MOST_NAMES, Self::param)?;
        let at = self.list(part(at), 1, |c, d| c.name(d))?;
        let at = self.small(FLAG, 2, part(at))?;
        close(self.list(part(at), NO_BOUND, Self::stmt)?, end)
    }

    fn param(&mut self, d: Due) -> Then {
        self.names += 1;
        self.field(d)
    }

    fn stmt(&mut self, d: Due) -> Then {
        let (kind, end) = self.open(d)?;
        if kind == LET || kind == FOR {
            self.declare(d.at)?;
        }
        let first = Due { at: d.at + 6, end, depth: d.depth + 1, over: false };
        let at = match kind {
            LET | ASSIGN | STORAGE_WRITE => self.named(first)?,
            CONSTRAIN | EXPR => self.expr(first)?,
            MAPPING_WRITE => {
                let at = self.named(first)?;
                self.expr(Due { at, ..first })?
            }
            IF => {
                let at = self.guarded(first)?;
                if at < end {
                    self.list(Due { at, ..first }, NO_BOUND, Self::stmt)?
                } else {
                    at
                }
            }
            WHILE => self.guarded(first)?,
            FOR => {
                let at = self.named(first)?;
                self.guarded(Due { at, ..first })?
            }
            RETURN if first.at == end => end,
            RETURN => self.expr(first)?,
            EMIT => {
                let at = self.name(first)?;
                self.list(Due { at, ..first }, NO_BOUND, Self::expr)?
            }
            _ => return fault(3, d.at),
        };
        close(at, end)
    }

    // A Name, then an expression.
    fn named(&mut self, d: Due) -> Then {
        let at = self.name(d)?;
        self.expr(Due { at, ..d })
    }

    // An expression, then a List of statements.
    fn guarded(&mut self, d: Due) -> Then {
        let at = self.expr(d)?;
        self.list(Due { at, ..d }, NO_BOUND, Self::stmt)
    }

    // A Let or a For is one of the function's 512 names.
    fn declare(&mut self, at: usize) -> Result<(), Fault> {
        self.names += 1;
        if self.names > MOST_NAMES {
            fault(7, at)
        } else {
            Ok(())
        }
    }

    fn init(&mut self, d: Due) -> Then {
        let end = self.only(INIT, d)?;
        close(self.named(Due { at: d.at + 6, end, depth: d.depth + 1, over: false })?, end)
    }

    fn expr(&mut self, d: Due) -> Then {
        let (kind, end) = self.open(d)?;
        if !(INT..=CALL).contains(&kind) {
            return fault(3, d.at);
        }
        if d.over {
            return fault(7, d.at);
        }
        let first = Due { at: d.at + 6, end, depth: d.depth + 1, over: false };
        let at = match kind {
            INT => return if end == d.at + 14 { Ok(end) } else { fault(5, d.at) },
            IDENT | STORAGE_READ => self.name(first)?,
            MAPPING_READ => self.named(first)?,
            FIELD_ACCESS => {
                let at = self.expr(first)?;
                self.name(Due { at, ..first })?
            }
            STRUCT_LITERAL => {
                let at = self.name(first)?;
                self.list(Due { at, ..first }, MOST_PARTS, Self::init)?
            }
            BINARY => {
                let at = self.expr(first)?;
                let at = self.small(OP, 10, Due { at, ..first })?;
                self.expr(Due { at, ..first })?
            }
            _ => {
                let at = self.name(first)?;
                self.list(Due { at, ..first }, MOST_PARTS, Self::expr)?
            }
        };
        close(at, end)
    }
}
