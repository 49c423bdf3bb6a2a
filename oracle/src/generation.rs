// The generation of 000, read on the image itself, so that each error and each word has its place.
use crate::analysis::{builtin_arity, last, lists, name_of, text, Bases, Lists};
use crate::image::*;
use crate::model::Refusal;

// 003: the opcode numbers that 000 uses.
const HALT: u8 = 0x00;
const ADD: u8 = 0x01;
const MUL: u8 = 0x03;
const LT: u8 = 0x0C;
const JMP: u8 = 0x10;
const JNZ: u8 = 0x11;
const CALLS: u8 = 0x12;
const RET: u8 = 0x13;
const LOAD: u8 = 0x14;
const STORE: u8 = 0x15;
const PUSH: u8 = 0x16;
const POP: u8 = 0x17;
const ASSERT: u8 = 0x18;
const POSEIDON: u8 = 0x19;
const LOG: u8 = 0x1A;
const SREAD: u8 = 0x1B;
const SWRITE: u8 = 0x1C;
const SYSCALL: u8 = 0x1D;
const VERIFY: u8 = 0x1E;
// 000: BinOp's opcodes, in 002's order.
const BINARIES: [u8; 10] = [0x01, 0x02, 0x03, 0x04, 0x0A, 0x0B, 0x0C, 0x0D, 0x0E, 0x0F];
const HEAP: u8 = 31;

/// A finished program: its words with their marks, an entry for each function, the words whose offset two structs tell differently.
#[derive(Debug, PartialEq, Eq)]
pub struct Program {
    pub words: Vec<u64>,
    pub marks: Vec<Mark>,
    pub table: Vec<[u64; 3]>,
    pub undecided: Vec<usize>,
}

/// The record whose own translation emitted a word; and where it was patched, the index of the word that its offset leads to.
#[derive(Debug, PartialEq, Eq)]
pub struct Mark {
    pub place: usize,
    pub target: Option<usize>,
}

struct Gen<'a> {
    img: &'a [u8],
    bases: &'a Bases,
    lists: Lists,
    words: Vec<u64>,
    marks: Vec<Mark>,
    // The place of the record that is translated: what is emitted and asked for is its own.
    by: usize,
    next: u8,
    scope: Vec<(&'a [u8], u8)>,
    calls: Vec<(usize, &'a [u8])>,
    undecided: Vec<usize>,
}

type Done = Result<(), Refusal>;
type InReg = Result<u8, Refusal>;

fn bad<T>(number: u32, place: usize, text: String) -> Result<T, Refusal> {
    Err(Refusal { number, place, text: format!("CodegenError: {text}") })
}

/// The word of document 01.
pub fn word(op: u8, rd: u8, rs1: u8, rs2: u8, imm: i64) -> u64 {
    op as u64 | (rd as u64) << 8 | (rs1 as u64) << 13 | (rs2 as u64) << 18 | (imm as u32 as u64) << 23
}

/// 000: generate, over a sound image that analysis accepts. 40 beats everything.
pub fn generate(img: &[u8], bases: &Bases) -> Result<Program, Refusal> {
    let (lists, words, marks) = (lists(img), vec![], vec![]);
    let mut g = Gen { img, bases, lists, words, marks, by: 0, next: 1, scope: vec![], calls: vec![], undecided: vec![] };
    if last(img, &g.lists.functions, b"main").is_none() {
        return bad(40, 0, "main function not found".into());
    }
    g.emit(LOAD, HEAP, 0, 0, 4096);
    g.calls.push((1, b"main"));
    g.emit(CALLS, 0, 0, 0, 0);
    g.emit(HALT, 0, 0, 0, 0);
    let mut table = Vec::new();
    for i in 0..g.lists.functions.len() {
        let f = g.lists.functions[i];
        let params = f.part(img, 1).parts(img).count();
        table.push([f.at as u64, g.words.len() as u64, params as u64]);
        g.within(f, |g| g.function(f, params))?;
    }
    g.link(&table);
    Ok(Program { words: g.words, marks: g.marks, table, undecided: g.undecided })
}

impl<'a> Gen<'a> {
    fn emit(&mut self, op: u8, rd: u8, rs1: u8, rs2: u8, imm: i64) {
        self.words.push(word(op, rd, rs1, rs2, imm));
        self.marks.push(Mark { place: self.by, target: None });
    }

    // The translation of a record, inside another's.
    fn within<T>(&mut self, r: Rec, translate: impl FnOnce(&mut Self) -> T) -> T {
        let outer = std::mem::replace(&mut self.by, r.at);
        let done = translate(self);
        self.by = outer;
        done
    }

    fn here(&self) -> usize {
        self.words.len()
    }

    // Offsets are target less own index.
    fn patch(&mut self, at: usize, target: usize) {
        self.words[at] |= (target as i64 - at as i64) as u32 as u64 * (1 << 23);
        self.marks[at].target = Some(target);
    }

    // Calls go to the last function of the name.
    fn link(&mut self, table: &[[u64; 3]]) {
        for (at, x) in std::mem::take(&mut self.calls) {
            let target = self.lists.functions.iter().rposition(|f| name_of(self.img, f) == x);
            self.patch(at, table[target.expect("analysis found the function")][1] as usize);
        }
    }

    // 000: alloc_reg.
    fn alloc(&mut self) -> InReg {
        if self.next >= HEAP {
            return Err(Refusal { number: 41, place: self.by, text: "RegisterExhausted".into() });
        }
        self.next += 1;
        Ok(self.next - 1)
    }

    fn slot(&self, x: &[u8]) -> Option<i64> {
        self.lists.storage.iter().rposition(|f| name_of(self.img, f) == x).map(|i| i as i64)
    }

    fn look(&self, x: &[u8]) -> Option<u8> {
        self.scope.iter().rev().find(|(y, _)| *y == x).map(|e| e.1)
    }

    fn function(&mut self, f: Rec, params: usize) -> Done {
        self.next = 1;
        self.scope.clear();
        let back = self.alloc()?;
        self.emit(POP, back, 0, 0, 0);
        for p in f.part(self.img, 1).parts(self.img) {
            let reg = self.alloc()?;
            self.scope.push((name_of(self.img, &p), reg));
        }
        (0..params).rev().for_each(|i| self.emit(POP, 2 + i as u8, 0, 0, 0));
        self.emit(PUSH, 0, back, 0, 0);
        self.stmts(f.part(self.img, 4))?;
        let back = self.alloc()?;
        self.emit(POP, back, 0, 0, 0);
        let zero = self.alloc()?;
        self.zero_and_ret(zero, back);
        Ok(())
    }

    fn zero_and_ret(&mut self, zero: u8, back: u8) {
        self.emit(LOAD, zero, 0, 0, 0);
        self.emit(PUSH, 0, zero, 0, 0);
        self.emit(PUSH, 0, back, 0, 0);
        self.emit(RET, 0, 0, 0, 0);
    }

    fn stmts(&mut self, list: Rec) -> Done {
        list.parts(self.img).try_for_each(|s| self.within(s, |g| g.stmt(s)))
    }

    fn stmt(&mut self, s: Rec) -> Done {
        let (img, saved) = (self.img, self.next);
        match s.kind {
            LET => {
                let reg = self.expr(s.part(img, 1))?;
                self.scope.push((name_of(img, &s), reg));
                self.next = if reg >= saved { reg + 1 } else { saved };
                return Ok(());
            }
            IF => return self.branch(s),
            WHILE => return self.loops(s),
            CONSTRAIN => {
                let reg = self.expr(s.part(img, 0))?;
                self.emit(ASSERT, 0, reg, 0, 0);
            }
            ASSIGN => self.assign(s)?,
            STORAGE_WRITE => self.storage_write(s)?,
            MAPPING_WRITE => self.mapping_write(s)?,
            FOR => self.counts(s)?,
            RETURN => self.ret(s)?,
            EMIT => {
                for a in s.part(img, 1).parts(img) {
                    let reg = self.expr(a)?;
                    self.emit(LOG, 0, reg, 0, 0);
                }
            }
            _ => _ = self.expr(s.part(img, 0))?,
        }
        self.next = saved;
        Ok(())
    }

    fn assign(&mut self, s: Rec) -> Done {
        let reg = self.expr(s.part(self.img, 1))?;
        let x = name_of(self.img, &s);
        match self.look(x) {
            Some(target) => self.emit(ADD, target, reg, 0, 0),
            None => return bad(43, s.at, format!("Undefined variable: {}", text(x))),
        }
        Ok(())
    }

    fn storage_write(&mut self, s: Rec) -> Done {
        let reg = self.expr(s.part(self.img, 1))?;
        let x = name_of(self.img, &s);
        match self.slot(x) {
            Some(slot) => self.emit(SWRITE, 0, reg, 0, slot),
            None => return bad(44, s.at, format!("Unknown storage variable: {}", text(x))),
        }
        Ok(())
    }

    fn mapping_write(&mut self, s: Rec) -> Done {
        let x = name_of(self.img, &s);
        let Some(slot) = self.slot(x) else {
            return bad(45, s.at, format!("Unknown mapping variable: {}", text(x)));
        };
        let key = self.expr(s.part(self.img, 1))?;
        let val = self.expr(s.part(self.img, 2))?;
        let target = self.mapped(slot, key)?;
        self.emit(SWRITE, 0, val, target, -1);
        Ok(())
    }

    // The slot of a mapping's key, in a register.
    fn mapped(&mut self, slot: i64, key: u8) -> InReg {
        let base = self.alloc()?;
        self.emit(LOAD, base, 0, 0, slot);
        let target = self.alloc()?;
        self.emit(POSEIDON, target, base, key, 0);
        Ok(target)
    }

    fn branch(&mut self, s: Rec) -> Done {
        let saved = self.next;
        let cond = self.expr(s.part(self.img, 0))?;
        let to_then = self.here();
        self.emit(JNZ, 0, cond, 0, 0);
        self.next = saved;
        if let Some(other) = s.parts(self.img).nth(2) {
            self.stmts(other)?;
        }
        let to_end = self.here();
        self.emit(JMP, 0, 0, 0, 0);
        self.patch(to_then, self.here());
        self.stmts(s.part(self.img, 1))?;
        self.patch(to_end, self.here());
        Ok(())
    }

    fn loops(&mut self, s: Rec) -> Done {
        let (saved, start) = (self.next, self.here());
        let cond = self.expr(s.part(self.img, 0))?;
        let to_end = self.turn(cond, saved);
        self.stmts(s.part(self.img, 1))?;
        self.jump_back(start);
        self.patch(to_end, self.here());
        Ok(())
    }

    // Into a loop's body or past it; the Jmp past it, which is patched when the end is known.
    fn turn(&mut self, cond: u8, next: u8) -> usize {
        let to_body = self.here();
        self.emit(JNZ, 0, cond, 0, 0);
        self.next = next;
        let to_end = self.here();
        self.emit(JMP, 0, 0, 0, 0);
        self.patch(to_body, self.here());
        to_end
    }

    fn jump_back(&mut self, start: usize) {
        let distance = start as i64 - self.here() as i64;
        self.emit(JMP, 0, 0, 0, distance);
    }

    fn counts(&mut self, s: Rec) -> Done {
        let from = self.expr(s.part(self.img, 1))?;
        let to = self.expr(s.part(self.img, 2))?;
        let var = self.alloc()?;
        self.emit(ADD, var, from, 0, 0);
        let (mark, start) = (self.scope.len(), self.here());
        self.scope.push((name_of(self.img, &s), var));
        let cond = self.alloc()?;
        self.emit(LT, cond, var, to, 0);
        let to_end = self.turn(cond, var + 1);
        self.stmts(s.part(self.img, 3))?;
        let one = self.alloc()?;
        self.emit(LOAD, one, 0, 0, 1);
        self.emit(ADD, var, var, one, 0);
        self.jump_back(start);
        self.patch(to_end, self.here());
        self.scope.truncate(mark);
        Ok(())
    }

    fn ret(&mut self, s: Rec) -> Done {
        let back = self.alloc()?;
        self.emit(POP, back, 0, 0, 0);
        let Some(e) = s.parts(self.img).next() else {
            let zero = self.alloc()?;
            self.zero_and_ret(zero, back);
            return Ok(());
        };
        let reg = self.expr(e)?;
        self.emit(PUSH, 0, reg, 0, 0);
        self.emit(PUSH, 0, back, 0, 0);
        self.emit(RET, 0, 0, 0, 0);
        Ok(())
    }

    fn expr(&mut self, e: Rec) -> InReg {
        self.within(e, |g| g.value(e))
    }

    fn value(&mut self, e: Rec) -> InReg {
        let img = self.img;
        match e.kind {
            INT => self.int(e),
            IDENT => {
                let x = name_of(img, &e);
                self.look(x).map_or_else(|| bad(42, e.at, format!("Undefined variable in codegen: {}", text(x))), Ok)
            }
            STORAGE_READ => self.storage_read(e),
            MAPPING_READ => self.mapping_read(e),
            FIELD_ACCESS => self.access(e),
            STRUCT_LITERAL => self.literal(e),
            BINARY => self.pair(e.part(img, 0), e.part(img, 2), BINARIES[e.part(img, 1).bytes(img)[0] as usize]),
            _ => self.call(e),
        }
    }

    fn int(&mut self, e: Rec) -> InReg {
        let v = u64::from_le_bytes(e.bytes(self.img).try_into().unwrap());
        let reg = self.alloc()?;
        if v < 1 << 31 {
            self.emit(LOAD, reg, 0, 0, v as i64);
            return Ok(reg);
        }
        let shift = self.alloc()?;
        self.emit(LOAD, shift, 0, 0, 1 << 30);
        let temp = self.alloc()?;
        let chunks = [v >> 60, v >> 30 & 0x3FFF_FFFF, v & 0x3FFF_FFFF];
        let first = chunks.iter().position(|c| *c > 0).expect("a number above 2^31");
        self.emit(LOAD, reg, 0, 0, chunks[first] as i64);
        for &c in &chunks[first + 1..] {
            self.emit(MUL, reg, reg, shift, 0);
            if c > 0 {
                self.emit(LOAD, temp, 0, 0, c as i64);
                self.emit(ADD, reg, reg, temp, 0);
            }
        }
        Ok(reg)
    }

    fn storage_read(&mut self, e: Rec) -> InReg {
        let reg = self.alloc()?;
        let x = name_of(self.img, &e);
        match self.slot(x) {
            Some(slot) => self.emit(SREAD, reg, 0, 0, slot),
            None => return bad(46, e.at, format!("Unknown storage variable in codegen: {}", text(x))),
        }
        Ok(reg)
    }

    fn mapping_read(&mut self, e: Rec) -> InReg {
        let x = name_of(self.img, &e);
        let Some(slot) = self.slot(x) else {
            return bad(47, e.at, format!("Unknown mapping in codegen: {}", text(x)));
        };
        let key = self.expr(e.part(self.img, 1))?;
        let target = self.mapped(slot, key)?;
        let reg = self.alloc()?;
        self.emit(SREAD, reg, 0, target, -1);
        Ok(reg)
    }

    fn access(&mut self, e: Rec) -> InReg {
        let base = self.expr(e.part(self.img, 0))?;
        let reg = self.alloc()?;
        let found = positions(self.img, &self.lists.structs, self.bases, e);
        if found.len() > 1 {
            self.undecided.push(self.here());
        }
        self.emit(LOAD, reg, base, 0, found.first().map_or(0, |p| p * 8) as i64);
        Ok(reg)
    }

    fn literal(&mut self, e: Rec) -> InReg {
        let saved = self.next;
        let ptr = self.alloc()?;
        self.emit(ADD, ptr, HEAP, 0, 0);
        let mut vals = Vec::new();
        for i in e.part(self.img, 1).parts(self.img) {
            vals.push(self.expr(i.part(self.img, 1))?);
        }
        for (i, val) in vals.iter().enumerate() {
            self.emit(STORE, 0, ptr, *val, i as i64 * 8);
        }
        let size = self.alloc()?;
        self.emit(LOAD, size, 0, 0, vals.len() as i64 * 8);
        self.emit(ADD, HEAP, HEAP, size, 0);
        self.next = saved;
        let reg = self.alloc()?;
        self.emit(ADD, reg, ptr, 0, 0);
        Ok(reg)
    }

    // Binary and poseidon: the answer goes to the first register that was made for it.
    fn pair(&mut self, left: Rec, right: Rec, op: u8) -> InReg {
        let saved1 = self.next;
        let l = self.expr(left)?;
        let saved2 = self.next;
        let r = self.expr(right)?;
        let reg = match (l >= saved1, r >= saved2) {
            (true, _) => l,
            (false, true) => r,
            (false, false) => self.alloc()?,
        };
        self.emit(op, reg, l, r, 0);
        self.next = saved1.max(reg + 1);
        Ok(reg)
    }

    fn call(&mut self, e: Rec) -> InReg {
        let name = name_of(self.img, &e);
        let args: Vec<Rec> = e.part(self.img, 1).parts(self.img).collect();
        if builtin_arity(name).is_none() {
            return self.call_function(name, &args);
        }
        match name {
            b"poseidon" => return self.pair(args[0], args[1], POSEIDON),
            b"verify_merkle_proof" => {
                let (root, leaf, path) = (self.expr(args[0])?, self.expr(args[1])?, self.expr(args[2])?);
                let reg = self.alloc()?;
                self.emit(VERIFY, reg, root, leaf, path as i64);
                return Ok(reg);
            }
            _ => {}
        }
        let what = match name {
            b"msg::sender" => 1,
            b"block::number" => 2,
            _ => 3,
        };
        let reg = self.alloc()?;
        self.emit(SYSCALL, reg, 0, 0, what);
        Ok(reg)
    }

    fn call_function(&mut self, name: &'a [u8], args: &[Rec]) -> InReg {
        let saved = self.next;
        (1..saved).for_each(|r| self.emit(PUSH, 0, r, 0, 0));
        let mut regs = Vec::new();
        for a in args {
            regs.push(self.expr(*a)?);
        }
        regs.iter().for_each(|r| self.emit(PUSH, 0, *r, 0, 0));
        self.calls.push((self.here(), name));
        self.emit(CALLS, 0, 0, 0, 0);
        self.next = saved;
        let reg = self.alloc()?;
        self.emit(POP, reg, 0, 0, 0);
        (1..saved).rev().for_each(|r| self.emit(POP, r, 0, 0, 0));
        Ok(reg)
    }
}

/// The first positions of an access's field: in its base's struct if that is declared, else in all that are the last of their names, each once.
pub fn positions(img: &[u8], structs: &[Rec], bases: &Bases, e: Rec) -> Vec<usize> {
    let x = e.part(img, 1).bytes(img);
    let first = |s: &Rec| s.part(img, 1).parts(img).position(|f| name_of(img, &f) == x);
    if let Some(s) = bases.get(&e.at) {
        return first(s).into_iter().collect();
    }
    let mut found = Vec::new();
    for (i, s) in structs.iter().enumerate() {
        let name = name_of(img, s);
        if structs[i + 1..].iter().any(|t| name_of(img, t) == name) {
            continue;
        }
        match first(s) {
            Some(p) if !found.contains(&p) => found.push(p),
            _ => {}
        }
    }
    found
}
