// Each word's record and target told another way (document 02, P5): the Rust's own words, read from the last to the first along the records.
use crate::analysis::name_of;
use crate::generation::Mark;
use crate::image::*;
use crate::{Instruction, Opcode, Opcode::*};

/// What a record's translation consists of, in the order of 000: words of its own, and other records with theirs.
#[derive(Clone, Copy)]
enum Piece {
    Own(Opcode),
    Of(Rec),
}
use Piece::*;

/// The marks of all words; what is wrong where the words are not those of the records.
pub fn read(img: &[u8], words: &[u64]) -> Result<Vec<Mark>, String> {
    let mut back = Back { img, left: words, found: vec![] };
    back.record(rec_at(img, 0))?;
    if !back.left.is_empty() {
        return Err(format!("{} words stand before the Contract's first", back.left.len()));
    }
    back.found.reverse();
    Ok(back.found)
}

// The words that are not read yet, and the marks of the others, from the last.
struct Back<'a> {
    img: &'a [u8],
    left: &'a [u64],
    found: Vec<Mark>,
}

impl Back<'_> {
    fn record(&mut self, r: Rec) -> Result<(), String> {
        for piece in self.pieces(r).into_iter().rev() {
            match piece {
                Of(part) => self.record(part)?,
                Own(due) => self.word(r, due)?,
            }
        }
        Ok(())
    }

    // The record's own word, as the Rust reads it. Each Jnz and each Call was patched, and each Jmp but a loop's back.
    fn word(&mut self, r: Rec, due: Opcode) -> Result<(), String> {
        let (&word, before) = self.left.split_last().ok_or("the words end too soon")?;
        let read = Instruction::decode_any(word).map_err(|e| e.to_string())?;
        if read.opcode != due {
            return Err(format!("word {} is a {:?}, the record at {} has a {due:?} there", before.len(), read.opcode, r.at));
        }
        let patched = matches!(due, Jnz | Call) || due == Jmp && read.imm > 0;
        let target = patched.then(|| (before.len() as i64 + read.imm as i64) as usize);
        self.found.push(Mark { place: r.at, target });
        self.left = before;
        Ok(())
    }

    fn pieces(&self, r: Rec) -> Vec<Piece> {
        let all = |n| self.each(r.part(self.img, n));
        match r.kind {
            CONTRACT => [own(&[Load, Call, Halt]), all(3)].concat(),
            FUNCTION => {
                let params = all(1).len();
                [own(&vec![Pop; 1 + params]), own(&[Push]), all(4), own(&[Pop, Load, Push, Push, Ret])].concat()
            }
            LET..=EXPR => self.statement(r),
            _ => self.expression(r),
        }
    }

    fn each(&self, list: Rec) -> Vec<Piece> {
        list.parts(self.img).map(Of).collect()
    }

    fn statement(&self, r: Rec) -> Vec<Piece> {
        let one = |n| vec![Of(r.part(self.img, n))];
        let all = |n| self.each(r.part(self.img, n));
        let last = r.parts(self.img).last();
        match r.kind {
            LET => one(1),
            CONSTRAIN => [one(0), own(&[Assert])].concat(),
            ASSIGN => [one(1), own(&[Add])].concat(),
            STORAGE_WRITE => [one(1), own(&[SWrite])].concat(),
            MAPPING_WRITE => [one(1), one(2), own(&[Load, Poseidon, SWrite])].concat(),
            IF => {
                let other = r.parts(self.img).nth(2).map_or(vec![], |list| self.each(list));
                [one(0), own(&[Jnz]), other, own(&[Jmp]), all(1)].concat()
            }
            WHILE => [one(0), own(&[Jnz, Jmp]), all(1), own(&[Jmp])].concat(),
            FOR => [one(1), one(2), own(&[Add, Lt, Jnz, Jmp]), all(3), own(&[Load, Add, Jmp])].concat(),
            RETURN => vec![Own(Pop), last.map_or(Own(Load), Of), Own(Push), Own(Push), Own(Ret)],
            EMIT => all(1).into_iter().flat_map(|argument| [argument, Own(Log)]).collect(),
            _ => one(0),
        }
    }

    fn expression(&self, r: Rec) -> Vec<Piece> {
        let one = |n| vec![Of(r.part(self.img, n))];
        match r.kind {
            INT => int(u64::from_le_bytes(r.bytes(self.img).try_into().unwrap())),
            IDENT => vec![],
            STORAGE_READ => own(&[SRead]),
            MAPPING_READ => [one(1), own(&[Load, Poseidon, SRead])].concat(),
            FIELD_ACCESS => [one(0), own(&[Load])].concat(),
            STRUCT_LITERAL => {
                let inits: Vec<Piece> = r.part(self.img, 1).parts(self.img).map(|i| Of(i.part(self.img, 1))).collect();
                let stores = own(&vec![Store; inits.len()]);
                [own(&[Add]), inits, stores, own(&[Load, Add, Add])].concat()
            }
            BINARY => {
                let ops = [Add, Sub, Mul, Div, Eq, Neq, Lt, Gt, Lte, Gte];
                [one(0), one(2), own(&[ops[r.part(self.img, 1).bytes(self.img)[0] as usize]])].concat()
            }
            _ => self.call(r),
        }
    }

    // What a call of a function takes back at its end is its result, and one register for each that it saved.
    fn call(&self, r: Rec) -> Vec<Piece> {
        let arguments = self.each(r.part(self.img, 1));
        let builtin = match name_of(self.img, &r) {
            b"poseidon" => Poseidon,
            b"verify_merkle_proof" => VerifyMerkle,
            b"msg::sender" | b"msg::nonce" | b"block::number" => Syscall,
            _ => {
                let pops = self.left.iter().rev().take_while(|w| **w as u8 == Pop as u8).count();
                let saves = own(&vec![Push; pops.saturating_sub(1)]);
                let pushes = own(&vec![Push; arguments.len()]);
                return [saves, arguments, pushes, own(&[Call]), own(&vec![Pop; pops])].concat();
            }
        };
        [arguments, own(&[builtin])].concat()
    }
}

fn own(ops: &[Opcode]) -> Vec<Piece> {
    ops.iter().map(|op| Own(*op)).collect()
}

// A number of 2^31 or more goes in digits of 30 bits, the first that is not 0 in front.
fn int(v: u64) -> Vec<Piece> {
    if v < 1 << 31 {
        return own(&[Load]);
    }
    let mut ops = vec![Load, Load];
    for shift in if v >> 60 > 0 { &[30, 0][..] } else { &[0] } {
        ops.push(Mul);
        if v >> shift & 0x3FFF_FFFF > 0 {
            ops.extend([Load, Add]);
        }
    }
    own(&ops)
}
