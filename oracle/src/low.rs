// What a program tells of each low byte (document 02, P7) against the fields that the Rust's own words set, over many seeds.
use crate::ask::ask;
use crate::{bounds, cases, compare, samples};
use crate::{Instruction, Opcode};

/// The lines that begin with two hex digits, for 00 to 20: whether it is an opcode, the fields that some word of it sets, the height.
pub fn compare(seeds: u64, program: &str) -> Result<(), String> {
    let mut set = [[false; 4]; 256];
    let mut words = 0;
    let fixed = samples::all().into_iter().map(|s| s.image).chain(bounds::all().into_iter().map(|(_, img)| img));
    for img in fixed.chain((0..seeds).map(cases::image)) {
        for &w in compare::hold(&img).iter().flat_map(|p| &p.words) {
            note(&mut set[(w % 256) as usize], w)?;
            words += 1;
        }
    }
    let said = ask(&[program], b"")?;
    let said = String::from_utf8_lossy(&said.stdout);
    let mut told = said.lines().filter(|line| is_fact(line));
    for n in 0..=0x20 {
        let (is, due) = (told.next().unwrap_or_default(), line(n, set[n as usize]));
        if is != due {
            return Err(format!("\"{is}\" is told, and \"{due}\" is due"));
        }
    }
    println!("{seeds} seeds and every edge, {words} words: the table has each field that one of them sets, and no other");
    Ok(())
}

// Two hex digits stand first.
fn is_fact(line: &str) -> bool {
    line.split(' ').next().is_some_and(|n| n.len() == 2 && u8::from_str_radix(n, 16).is_ok())
}

fn note(set: &mut [bool; 4], w: u64) -> Result<(), String> {
    let i = Instruction::decode_any(w).map_err(|e| format!("{w:016x}: {e:?}"))?;
    for (set, field) in set.iter_mut().zip([i.rd as i64, i.rs1 as i64, i.rs2 as i64, i.imm as i64]) {
        *set |= field != 0;
    }
    Ok(())
}

fn line(n: u8, set: [bool; 4]) -> String {
    let fields = ["rd", "rs1", "rs2", "imm"].into_iter().zip(set).filter(|(_, set)| *set).map(|(name, _)| name);
    let height = [(Opcode::Push, "+1"), (Opcode::Pop, "-1"), (Opcode::Call, "call"), (Opcode::Ret, "ret")];
    let height = height.into_iter().filter(|(op, _)| *op as u8 == n).map(|(_, name)| name);
    let opcode = (n <= Opcode::VerifyMerkle as u8).then_some("opcode");
    let what: String = opcode.into_iter().chain(fields).chain(height).map(|name| format!(" {name}")).collect();
    format!("{n:02x}{what}")
}
