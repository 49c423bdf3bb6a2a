// A program that lists words (document 02, P3) against lines that are made here from the bytes alone.
use crate::ask::ask;
use crate::rng::Rng;
use crate::{Instruction, Opcode};
use std::collections::BTreeSet;

/// N words of a seed, with none to seven bytes behind them: the lines are those that are due, and bytes left over are told in one line.
pub fn compare(n: u64, seed: u64, program: &[&str]) -> Result<(), String> {
    let words: Vec<[u8; 8]> = (0..n).scan(Rng::new(seed), |rng, _| Some(word(rng).to_le_bytes())).collect();
    let due: String = words.iter().enumerate().map(|(index, bytes)| line(index, bytes)).collect();
    for left in 0..8 {
        let said = ask(program, &[words.concat(), vec![0x13; left]].concat())?;
        let lines = String::from_utf8_lossy(&said.stdout);
        if let Some((index, (is, due))) = lines.lines().zip(due.lines()).enumerate().find(|(_, (is, due))| is != due) {
            return Err(format!("seed {seed}, word {index}: \"{is}\" is listed, and \"{due}\" is due"));
        }
        if lines != due {
            return Err(format!("seed {seed}: {} lines are listed, and {n} are due", lines.lines().count()));
        }
        let told = String::from_utf8_lossy(&said.stderr);
        if told.lines().count() != left.min(1) || !told.contains(&left.to_string()) != (left == 0) {
            return Err(format!("{left} bytes are left over, and \"{}\" is told", told.trim_end()));
        }
    }
    let known = words.iter().filter(|bytes| bytes[0] <= Opcode::VerifyMerkle as u8).count();
    let flagged = words.iter().filter(|bytes| has_top(bytes)).count();
    let low: BTreeSet<u8> = words.iter().map(|bytes| bytes[0]).collect();
    println!(
        "{n} words, {known} with an opcode, {flagged} with top bits, {} low bytes, 0 to 7 bytes left over: every line equal",
        low.len()
    );
    Ok(())
}

// Any bits; the Rust's own word, alone or with top bits; one bit beside the lowest top bit.
fn word(rng: &mut Rng) -> u64 {
    let any = rng.next();
    match rng.below(4) {
        0 => any,
        1 => own(any),
        2 => own(any) | any >> 55 << 55,
        _ => own(any) & 0xFF | 1 << (54 + any % 2),
    }
}

fn own(any: u64) -> u64 {
    let low = any % (Opcode::VerifyMerkle as u64 + 1) | any & 0x007F_FFFF_FFFF_FF00;
    Instruction::decode_any(low).map_or(0, |i| i.encode())
}

fn has_top(bytes: &[u8; 8]) -> bool {
    bytes[7] != 0 || bytes[6] >= 0x80
}

// From the last byte to the first, two digits each.
fn line(index: usize, bytes: &[u8; 8]) -> String {
    let digits: String = bytes.iter().rev().map(|byte| format!("{byte:02x}")).collect();
    format!("{index} {digits}{}\n", if has_top(bytes) { " +" } else { "" })
}
