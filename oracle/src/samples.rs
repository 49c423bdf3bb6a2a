// C1 to C15 of document 01.
use crate::ast::{Contract, Stmt};
use crate::generation::word;
use crate::image::encode;
use crate::tree::*;

/// A sample: its image, its rooms (words, table numbers), and what document 01 says of its answer.
pub struct Sample {
    pub name: &'static str,
    pub image: Vec<u8>,
    pub room: usize,
    pub table: usize,
    pub refusal: u32,
    pub place: Option<u32>,
    pub count: u32,
    pub words: Vec<(usize, u64)>,
}

pub const ROOM: usize = 8192;
pub const TABLE: usize = 3 * 256;

fn sample(name: &'static str, image: Vec<u8>, refusal: u32, count: u32) -> Sample {
    Sample { name, image, room: ROOM, table: TABLE, refusal, place: None, count, words: vec![] }
}

impl Sample {
    fn at(self, place: u32) -> Self {
        Sample { place: Some(place), ..self }
    }
    fn says(self, words: Vec<(usize, u64)>) -> Self {
        Sample { words, ..self }
    }
}

// C1's words, as document 01 prints them.
const C1: [u64; 10] = [
    0x0000000800001f14,
    0x0000000001000012,
    0x0000000000000000,
    0x0000000000000117,
    0x0000000000002016,
    0x0000000000000217,
    0x0000000000000314,
    0x0000000000006016,
    0x0000000000004016,
    0x0000000000000013,
];
const LOAD: u8 = 0x14;
const MUL: u8 = 0x03;
const JMP: u8 = 0x10;
const JNZ: u8 = 0x11;

fn of(name: &'static str, c: Contract, refusal: u32, count: u32) -> Sample {
    sample(name, encode(&c), refusal, count)
}

/// All samples, with what document 01 says of them (words where it tells them).
pub fn all() -> Vec<Sample> {
    let c1 = encode(&main_of(vec![]));
    let cut = c1[..71].to_vec();
    let longer = [&c1[..], &[0]].concat();
    let mut out = vec![
        sample("c1", c1.clone(), 0, 10).says(C1.into_iter().enumerate().collect()),
        sample("c2_empty", vec![], 2, 0).at(0),
        sample("c2_cut", cut, 2, 0).at(0),
        sample("c2_longer", longer, 4, 0).at(72),
        Sample { room: 9, ..sample("c3", c1, 50, 10) }.at(0),
    ];
    out.extend(registers());
    out.extend(numbers());
    out.extend(scopes());
    out.extend(types());
    out
}

fn registers() -> Vec<Sample> {
    let only_f = contract(vec![], vec![], vec![function("f", vec![], None, lets(28))]);
    let after = [lets(29), vec![does(read("s"))]].concat();
    vec![
        of("c4_27", main_of(lets(27)), 0, 37),
        of("c4_28", main_of(lets(28)), 41, 0).at(31),
        of("c9", only_f, 40, 0),
        of("c10", main_of(vec![does(read("s"))]), 46, 0),
        of("c10_29", main_of(after), 41, 0),
    ]
}

fn numbers() -> Vec<Sample> {
    let one = |v| main_of(vec![does(int(v))]);
    let high = vec![(5, word(LOAD, 3, 0, 0, 1_073_741_824)), (6, word(LOAD, 2, 0, 0, 2)), (7, word(MUL, 2, 2, 3, 0))];
    vec![
        of("c5_low", one(2_147_483_647), 0, 11).says(vec![(5, word(LOAD, 2, 0, 0, 2_147_483_647))]),
        of("c5_high", one(2_147_483_648), 0, 13).says(high),
        of("c15_2_60", one(1 << 60), 0, 14),
        of("c15_most", one(u64::MAX), 0, 18),
    ]
}

fn scopes() -> Vec<Sample> {
    let (jnz, jmp) = ((6, word(JNZ, 0, 2, 0, 2)), |i, d| (i, word(JMP, 0, 0, 0, d)));
    let x = || vec![let_("x", int(1))];
    let branch = |other: Stmt| main_of(vec![if_(int(1), x(), Some(vec![other]))]);
    vec![
        of("c6", main_of(vec![if_(int(1), vec![], None)]), 0, 13).says(vec![jnz, jmp(7, 1)]),
        of("c7", main_of(vec![while_(int(1), vec![])]), 0, 14).says(vec![jnz, jmp(7, 2), jmp(8, -3)]),
        of("c8_assign", branch(assign("x", int(2))), 43, 0),
        of("c8_constrain", branch(constrain(id("x"))), 42, 0),
    ]
}

fn types() -> Vec<Sample> {
    let taking = |ty, structs, e| contract(vec![], structs, vec![function("main", vec![("p", ty)], None, vec![constrain(e)])]);
    let a = structure("A", vec![("x", "u64"), ("y", "u64")]);
    let b = structure("B", vec![("y", "u64")]);
    let void = function("f", vec![], None, vec![]);
    let c13 = function("main", vec![], None, vec![let_("v", call("f", vec![])), assign("v", int(1))]);
    let own = function("poseidon", vec![("a", "u64")], None, vec![]);
    let c14 = function("main", vec![], None, vec![does(call("poseidon", vec![int(1)]))]);
    vec![
        // Document 01 has 30 here; document 02 mends it (P2).
        of("c11", taking("A", vec![a, b], access(id("p"), "y")), 0, 13).says(vec![(6, word(LOAD, 3, 2, 0, 8))]),
        of("c12", taking("Foo", vec![], access(id("p"), "x")), 0, 13).says(vec![(6, word(LOAD, 3, 2, 0, 0))]),
        of("c13", contract(vec![], vec![], vec![void, c13]), 12, 0),
        of("c14", contract(vec![], vec![], vec![own, c14]), 19, 0),
    ]
}
