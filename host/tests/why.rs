//! Why each word is there: its record, and where a patched word leads; and what stands at a place.
mod common;

use common::{every::every, sample, samples, stored, told, Told};
use haspnettle::{build_image, image, record, why};
use std::collections::BTreeMap;
use std::str;

// What asked for each word of `every`, in the order of the words: a record's kind and place, and how many words one behind the other.
const RECORDS: &str = "\
    Contract 0 x3, Function 226 x3, Return 298 x4, Function 226 x5, Function 317 x7, Function 358 x4, Int 457 x4, Binary 557 x1, \
    Binary 551 x1, Binary 545 x1, Binary 539 x1, Binary 533 x1, Binary 527 x1, Binary 521 x1, Binary 515 x1, Binary 509 x1, \
    Binary 503 x1, Constrain 497 x1, Int 831 x3, Binary 805 x1, MappingRead 789 x3, Assign 776 x1, FieldAccess 868 x1, \
    FieldAccess 862 x1, StorageWrite 845 x1, StorageRead 922 x1, Call 978 x1, Call 939 x1, MappingWrite 906 x3, \
    StructLiteral 1020 x1, StructLiteral 1058 x1, Int 1096 x1, StructLiteral 1058 x5, Int 1154 x1, StructLiteral 1020 x5, \
    If 1168 x1, Call 1211 x12, Int 1246 x1, If 1168 x1, Return 1193 x5, Int 1316 x1, Call 1330 x1, Call 1266 x1, If 1260 x2, \
    Int 1373 x1, If 1367 x2, Call 1405 x6, Call 1440 x6, Int 1462 x1, Call 1440 x10, Call 1405 x10, While 1399 x2, Int 1508 x1, \
    For 1495 x4, Int 1567 x1, For 1541 x4, Emit 1587 x1, Call 1622 x1, Emit 1587 x1, StructLiteral 1650 x4, Emit 1587 x1, \
    For 1541 x3, While 1672 x2, Assign 1697 x1, While 1672 x1, For 1495 x3, While 1723 x2, Int 1761 x1, Int 1775 x1, For 1748 x7, \
    While 1723 x1, While 1399 x1, StorageRead 1801 x1, While 1795 x3, Function 358 x5, Function 1849 x4, If 1943 x2, \
    Return 1968 x1, Call 1974 x12, Return 1968 x3, Call 2028 x8, Return 2050 x1, Int 2056 x8, Return 2050 x3, Function 1849 x5";

// Its words that were patched, and where they lead.
const PATCHED: &str = "\
    1 to 22, 72 to 87, 78 to 15, 86 to 92, 95 to 97, 96 to 97, 98 to 100, 99 to 100, 115 to 185, 125 to 185, 133 to 135, \
    134 to 176, 138 to 140, 139 to 163, 143 to 145, 144 to 156, 156 to 158, 157 to 160, 163 to 165, 164 to 175, 169 to 171, \
    170 to 174, 177 to 179, 178 to 180, 189 to 191, 190 to 207, 198 to 185, 210 to 15";

// The kinds of record, by their numbers.
const KINDS: &str = "Name List Flag Op Contract Field Struct Function Init \
    Let Constrain Assign StorageWrite MappingWrite If While For Return Emit Expr \
    Int Ident StorageRead MappingRead FieldAccess StructLiteral Binary Call";

// The kinds of record that a word of an opcode can be of.
fn owners(opcode: u64) -> &'static [&'static str] {
    match opcode {
        0x00 => &["Contract"],
        0x01 => &["Assign", "For", "Int", "StructLiteral", "Binary"],
        0x03 => &["Int", "Binary"],
        0x0C => &["For", "Binary"],
        0x02 | 0x04 | 0x0A..=0x0F => &["Binary"],
        0x10 | 0x11 => &["If", "While", "For"],
        0x12 => &["Contract", "Call"],
        0x13 => &["Function", "Return"],
        0x14 => &["Contract", "Function", "MappingWrite", "For", "Return", "Int", "MappingRead", "FieldAccess", "StructLiteral"],
        0x15 => &["StructLiteral"],
        0x16 | 0x17 => &["Function", "Return", "Call"],
        0x18 => &["Constrain"],
        0x19 => &["MappingWrite", "MappingRead", "Call"],
        0x1A => &["Emit"],
        0x1B => &["StorageRead", "MappingRead"],
        0x1C => &["StorageWrite", "MappingWrite"],
        0x1D | 0x1E => &["Call"],
        _ => &[],
    }
}

// Of each word the record is of a kind that has such words, and if it was patched, the target is where its own offset leads. Each Jnz and
// each Call was patched, and each Jmp but a loop's back.
fn told_of(image: &[u8], words: &[u64]) {
    for (index, word) in (0..).zip(words) {
        let why = why(image, index).unwrap();
        let kind = record(image, why.place).unwrap().kind;
        assert!(owners(word & 0xFF).contains(&kind), "word {index} is of a {kind}");
        assert_eq!((why.place == 0, kind == "Contract"), (index < 3, index < 3));
        let offset = (word >> 23) as i32;
        let patched = matches!(word & 0xFF, 0x11 | 0x12) || word & 0xFF == 0x10 && offset > 0;
        assert_eq!(why.target, patched.then(|| index.wrapping_add_signed(offset.into())), "word {index}");
    }
}

// Past the last word, however far, it is 53; of an image that is refused it is the build's refusal, whatever the index.
fn refused(image: &[u8], words: u64, due: Told) {
    for index in [words, words + 1, 1 << 32, (1 << 32) + words, u64::MAX] {
        assert_eq!(why(image, index).map_err(told), Err(due), "index {index}");
    }
}

fn holds(image: &[u8]) {
    match build_image(image).map_err(told) {
        Err(due) => refused(image, 0, due),
        Ok(words) => {
            told_of(image, &words);
            refused(image, words.len() as u64, (53, 0, 0));
        }
    }
}

#[test]
fn every_construct() {
    let img = image(&every()).unwrap();
    let words = build_image(&img).unwrap();
    let all: Vec<_> = (0..words.len() as u64).map(|index| why(&img, index).unwrap()).collect();
    let runs = all.chunk_by(|a, b| a.place == b.place);
    let told: Vec<_> = runs.map(|r| format!("{} {} x{}", record(&img, r[0].place).unwrap().kind, r[0].place, r.len())).collect();
    assert_eq!(told.join(", "), RECORDS);
    let patched: Vec<_> = all.iter().enumerate().filter_map(|(index, why)| Some(format!("{index} to {}", why.target?))).collect();
    assert_eq!(patched.join(", "), PATCHED);
    holds(&img);
}

#[test]
fn every_word_of_the_samples() {
    samples().iter().for_each(|name| holds(&sample(&format!("{name}.img"))));
}

#[test]
fn every_word_of_the_stored() {
    let all = stored();
    all.iter().for_each(|case| holds(&case.image));
    assert!(all.iter().filter(|case| matches!(case.built.0, 0 | 50 | 51)).count() > 1000);
}

// By its place each record of an image: its kind, and the name of the function that it is or lies in. Where the one at a place ends.
fn records<'a>(image: &'a [u8], at: usize, mut function: Option<&'a str>, all: &mut BTreeMap<usize, (u16, Option<&'a str>)>) -> usize {
    let number = |at| u16::from_le_bytes([image[at], image[at + 1]]);
    let (end, kind) = (at + 4 + number(at) as usize, number(at + 4));
    if kind == 19 {
        function = str::from_utf8(&image[at + 12..at + 10 + number(at + 6) as usize]).ok();
    }
    all.insert(at, (kind, function));
    let mut part = at + 6;
    while part < end && ![1, 3, 4, 64].contains(&kind) {
        part = records(image, part, function, all);
    }
    end
}

#[test]
fn every_place_of_an_image() {
    let img = image(&every()).unwrap();
    let (mut all, mut names) = (BTreeMap::new(), BTreeMap::new());
    assert_eq!(records(&img, 0, None, &mut all), img.len());
    for place in 0..img.len() + 9 {
        let (found, due) = (record(&img, place as u32), all.get(&place));
        assert_eq!(found.map(|r| r.function), due.map(|d| d.1), "place {place}");
        if let (Some(found), Some(due)) = (found, due) {
            assert_eq!(*names.entry(due.0).or_insert(found.kind), found.kind, "place {place}");
        }
    }
    assert!(names.keys().copied().eq((1..=4).chain(16..=20).chain(32..=42).chain(64..=71)));
    assert_eq!(names.into_values().collect::<Vec<_>>().join(" "), KINDS);
}

// A record is found in any bytes or it is not.
#[test]
fn any_bytes_and_any_place() {
    for img in stored().iter().map(|case| &case.image[..]).filter(|img| img.len() < 310).chain([&[0; 40][..], &[0xFF; 40]]) {
        for place in 0..img.len() as u32 + 9 {
            assert!(record(img, place).is_none() || (place as usize) < img.len());
        }
        assert_eq!(record(img, u32::MAX), None);
    }
    let nested = (0..10_000u32).rev().flat_map(|n| [&(2 + 6 * n).to_le_bytes()[..], &[2, 0]].concat()).collect::<Vec<_>>();
    for place in (0..60_000).step_by(601).chain([59_994, 59_999]) {
        assert_eq!(record(&nested, place).map(|r| r.kind), (place % 6 == 0).then_some("List"), "place {place}");
    }
}
