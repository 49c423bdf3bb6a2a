// Damaged images: bytes changed as they lie, or records changed with the lengths made right again.
use crate::image::*;
use crate::node::Node;
use crate::rng::Rng;

// A node chosen by its number, or by going down at random, or the deepest.
fn choose<'n>(rng: &mut Rng, n: &'n mut Node) -> &'n mut Node {
    match rng.below(4) {
        0 => down(rng, n),
        1 => deepest(n),
        _ => n.numbered(&mut rng.below(n.count())).expect("a node"),
    }
}

fn down<'n>(rng: &mut Rng, n: &'n mut Node) -> &'n mut Node {
    if n.parts.is_empty() || rng.chance(1, 8) {
        return n;
    }
    let last = n.parts.len() - 1;
    let at = if rng.chance(1, 2) { last } else { rng.below(last + 1) };
    down(rng, &mut n.parts[at])
}

fn deepest(n: &mut Node) -> &mut Node {
    let Some(at) = (0..n.parts.len()).max_by_key(|&i| n.parts[i].height()) else { return n };
    deepest(&mut n.parts[at])
}

/// One image with each record changed in turn, in each of several ways.
pub fn every(img: &[u8]) -> Vec<Vec<u8>> {
    let top = Node::read(img, rec_at(img, 0));
    let mut out = Vec::new();
    for i in 0..top.count() {
        for way in 0..WAYS {
            let mut t = top.clone();
            alter(t.numbered(&mut i.clone()).expect("a node"), way);
            out.push(t.image());
        }
        for new in [0, 1, u32::MAX] {
            let (mut bytes, at) = (img.to_vec(), top.clone().numbered(&mut i.clone()).expect("a node").at);
            let old = u32_at(img, at);
            let len = if new > 1 { old + 1 } else { new * (old - 1) };
            bytes[at..at + 4].copy_from_slice(&len.to_le_bytes());
            out.push(bytes);
        }
    }
    out
}

const WAYS: usize = 12;

fn alter(n: &mut Node, way: usize) {
    let kinds = [0, NAME, LIST, FIELD, RETURN, IDENT];
    match way {
        0..=5 => n.kind = kinds[way],
        6 => n.bytes.push(0),
        7 => n.bytes.extend([0; 6]),
        8 => n.bytes.extend([2, 0, 0, 0, 2, 0]),
        9 => _ = (n.bytes.pop(), n.parts.pop()),
        10 => n.parts.extend(n.parts.last().cloned()),
        _ => n.bytes.iter_mut().for_each(|b| *b = b'/'),
    }
}

fn change(rng: &mut Rng, n: &mut Node) {
    match rng.below(7) {
        0 => n.kind = *rng.pick(&[0, 1, 2, 3, 4, 5, 16, 17, 18, 19, 20, 21, 31, 32, 37, 40, 42, 43, 63, 64, 65, 71, 72, 256 + 64]),
        1 => n.bytes.extend((0..rng.within(1, 9)).map(|i| [0, 2, 65, 255][i % 4])),
        2 => _ = n.bytes.pop(),
        3 => n.bytes.resize(*rng.pick(&[0, 1, 7, 8, 9, 64, 65]), b'a'),
        4 if !n.bytes.is_empty() => {
            let at = rng.below(n.bytes.len());
            n.bytes[at] = *rng.pick(&[0, 1, 2, 9, 10, 47, 48, 57, 58, 59, 64, 65, 90, 91, 95, 96, 97, 122, 123, 128, 255]);
        }
        5 if !n.parts.is_empty() => _ = n.parts.remove(rng.below(n.parts.len())),
        _ if !n.parts.is_empty() => {
            let part = rng.pick(&n.parts).clone();
            n.parts.insert(rng.below(n.parts.len() + 1), part);
        }
        _ => n.kind ^= 1,
    }
}

/// An image whose records can be read, damaged in one or a few places.
pub fn damage(rng: &mut Rng, img: &[u8]) -> Vec<u8> {
    let mut out = img.to_vec();
    match rng.below(10) {
        0 => flip(rng, &mut out),
        1 => out.truncate(rng.below(img.len())),
        2 => out.extend((0..rng.within(1, 8)).map(|_| rng.below(256) as u8)),
        3 | 4 => length(rng, &mut out),
        5 => _ = out.remove(rng.below(img.len())),
        _ => {
            let mut top = Node::read(img, rec_at(img, 0));
            for _ in 0..rng.within(1, 2) {
                let n = choose(rng, &mut top);
                change(rng, n);
            }
            out = top.image();
        }
    }
    out
}

fn flip(rng: &mut Rng, out: &mut [u8]) {
    for _ in 0..rng.within(1, 3) {
        out[rng.below(out.len())] ^= 1 << rng.below(8);
    }
}

// The length of one record, somewhat wrong.
fn length(rng: &mut Rng, out: &mut [u8]) {
    let mut starts = Vec::new();
    all(out, rec_at(out, 0), &mut starts);
    let at = *rng.pick(&starts);
    let old = u32_at(out, at);
    let new = match rng.below(8) {
        0 => 0,
        1 => 1,
        2 => u32::MAX - rng.below(8) as u32,
        3 => old | 1 << 31,
        _ => old.wrapping_add(rng.below(17) as u32).wrapping_sub(8),
    };
    out[at..at + 4].copy_from_slice(&new.to_le_bytes());
}

fn all(img: &[u8], r: Rec, out: &mut Vec<usize>) {
    out.push(r.at);
    if !is_leaf(r.kind) {
        r.parts(img).for_each(|p| all(img, p, out));
    }
}
