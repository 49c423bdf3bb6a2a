// From a seed to an image: sound, mistaken, damaged, deep, at an edge or rich in accesses.
use crate::faults::{inject, NUMBERS};
use crate::gen::{contract, huge, shape, tiny, Shape};
use crate::image::encode;
use crate::rng::Rng;
use crate::{accesses, bounds, damage};

/// The image of a seed; three in twenty are rich in accesses.
pub fn image(seed: u64) -> Vec<u8> {
    match seed % 20 {
        7 | 17 => accesses::image(seed),
        12 => accesses::tiny_image(seed),
        _ => common(seed),
    }
}

/// The image of a seed as the stored answers have it; images over the bound come only from the edges.
pub fn common(seed: u64) -> Vec<u8> {
    let mut rng = Rng::new(seed);
    match rng.below(1000) {
        0..=399 => sound(&mut rng, 0, shape),
        400..=549 => sound(&mut rng, 25, shape),
        550..=749 => mistaken(&mut rng, shape),
        750..=929 => damaged(&mut rng, shape),
        930..=938 => damaged_edge(&mut rng),
        939 => sound(&mut rng, 0, huge),
        940..=989 => {
            let depth = *rng.pick(&[20, 40, 60, 63, 64, 65, 66]);
            encode(&bounds::deep(&mut rng, depth))
        }
        990..=998 => rng.pick(&bounds::small()).1.clone(),
        _ => rng.pick(&bounds::large()).1.clone(),
    }
}

/// The small image of a seed: sound, mistaken or damaged.
pub fn tiny_image(seed: u64) -> Vec<u8> {
    let mut rng = Rng::new(seed);
    match rng.below(10) {
        0..=3 => sound(&mut rng, 0, tiny),
        4 => sound(&mut rng, 25, tiny),
        5..=7 => mistaken(&mut rng, tiny),
        _ => damaged(&mut rng, tiny),
    }
}

type Shaped = fn(&mut Rng, usize) -> Shape;

fn sound(rng: &mut Rng, risk: usize, shape: Shaped) -> Vec<u8> {
    let s = shape(rng, risk);
    encode(&contract(rng, s))
}

fn mistaken(rng: &mut Rng, shape: Shaped) -> Vec<u8> {
    let s = shape(rng, 0);
    let mut c = contract(rng, s);
    let number = *rng.pick(&NUMBERS);
    inject(rng, &mut c, number);
    encode(&c)
}

fn damaged(rng: &mut Rng, shape: Shaped) -> Vec<u8> {
    let img = if rng.chance(1, 4) { mistaken(rng, shape) } else { sound(rng, 0, shape) };
    damage::damage(rng, &img)
}

// A contract at an edge, deep ones mostly, and damaged.
fn damaged_edge(rng: &mut Rng) -> Vec<u8> {
    let depth = rng.within(64, 66);
    let deep = encode(&bounds::deep(rng, depth));
    let edges = bounds::small();
    let img = if rng.chance(4, 5) { &deep } else { &rng.pick(&edges[1..]).1 };
    damage::damage(rng, img)
}

/// Rooms to try on a program of so many words or numbers: exact, one short, none, more.
pub fn rooms(need: usize) -> [usize; 4] {
    [need, need.saturating_sub(1), 0, need + 5]
}
