//! The stored answers of the Rust (docs/STORED.md).
mod common;

use common::{guarded, stored, told};
use haspnettle::{analyse, build_image, text};

fn fnv(bytes: &[u8]) -> u64 {
    bytes.iter().fold(0xCBF2_9CE4_8422_2325, |h, b| (h ^ u64::from(*b)).wrapping_mul(0x100_0000_01B3))
}

#[test]
fn every_stored_answer() {
    let mut held = 0;
    for (n, case) in stored().iter().enumerate() {
        let (answer, bytes) = guarded(&case.image, 8 * case.room);
        // 51 is the table's, and the host has none.
        if case.built.0 == 51 {
            assert!(answer.is_ok_and(|words| words <= case.room), "case {n}");
            continue;
        }
        let answer = answer.map_or_else(|r| r, |words| (0, 0, words as u32));
        assert_eq!((answer, fnv(&bytes)), (case.built, case.checksum), "case {n}");
        held += 1;
    }
    assert!(held > 2000);
}

#[test]
fn every_stored_analysis() {
    let all = stored();
    for (n, case) in all.iter().enumerate() {
        let answer = analyse(&case.image).map_or_else(told, |()| (0, 0, 0));
        assert_eq!(answer, (case.analysed.0, case.analysed.1, 0), "case {n}");
    }
    // What generation or 30 refuses is among them.
    assert!((30..=47).filter(|n| all.iter().any(|c| c.built.0 == *n && c.analysed.0 == 0)).eq([30].into_iter().chain(40..=47)));
}

#[test]
fn every_stored_text() {
    let all = stored();
    for (n, case) in all.iter().enumerate() {
        assert_eq!(text(&case.image), case.text, "case {n}");
        assert_eq!(build_image(&case.image).err().and_then(|r| r.text().map(String::from)), case.text, "case {n}");
    }
    // Each refusal that has one is among them.
    assert!((0..=255).filter(|n| all.iter().any(|c| c.built.0 == *n && c.text.is_some())).eq((10..=22).chain(40..=47)));
}
