//! Slices of any length: room is the length divided by 8, and a refusal clears the odd bytes too.
mod common;

use common::{guarded, listed, sample, whole};

#[test]
fn every_length_about_the_end() {
    for name in ["c1", "c4_27", "c7", "c15_most"] {
        let image = sample(&format!("{name}.img"));
        let words = listed(name).unwrap();
        for len in 0..8 * words.len() + 25 {
            let (answer, bytes) = guarded(&image, len);
            let says = if len / 8 >= words.len() { Ok(words.clone()) } else { Err((50, 0, words.len() as u32)) };
            assert_eq!(answer, says.as_ref().map(Vec::len).map_err(|r| *r), "{name} in {len} bytes");
            assert_eq!(bytes, whole(&says, len), "{name} in {len} bytes");
        }
    }
}

#[test]
fn a_refused_image_clears_every_length() {
    for image in [&sample("c8_assign.img")[..], &sample("c9.img"), &[], &[1, 2, 3], &[0; 65_537]] {
        for len in 0..41 {
            let (answer, bytes) = guarded(image, len);
            assert!(answer.is_err());
            assert_eq!(bytes, vec![0; len]);
        }
    }
}
