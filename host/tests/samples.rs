//! C1 to C15 of document 01, by their listings.
mod common;

use common::{guarded, listed, sample, samples, told, whole};
use haspnettle::{analyse, build_image};

#[test]
fn every_sample() {
    let names = samples();
    assert_eq!(names.len(), 24);
    for name in names {
        let image = sample(&format!("{name}.img"));
        let says = listed(&name);
        // C3 is C1 with nine words of room.
        let room = if name == "c3" { 9 } else { 8192 };
        let (answer, bytes) = guarded(&image, 8 * room);
        assert_eq!(answer, says.as_ref().map(Vec::len).map_err(|r| *r), "{name}");
        assert_eq!(bytes, whole(&says, 8 * room), "{name}");
        if name != "c3" {
            assert_eq!(build_image(&image).map_err(told), says, "{name}");
        }
    }
}

#[test]
fn every_sample_is_analysed() {
    for name in samples() {
        // What is built, and what generation refuses, passes analysis.
        let says = listed(&name).map(|_| ()).or_else(|r| if r.0 < 30 { Err(r) } else { Ok(()) });
        assert_eq!(analyse(&sample(&format!("{name}.img"))).map_err(told), says, "{name}");
    }
}
