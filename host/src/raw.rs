//! The calls across the C boundary. Nothing else in this crate is `unsafe`.

extern "C" {
    /// `#[no_mangle] pub extern "C" fn host_build(image: &[u8], out: &mut [u8]) -> u64` of crate `host_c`: a slice is a pointer and a length.
    fn host_build(image: *const u8, image_len: usize, out: *mut u8, out_len: usize) -> u64;
    /// `#[no_mangle] pub extern "C" fn host_analyse(image: &[u8]) -> u64` of crate `host_c`.
    fn host_analyse(image: *const u8, image_len: usize) -> u64;
    /// `#[no_mangle] pub extern "C" fn host_text(image: &[u8], out: &mut [u8]) -> u64` of crate `host_c`.
    fn host_text(image: *const u8, image_len: usize, out: *mut u8, out_len: usize) -> u64;
    /// `#[no_mangle] pub extern "C" fn host_why(image: &[u8], index: u64) -> u64` of crate `host_c`.
    fn host_why(image: *const u8, image_len: usize, index: u64) -> u64;
    /// `#[no_mangle] pub extern "C" fn host_lines(first: u64, words: &[u8], out: &mut [u8]) -> u64` of crate `host_c`.
    fn host_lines(first: u64, words: *const u8, words_len: usize, out: *mut u8, out_len: usize) -> u64;
}

/// Refusal + 256 x place + 2^32 x count.
pub fn build(image: &[u8], out: &mut [u8]) -> u64 {
    // SAFETY: both slices are live for the call and apart, since one is borrowed shared and the other not; the function keeps
    // neither pointer, reads the one and writes within the other, takes any bytes and any lengths, and does not unwind (its proof).
    unsafe { host_build(image.as_ptr(), image.len(), out.as_mut_ptr(), out.len()) }
}

/// Refusal + 256 x place; an acceptance is 0.
pub fn analyse(image: &[u8]) -> u64 {
    // SAFETY: the slice is live for the call; the function keeps no pointer, reads within the slice and writes nothing, takes any
    // bytes and any length, and does not unwind (its proof).
    unsafe { host_analyse(image.as_ptr(), image.len()) }
}

/// Refusal + 256 x place + 2^32 x the text's length; 52 where `out` has under 256 bytes.
pub fn text(image: &[u8], out: &mut [u8]) -> u64 {
    // SAFETY: as for `host_build`: two slices that are live and apart, and a function that keeps neither pointer, reads the one, writes
    // within the other, takes any bytes and any lengths, and does not unwind (its proof).
    unsafe { host_text(image.as_ptr(), image.len(), out.as_mut_ptr(), out.len()) }
}

/// Refusal + 256 x place + 2^32 x count; the count is 0 if the word was not patched, else 1 and the index of its target.
pub fn why(image: &[u8], index: u64) -> u64 {
    // SAFETY: as for `host_analyse`: a slice that is live, and a function that keeps no pointer, reads within the slice and writes nothing,
    // takes any bytes, any length and any index, and does not unwind (its proof).
    unsafe { host_why(image.as_ptr(), image.len(), index) }
}

/// The bytes that the lines take, 40 at most for each word.
pub fn lines(first: u64, words: &[u8], out: &mut [u8]) -> u64 {
    // SAFETY: as for `host_build`: two slices that are live and apart, and a function that keeps neither pointer, reads the one, writes
    // within the other, takes any bytes, any lengths and any index, and does not unwind (its proof).
    unsafe { host_lines(first, words.as_ptr(), words.len(), out.as_mut_ptr(), out.len()) }
}

#[cfg(test)]
mod tests {
    use super::{lines, text};
    use crate::guard::{lent, POISON};
    use crate::{image, tree::*};

    // Built, refused with no text (2, 1, 30), and refused with one (10).
    fn images() -> [Vec<u8>; 5] {
        let structs = vec![structure("A", vec![("x", "u64"), ("y", "u64")]), structure("B", vec![("y", "u64")])];
        let open = function("main", vec![("p", "Open")], None, vec![does(access(id("p"), "y"))]);
        let of = |c| image(&c).unwrap();
        [of(main_of(vec![])), vec![], vec![0; 65_537], of(contract(vec![], structs, vec![open])), of(main_of(vec![constrain(id("x"))]))]
    }

    #[test]
    fn a_slice_under_256_bytes_is_refused_first() {
        for image in images() {
            for len in [0, 1, 255] {
                assert_eq!(lent(len, |out| text(&image, out)), (52, vec![POISON; len]));
            }
        }
    }

    #[test]
    fn a_text_lies_over_the_first_bytes() {
        let says = b"SemanticError: Undefined identifier: x";
        let [built, none, long, ambiguous, lost] = images();
        for len in [256, 257, 1000] {
            for (image, answer) in [(&built, 0), (&none, 2), (&long, 1), (&ambiguous, 30 + (205 << 8))] {
                assert_eq!(lent(len, |out| text(image, out)), (answer, vec![POISON; len]));
            }
            let bytes = [&says[..], &vec![POISON; len - says.len()]].concat();
            assert_eq!(lent(len, |out| text(&lost, out)), (10 + (78 << 8) + ((says.len() as u64) << 32), bytes));
        }
    }

    #[test]
    fn lines_go_as_far_as_words_and_room() {
        let words: Vec<u8> = [0x13, u64::MAX, 1 << 54].iter().flat_map(|w| w.to_le_bytes()).collect();
        let all = ["18446744073709551614 0000000000000013\n", "18446744073709551615 ffffffffffffffff +\n", "0 0040000000000000\n"];
        for bytes in 0..=words.len() {
            for room in [0, 1, 39, 40, 79, 80, 119, 120, 121] {
                let says = all[..(bytes / 8).min(room / 40)].concat();
                let left = [says.as_bytes(), &vec![POISON; room - says.len()]].concat();
                assert_eq!(lent(room, |out| lines(u64::MAX - 1, &words[..bytes], out)), (says.len() as u64, left));
            }
        }
    }
}
