//! Slices of poison with poison on both sides.

pub const POISON: u8 = 0xA5;
const GUARD: usize = 64;

/// Lends `len` bytes of poison to a call, and sees that nothing around them is touched: its answer, and what the bytes are then.
pub fn lent<T>(len: usize, call: impl FnOnce(&mut [u8]) -> T) -> (T, Vec<u8>) {
    let mut bytes = vec![POISON; len + 2 * GUARD];
    let answer = call(&mut bytes[GUARD..GUARD + len]);
    assert!(bytes[..GUARD].iter().all(|b| *b == POISON), "bytes before the slice were written");
    assert!(bytes[GUARD + len..].iter().all(|b| *b == POISON), "bytes behind the slice were written");
    (answer, bytes[GUARD..GUARD + len].to_vec())
}
