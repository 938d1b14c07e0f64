//! The two sums of a block: document 01's "Job files". The library checks every block; a window block it does not write, so its sums are made here.

use crate::limits::{BLOCK, SUMMED};

/// The sums that a block's bytes give.
pub fn sums(block: &[u8; BLOCK]) -> (u16, u16) {
    block[..SUMMED].iter().fold((1u16, 0u16), |(a, b), &byte| {
        let a = a.wrapping_add(u16::from(byte));
        (a, b.wrapping_add(a))
    })
}

/// The sums that stand in it.
pub fn held(block: &[u8; BLOCK]) -> (u16, u16) {
    let word = |at: usize| u16::from_be_bytes([block[at], block[at + 1]]);
    (word(SUMMED), word(SUMMED + 2))
}

/// Writes its sums into it.
pub(crate) fn seal(block: &mut [u8; BLOCK]) {
    let (a, b) = sums(block);
    block[SUMMED..].copy_from_slice([a, b].map(u16::to_be_bytes).as_flattened());
}
