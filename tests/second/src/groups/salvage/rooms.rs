//! Work and output memory of every length around the limits, for what is kept and for what is refused.

use super::{drafts, spoiled};
use crate::damage::cards::Spoil;
use crate::file::{BLOCK, FILE_LIMIT, WORK, sealed};
use crate::groups::Bench;
use crate::groups::rooms::{around, number_is};
use crate::samples;

/// A whole file, a full-size one, one cut in its schedule, one in its records, one in its header, no bytes, and a header out of range.
fn inputs() -> Vec<Vec<u8>> {
    let file = sealed(&drafts()[4].stream());
    let full = sealed(&samples::flood::hour().stream());
    let cut = spoiled(&full, &[(20, Spoil::All(0))], &[]);
    let no_kind = sealed(&[9; 506]);
    vec![file.clone(), full, cut, file[..BLOCK].to_vec(), file[..BLOCK - 1].to_vec(), vec![], no_kind]
}

pub fn all(bench: &mut Bench) -> Result<usize, String> {
    let mut count = 0;
    for input in inputs() {
        for work in around(WORK) {
            for out in around(FILE_LIMIT) {
                let answer = bench.compare.salvage_within(&input, work, out)?;
                number_is(work < WORK || out < FILE_LIMIT, answer.number)?;
                count += 1;
            }
        }
    }
    Ok(count)
}
