//! Every order of the steps around a cut, for each object. 122 operations take 494 bytes with their header, so 12 entries go with them into
//! the first block: the eight that every order begins with, and four of the seven behind them.

use super::Whole;
use crate::file::BLOCK;
use crate::generate::{Draft, put, take, turns};
use crate::groups::Bench;
use crate::groups::every::all_orders;

const OPERATIONS: usize = 122;
const AROUND: usize = 7;

/// An item is in, or two of a stack, and both takers have begun.
fn begun() -> [(u8, Vec<u8>); 3] {
    [(1, turns(&[(0, 4), (1, 2), (2, 2)])), (2, turns(&[(0, 5), (1, 2), (2, 1)])), (3, turns(&[(0, 5), (1, 2), (2, 1)]))]
}

pub fn every(bench: &mut Bench) -> Result<usize, String> {
    let mut count = 0;
    for (kind, begun) in begun() {
        let records = [put(0, 15), take(1), take(2), put(0, 25)].into_iter().cycle().take(OPERATIONS).collect();
        let schedule = [begun.as_slice(), &[0; AROUND]].concat();
        count +=
            all_orders(bench, Draft { kind, processes: 3, records, schedule }, begun.len(), |bench, draft, _| cut(bench, draft))?;
    }
    Ok(count)
}

fn cut(bench: &mut Bench, draft: &Draft) -> Result<usize, String> {
    let mut whole = Whole::of(bench, draft)?;
    let first = whole.file[..BLOCK].to_vec();
    whole.salvage(bench, &first)?;
    Ok(1)
}
