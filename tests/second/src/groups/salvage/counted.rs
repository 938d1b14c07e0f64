//! How many entries are kept, counted by hand, and the sample of a spoiled card.

use super::{Whole, shortened, spoiled};
use crate::damage::cards::Spoil;
use crate::failure::kept;
use crate::file::{SUMMED, sealed};
use crate::generate::{Draft, put};
use crate::groups::Bench;
use crate::samples;

/// Operations, steps, the first block that is spoiled, and what is kept of the steps, or else 14.
const COUNTED: [(usize, usize, usize, Option<usize>); 20] = [
    (1, 496, 0, None),
    (1, 496, 1, Some(496)),
    (1, 497, 1, Some(496)),
    (1, 497, 2, Some(497)),
    (1, 0, 1, Some(0)),
    (124, 100, 1, Some(4)),
    (125, 0, 1, Some(0)),
    (125, 100, 0, None),
    (125, 100, 1, Some(0)),
    (125, 100, 2, Some(100)),
    (126, 0, 1, None),
    (126, 100, 1, None),
    (126, 600, 2, Some(502)),
    (251, 0, 2, Some(0)),
    (251, 3, 2, Some(2)),
    (252, 3, 2, None),
    (256, 16_384, 2, None),
    (256, 16_384, 3, Some(488)),
    (256, 16_384, 34, Some(16_174)),
    (256, 16_384, 35, Some(16_384)),
];

pub fn by_hand(bench: &mut Bench) -> Result<usize, String> {
    for (operations, steps, bad, expected) in COUNTED {
        let draft = Draft { kind: 2, processes: 1, records: vec![put(0, 7); operations], schedule: vec![0; steps] };
        let stream = draft.stream();
        let card = spoiled(&sealed(&stream), &[(bad, Spoil::Byte(SUMMED, 1))], &[]);
        let answer = bench.compare.salvage(&card)?;
        let fits = match expected {
            None => answer.number == 14,
            Some(entries) => bench.compare.output(answer) == sealed(&shortened(&stream, entries)),
        };
        if !fits {
            return Err(kept("spoiled.card", &card, format!("N {operations}, S {steps}, block {bad} spoiled: {answer}")));
        }
    }
    Ok(COUNTED.len())
}

/// The sample of a spoiled card: what comes out has fewer ended operations than the logger wrote, and a double that is none any more.
pub fn sample(bench: &mut Bench) -> Result<usize, String> {
    let mut whole = Whole::of(bench, &samples::spoiled::undamaged())?;
    let before = bench.cuts;
    let number = whole.salvage(bench, &samples::spoiled::card())?;
    let shows = bench.cuts.opened > before.opened && bench.cuts.fewer > before.fewer;
    if number == 0 && shows { Ok(1) } else { Err(format!("number {number}, something to be seen: {shows}")) }
}
