//! Every block of a few jobs, spoiled in every way, alone and in pairs.

use super::{Whole, drafts, foreign, spoiled};
use crate::damage::cards::{Spoil, every, few};
use crate::file::BLOCK;
use crate::groups::Bench;

/// The position of each block with each of the ways to spoil it.
fn places(blocks: usize, ways: fn(usize, usize) -> Vec<Spoil>) -> Vec<(usize, Spoil)> {
    (0..blocks).flat_map(|position| ways(position, blocks).into_iter().map(move |spoil| (position, spoil))).collect()
}

pub fn alone(bench: &mut Bench) -> Result<usize, String> {
    let other = foreign();
    let mut count = 0;
    for draft in drafts() {
        let mut whole = Whole::of(bench, &draft)?;
        for place in places(whole.blocks(), every) {
            let card = spoiled(&whole.file, &[place], &other);
            whole.salvage(bench, &card).map_err(|why| format!("{place:?}: {why}"))?;
            count += 1;
        }
    }
    Ok(count)
}

pub fn pairs(bench: &mut Bench) -> Result<usize, String> {
    let other = foreign();
    let mut count = 0;
    for draft in drafts() {
        let mut whole = Whole::of(bench, &draft)?;
        let places = places(whole.blocks(), few);
        for (i, &one) in places.iter().enumerate() {
            for &next in &places[i + 1..] {
                let card = spoiled(&whole.file, &[one, next], &other);
                whole.salvage(bench, &card).map_err(|why| format!("{one:?}, {next:?}: {why}"))?;
                count += 1;
            }
        }
    }
    Ok(count)
}

/// Every byte of a file of three blocks, a bit at a time and all of it: the block that it is in is spoiled, and so many entries are before it.
pub fn single_changes(bench: &mut Bench) -> Result<usize, String> {
    let flips: Vec<u8> = (0..8).map(|bit| 1 << bit).chain([255]).collect();
    let mut whole = Whole::of(bench, &drafts()[2])?;
    let mut card = whole.file.clone();
    for at in 0..card.len() {
        for &flip in &flips {
            card[at] ^= flip;
            let number = whole.salvage(bench, &card)?;
            if (number == 14) != (at < BLOCK) || number != 0 && number != 14 {
                return Err(format!("byte {at}: {number}"));
            }
            card[at] ^= flip;
        }
    }
    Ok(card.len() * flips.len())
}
