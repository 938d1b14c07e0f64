//! The file of a random job, spoiled at random: a few blocks in any way, then cut, or with something behind it.

use super::{Whole, spoiled};
use crate::damage::cards;
use crate::file::{BLOCK, sealed};
use crate::generate::{self, Draft, STYLES};
use crate::groups::Bench;
use crate::random::Random;

/// Cards of one job.
const CARDS: usize = 3;

pub fn cards(bench: &mut Bench, draft: &Draft, random: &mut Random) -> Result<(), String> {
    let mut whole = Whole::of(bench, draft)?;
    for _ in 0..CARDS {
        let card = card(&whole.file, random);
        whole.salvage(bench, &card)?;
    }
    Ok(())
}

fn card(file: &[u8], random: &mut Random) -> Vec<u8> {
    let blocks = file.len() / BLOCK;
    let other = if random.chance(8) { sealed(&generate::job(random.below(STYLES.len()) as u64).stream()) } else { vec![] };
    let place = |random: &mut Random| {
        let position = random.below(blocks);
        (position, cards::any(position, blocks, random))
    };
    let spoils: Vec<_> = (0..random.below(3)).map(|_| place(random)).collect();
    let mut card = spoiled(file, &spoils, &other);
    match random.below(4) {
        0 => card.truncate(random.below(card.len() + 1)),
        1 => card.extend(vec![random.byte(); random.below(2 * BLOCK)]),
        _ => {}
    }
    card
}
