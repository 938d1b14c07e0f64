//! Condition 13: every way in which a window block can be wrong, and its place behind all the others.

use super::{OPEN, probe, run, windows};
use crate::check::windows::is_right;
use crate::compare::{ENOUGH, Lent};
use crate::damage::windows::{LONGEST, every, spoiled};
use crate::damage::{self, FILE_NUMBERS};
use crate::failure::{kept, kept_within};
use crate::file::{BLOCK, SUMMED, WORK, seal_sums, sealed};
use crate::generate::{self, Draft, STYLES, put};
use crate::groups::Bench;
use crate::random::Random;
use crate::windows::{USED, Windows};

fn right() -> Windows {
    windows((2_024, 2, 29), 43_200, &[OPEN; 8])
}

/// A job of one process, which asks nothing of the other seven entries.
fn alone() -> Draft {
    Draft { kind: 1, processes: 1, records: vec![put(0, 15)], schedule: vec![0; 4] }
}

fn number_is(bench: &mut Bench, file: &[u8], block: &[u8], number: u32) -> Result<(), String> {
    let answered = bench.compare.replay(file, block, ENOUGH).map_err(|why| kept_within("refused", file, block, why))?.number;
    let same = answered == number;
    if same { Ok(()) } else { Err(kept_within("refused", file, block, format!("{answered} in place of {number}"))) }
}

/// Each way alone.
pub fn ways(bench: &mut Bench) -> Result<usize, String> {
    let file = sealed(&alone().stream());
    number_is(bench, &file, &right().block(), 0)?;
    let every = every();
    for &wrong in &every {
        number_is(bench, &file, &spoiled(&right(), wrong), 13).map_err(|why| format!("{wrong:?}: {why}"))?;
    }
    Ok(every.len())
}

/// Every length from 0 on: zeros, random bytes, and blocks that are right one behind the other.
pub fn lengths(bench: &mut Bench) -> Result<usize, String> {
    let mut random = Random::new(10);
    let file = sealed(&alone().stream());
    let blocks = [right().block(); 3].concat();
    for length in 0..=LONGEST {
        let number = if length == 0 { 0 } else { 13 };
        number_is(bench, &file, &vec![0; length], number)?;
        number_is(bench, &file, &random.bytes(length), number)?;
        number_is(bench, &file, &blocks[..length], if length == BLOCK { 0 } else { number })?;
    }
    Ok(3 * (LONGEST + 1))
}

/// Every byte changed, a bit at a time and all of it: a sum always differs.
pub fn single_changes(bench: &mut Bench) -> Result<usize, String> {
    let file = sealed(&alone().stream());
    let flips: Vec<u8> = (0..8).map(|bit| 1 << bit).chain([255]).collect();
    let mut block = right().block();
    for at in 0..BLOCK {
        for &flip in &flips {
            block[at] ^= flip;
            number_is(bench, &file, &block, 13)?;
            block[at] ^= flip;
        }
    }
    Ok(BLOCK * flips.len())
}

/// Every other value of every byte that says something, and one of each behind, with right sums: 13, or other windows.
pub fn summed_changes(bench: &mut Bench) -> Result<usize, String> {
    let draft = probe(&[0, 1, 2, 3, 4, 5, 6, 7]);
    let file = sealed(&draft.stream());
    let mut block = right().block();
    let flips = |at: usize| if at < 2 + USED { 1..=255 } else { 255..=255 };
    let mut count = 0;
    for (at, flip) in (0..SUMMED).flat_map(|at| flips(at).map(move |flip| (at, flip))) {
        block[at] ^= flip;
        seal_sums(&mut block);
        number_is(bench, &file, &block, if is_right(&block) { 0 } else { 13 })?;
        if let Ok(Some(windows)) = Windows::read(&block) {
            run(bench, &draft, &windows)?;
        }
        block[at] ^= flip;
        count += 1;
    }
    Ok(count)
}

/// A file that meets this number and no other.
fn refused(number: u32, random: &mut Random) -> Vec<u8> {
    loop {
        let draft = generate::job(random.below(1_000 * STYLES.len()) as u64);
        if let Some(fault) = damage::fault(number, &draft, random) {
            return damage::file(&draft, &[fault]);
        }
    }
}

/// With every way to be wrong, each of the numbers 2 to 12 comes first, and 1 before all.
pub fn behind_others(bench: &mut Bench) -> Result<usize, String> {
    let mut random = Random::new(11);
    let short = Lent { work: WORK - 1, ..ENOUGH };
    let every = every();
    for &wrong in &every {
        let block = spoiled(&right(), wrong);
        for number in FILE_NUMBERS {
            number_is(bench, &refused(number, &mut random), &block, number)?;
        }
        let file = sealed(&alone().stream());
        if bench.compare.replay(&file, &block, short)?.number != 1 {
            return Err(kept("refused.win", &block, "short memory must decide".to_string()));
        }
    }
    for number in FILE_NUMBERS {
        number_is(bench, &refused(number, &mut random), &right().block(), number)?;
    }
    Ok((FILE_NUMBERS.len() + 1) * every.len())
}
