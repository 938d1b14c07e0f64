//! Faults by number, alone and in pairs and threes: the first condition in the paper's order decides, whatever else is wrong.

use super::Bench;
use crate::compare::{ENOUGH, Lent, NUMBERS};
use crate::damage::{self, FILE_NUMBERS, Fault, STREAM_NUMBERS};
use crate::failure::kept;
use crate::file::{FILE_LIMIT, PAYLOAD, WORK};
use crate::generate::{self, Draft, STYLES};
use crate::random::Random;
use crate::samples;

/// How many drafts each combination of numbers is put into.
const DRAFTS: usize = 40;

/// A draft of a random seed.
fn draft(random: &mut Random) -> Draft {
    generate::job(random.below(4_000 * STYLES.len()) as u64)
}

/// Faults with these numbers for one draft; none if it has no place for one of them.
fn faults(numbers: &[u32], draft: &Draft, random: &mut Random) -> Option<Vec<Fault>> {
    numbers.iter().map(|&number| damage::fault(number, draft, random)).collect()
}

fn in_file(bench: &mut Bench, draft: &Draft, faults: &[Fault]) -> Result<(), String> {
    let file = damage::file(draft, faults);
    let number = damage::decides(faults);
    let answered = bench.compare.file(&file).map_err(|why| kept("faults.job", &file, format!("{faults:?}: {why}")))?.number;
    if answered != number {
        return Err(kept("faults.job", &file, format!("{faults:?}: {answered} in place of {number}")));
    }
    let short = Lent { work: WORK - 1, ..ENOUGH };
    let refused = bench.compare.replay(&file, &[], short)?.number == 1 && bench.compare.read(&file, WORK - 1)?.number == 1;
    if refused { Ok(()) } else { Err(kept("faults.job", &file, "short memory must decide".to_string())) }
}

fn in_stream(bench: &mut Bench, draft: &Draft, faults: &[Fault], random: &mut Random) -> Result<(), String> {
    let stream = damage::stream(draft, faults, random);
    let number = damage::decides(faults);
    let answered = bench
        .compare
        .write(&stream, FILE_LIMIT)
        .map_err(|why| kept("faults.stream", &stream, format!("{faults:?}: {why}")))?
        .number;
    if answered != number {
        return Err(kept("faults.stream", &stream, format!("{faults:?}: {answered} in place of {number}")));
    }
    let refused = bench.compare.write(&stream, FILE_LIMIT - 1)?.number == 1;
    if refused { Ok(()) } else { Err(kept("faults.stream", &stream, "short memory must decide".to_string())) }
}

/// Tries a combination of numbers in many drafts; gives how many had a place for it.
fn combination(bench: &mut Bench, numbers: &[u32], random: &mut Random) -> Result<usize, String> {
    let mut count = 0;
    for _ in 0..DRAFTS {
        let draft = draft(random);
        let Some(faults) = faults(numbers, &draft, random) else { continue };
        in_file(bench, &draft, &faults)?;
        if numbers.iter().all(|number| STREAM_NUMBERS.contains(number)) {
            in_stream(bench, &draft, &faults, random)?;
        }
        count += 1;
    }
    if count > 0 { Ok(count) } else { Err(format!("no draft had a place for {numbers:?}")) }
}

pub fn alone(bench: &mut Bench) -> Result<usize, String> {
    let mut random = Random::new(1);
    FILE_NUMBERS.iter().map(|&number| combination(bench, &[number], &mut random)).sum()
}

/// A wrong sum and a wrong number in every two blocks of a file: the earlier block decides, and within a block the sum.
pub fn block_by_block(bench: &mut Bench) -> Result<usize, String> {
    let draft = samples::flood::hour();
    let blocks = draft.stream().len().div_ceil(PAYLOAD);
    for sum in 0..blocks {
        for number in 0..blocks {
            let faults = [damage::wrong_number(number), damage::wrong_sum(sum)];
            in_file(bench, &draft, &faults)?;
            let expected = if sum <= number { 3 } else { 4 };
            if damage::decides(&faults) != expected {
                return Err(format!("blocks {sum} and {number}: the order of the tests is wrong"));
            }
        }
    }
    Ok(blocks * blocks)
}

pub fn pairs(bench: &mut Bench) -> Result<usize, String> {
    let mut random = Random::new(2);
    let mut count = 0;
    for (i, &one) in FILE_NUMBERS.iter().enumerate() {
        for &other in &FILE_NUMBERS[i + 1..] {
            count += combination(bench, &[one, other], &mut random)?;
        }
    }
    Ok(count)
}

pub fn threes(bench: &mut Bench) -> Result<usize, String> {
    let mut random = Random::new(3);
    let mut count = 0;
    for (i, &one) in FILE_NUMBERS.iter().enumerate() {
        for (j, &other) in FILE_NUMBERS.iter().enumerate().skip(i + 1) {
            for &third in &FILE_NUMBERS[j + 1..] {
                count += combination(bench, &[one, other, third], &mut random)?;
            }
        }
    }
    Ok(count)
}

/// The numbers of a salvage: "never 2, 3, 4, 9, 12 or 13".
const SALVAGE_NUMBERS: [u32; 9] = [0, 1, 5, 6, 7, 8, 10, 11, 14];

/// Every number of the tables was met: by replay 0 to 13, by read 0 to 12, by write and by salvage those they have; by salvage no other.
pub fn met(bench: &mut Bench) -> Result<usize, String> {
    let [replay, read, write, salvage] = &bench.compare.met;
    let met = |counts: &[usize; NUMBERS], numbers: &[u32]| numbers.iter().all(|&number| counts[number as usize] > 0);
    println!("  replay {replay:?}\n  read {read:?}\n  write {write:?}\n  salvage {salvage:?}");
    let files = [0, 1].iter().chain(&FILE_NUMBERS).copied().collect::<Vec<_>>();
    let streams = [0, 1].iter().chain(&STREAM_NUMBERS).copied().collect::<Vec<_>>();
    let salvaged = met(salvage, &SALVAGE_NUMBERS) && salvage.iter().filter(|&&count| count > 0).count() == SALVAGE_NUMBERS.len();
    let all = met(replay, &files) && met(replay, &[13]) && met(read, &files) && met(write, &streams) && salvaged;
    let numbers = 2 * files.len() + streams.len() + 1 + SALVAGE_NUMBERS.len();
    if all { Ok(numbers) } else { Err("a number was never met, or met where there is none".to_string()) }
}
