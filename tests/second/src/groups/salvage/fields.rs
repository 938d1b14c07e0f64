//! Fields of what is kept, in range and out of it: the header, the records at the ends of blocks, entries on both sides of the cut; and
//! random bytes.

use super::{draft_of_200, number_is, spoiled};
use crate::damage::cards::Spoil;
use crate::failure::kept;
use crate::file::{BLOCK, BLOCKS, PAYLOAD, sealed};
use crate::generate::{Draft, put};
use crate::groups::Bench;
use crate::job::{HEADER, RECORD};
use crate::random::Random;

/// Every other value of every byte of the header, with right sums, of a whole file and of one cut behind its first block.
pub fn headers(bench: &mut Bench) -> Result<usize, String> {
    let stream = draft_of_200().stream();
    let mut count = 0;
    for at in 0..HEADER {
        for flip in 1..=255 {
            let mut changed = stream.clone();
            changed[at] ^= flip;
            let card = sealed(&changed);
            for input in [card.as_slice(), &card[..BLOCK]] {
                let answer = bench.compare.salvage(input).map_err(|why| kept("spoiled.card", input, why))?;
                if answer.number == 0 {
                    let output = bench.compare.output(answer).to_vec();
                    bench.compare.accepted(&output)?;
                }
                count += 1;
            }
        }
    }
    Ok(count)
}

/// Every number of operations from 0 on, with no steps and with 600, in a file cut behind each of its blocks: the records of 125 end with
/// the first block.
pub fn records(bench: &mut Bench) -> Result<usize, String> {
    let mut count = 0;
    for operations in 0..=258 {
        for steps in [0, 600] {
            let draft = Draft { kind: 2, processes: 1, records: vec![put(0, 7); operations], schedule: vec![0; steps] };
            let file = sealed(&draft.stream());
            for length in (0..=file.len()).step_by(BLOCK) {
                let whole = length / BLOCK * PAYLOAD >= HEADER + operations * RECORD;
                let number = match operations {
                    _ if length == 0 => 14,
                    1..=256 if whole => 0,
                    1..=256 => 14,
                    _ => 7,
                };
                number_is(bench, &file[..length], number)?;
                count += 1;
            }
        }
    }
    Ok(count)
}

/// Every byte as the last entry kept and as the first that is not, for every P, with the cut a bad block, the file's end, or S.
pub fn entries(bench: &mut Bench) -> Result<usize, String> {
    let mut count = 0;
    for processes in 1..=8 {
        for entry in 0..=255 {
            let number = if entry % 128 < processes { 0 } else { 11 };
            for (place, number) in [(PAYLOAD - 1, number), (PAYLOAD, 0)] {
                entry_is(bench, processes, entry, place, number)?;
                count += 1;
            }
        }
    }
    Ok(count)
}

/// A stream of two blocks with this byte in a place, cut behind its first block in three ways.
fn entry_is(bench: &mut Bench, processes: u8, entry: u8, place: usize, number: u32) -> Result<(), String> {
    let records = vec![put(processes - 1, 7)];
    let mut stream = Draft { kind: 1 + entry % 3, processes, records, schedule: vec![0; 600] }.stream();
    stream[place] = entry;
    let file = sealed(&stream);
    let spoiled = spoiled(&file, &[(1, Spoil::Byte(511, 128))], &[]);
    number_is(bench, &file[..BLOCK + 511], number)?;
    number_is(bench, &spoiled, number)?;
    // S ends with the first block, so the second is one too many
    let short = (PAYLOAD - HEADER - RECORD) as u16;
    stream[4..6].copy_from_slice(&short.to_be_bytes());
    number_is(bench, &sealed(&stream), number)
}

/// Random bytes: without sums, with right sums and numbers, and behind a header in range.
pub fn random(bench: &mut Bench) -> Result<usize, String> {
    const INPUTS: usize = 6_000;
    let mut random = Random::new(15);
    for i in 0..INPUTS {
        let blocks = random.between(1, if i % 4 == 0 { BLOCKS + 2 } else { 3 });
        let mut bytes = random.bytes(blocks * PAYLOAD);
        if i % 3 == 2 {
            bytes[..4].copy_from_slice(&[random.between(1, 3) as u8, 8, 0, random.between(1, 3) as u8]);
            bytes[4] %= 65;
            let operations = usize::from(bytes[3]);
            bytes[HEADER..HEADER + operations * RECORD].copy_from_slice([put(0, 7); 3][..operations].as_flattened());
        }
        let input = if i % 3 == 0 { bytes } else { sealed(&bytes) };
        bench.compare.salvage(&input).map_err(|why| kept("spoiled.card", &input, why))?;
    }
    Ok(INPUTS)
}
