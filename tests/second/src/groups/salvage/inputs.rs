//! Inputs of every length: cut, with something behind the file, and far too long; and padding that is not zero.

use super::{Whole, drafts, shortened};
use crate::failure::kept;
use crate::file::{BLOCK, PAYLOAD, SUMMED, seal_sums, sealed};
use crate::generate::{Draft, put};
use crate::groups::Bench;
use crate::random::Random;

/// Files of at most so many blocks are cut at every length, longer ones around the ends of their blocks.
const SMALL: usize = 3;
/// How far lengths go past a file's end.
const PAST: usize = BLOCK + 20;

fn lengths(file: usize) -> Vec<usize> {
    let near_an_end = |length: &usize| file <= SMALL * BLOCK || (length + 3) % BLOCK < 7;
    (0..=file + PAST).filter(near_an_end).collect()
}

/// What may be behind a file: zeros, random bytes, the file once more, and blocks that would be the next ones.
fn behind(file: &[u8], random: &mut Random) -> [Vec<u8>; 4] {
    let next = good_blocks(file.len() / BLOCK, 2, random);
    [vec![0; PAST], random.bytes(PAST), file[..BLOCK].repeat(2), next]
}

/// So many blocks with right sums and numbers, from a position on.
fn good_blocks(from: usize, count: usize, random: &mut Random) -> Vec<u8> {
    let mut blocks = sealed(&random.bytes(count * PAYLOAD));
    for (block, position) in blocks.as_chunks_mut().0.iter_mut().zip(from..) {
        block[..2].copy_from_slice(&(position as u16).to_be_bytes());
        seal_sums(block);
    }
    blocks
}

/// At every length, with each sort of bytes behind the file: what comes out is what the whole blocks hold, and past the end the file.
pub fn every_length(bench: &mut Bench) -> Result<usize, String> {
    let mut random = Random::new(13);
    let mut count = 0;
    for draft in drafts() {
        let mut whole = Whole::of(bench, &draft)?;
        for behind in behind(&whole.file, &mut random) {
            let long = [whole.file.as_slice(), &behind].concat();
            for length in lengths(whole.file.len()) {
                whole.salvage(bench, &long[..length])?;
                if let Some(part) = length.checked_sub(whole.file.len()) {
                    same(bench, &whole.file, &behind[..part])?;
                }
                count += 1;
            }
        }
    }
    Ok(count)
}

/// How many blocks are behind the file: up to 35 in all and more. Of one job so many that their numbers run over.
const MORE: [usize; 7] = [1, 2, 5, 33, 34, 35, 100];
const FAR_MORE: usize = 65_600;

/// Blocks behind the exact count, good ones and bad ones in every order of the first few, and part of a block behind them: none is looked at.
pub fn long(bench: &mut Bench) -> Result<usize, String> {
    let mut random = Random::new(14);
    let mut count = 0;
    for draft in drafts() {
        let file = sealed(&draft.stream());
        for more in MORE {
            let good = good_blocks(file.len() / BLOCK, more, &mut random);
            for spoiled in 0..1 << more.min(3) {
                let mut behind = good.clone();
                for (i, block) in behind.chunks_mut(BLOCK).take(3).enumerate().filter(|(i, _)| spoiled >> i & 1 == 1) {
                    block[SUMMED + i] ^= 1;
                }
                let part = random.below(BLOCK);
                behind.extend(random.bytes(part));
                same(bench, &file, &behind)?;
                count += 1;
            }
        }
    }
    let file = sealed(&drafts()[2].stream());
    same(bench, &file, &good_blocks(file.len() / BLOCK, FAR_MORE, &mut random))?;
    Ok(count + 1)
}

/// Whether a file with bytes behind it comes out the same.
fn same(bench: &mut Bench, file: &[u8], behind: &[u8]) -> Result<(), String> {
    let input = [file, behind].concat();
    let fail = |why: String| kept("spoiled.card", &input, why);
    let answer = bench.compare.salvage(&input).map_err(fail)?;
    let same = bench.compare.output(answer) == file;
    if same { Ok(()) } else { Err(fail("what is behind the file is not left away".to_string())) }
}

/// Padding that is not zero, with right sums, byte by byte and all of it: the file comes out with zeros. It is refused 12 otherwise.
pub fn padding(bench: &mut Bench) -> Result<usize, String> {
    let mut count = 0;
    for draft in drafts() {
        let stream = draft.stream();
        let file = sealed(&stream);
        let length = stream.len().div_ceil(PAYLOAD) * PAYLOAD;
        let mut padded = stream.clone();
        padded.resize(length, 255);
        let bytes = (stream.len()..length).map(|at| {
            let mut padded = stream.clone();
            padded.resize(length, 0);
            padded[at] = 1;
            padded
        });
        for padded in bytes.chain([padded]) {
            let input = sealed(&padded);
            let number = bench.compare.file(&input)?.number;
            let answer = bench.compare.salvage(&input).map_err(|why| kept("spoiled.card", &input, why))?;
            if number != 12 || bench.compare.output(answer) != file {
                return Err(kept("spoiled.card", &input, format!("padding that is not zero, {number}")));
            }
            count += 1;
        }
    }
    Ok(count)
}

/// A schedule that ends around a block's end, in a file cut there: the entries of the whole blocks, exactly.
pub fn ends(bench: &mut Bench) -> Result<usize, String> {
    let mut count = 0;
    for blocks in 1..=32 {
        for length in blocks * PAYLOAD - 2..=blocks * PAYLOAD + 2 {
            let draft = Draft { kind: 1, processes: 1, records: vec![put(0, 7)], schedule: vec![0; length - 10] };
            let stream = draft.stream();
            let file = sealed(&stream);
            let mut whole = Whole::of(bench, &draft)?;
            whole.salvage(bench, &file[..blocks * BLOCK])?;
            let answer = bench.compare.salvage(&file[..blocks * BLOCK])?;
            let expected = sealed(&shortened(&stream, length.min(blocks * PAYLOAD) - 10));
            if bench.compare.output(answer) != expected {
                return Err(kept("spoiled.card", &file[..blocks * BLOCK], format!("L {length}, {blocks} blocks")));
            }
            count += 1;
        }
    }
    Ok(count)
}
