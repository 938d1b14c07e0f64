//! The sentences of request 7 on one answer: what is kept of the input, and what comes out. Bytes are taken where they stand in the blocks,
//! and the sums are worked out in another way than block by block.

use crate::file::{BLOCK, PAYLOAD, SUMMED};

/// What is kept: so many leading blocks, and A of B entries, behind the header and the records.
#[derive(Clone, Copy, PartialEq, Eq, Debug)]
pub struct Kept {
    pub blocks: usize,
    pub entries: usize,
    pub of: usize,
    front: usize,
}

/// Whether a block would be refused neither 3 nor 4. A byte is once in a, and in b as often as a is added from it on.
fn is_good(block: &[u8], position: usize) -> bool {
    let field = |at: usize| u64::from(block[at]) * 256 + u64::from(block[at + 1]);
    let bytes = || block[..SUMMED].iter().map(|&byte| u64::from(byte)).zip(0..);
    let a = 1 + bytes().map(|(byte, _)| byte).sum::<u64>();
    let b = SUMMED as u64 + bytes().map(|(byte, at)| byte * (SUMMED as u64 - at)).sum::<u64>();
    field(SUMMED) == a % 65_536 && field(SUMMED + 2) == b % 65_536 && field(0) == position as u64
}

/// The byte of a file's stream at an index.
fn byte(file: &[u8], index: usize) -> usize {
    usize::from(file[index / PAYLOAD * BLOCK + 2 + index % PAYLOAD])
}

/// What is kept of an input, or the number of its refusal.
pub fn kept(input: &[u8]) -> Result<Kept, u32> {
    let good = input.chunks_exact(BLOCK).zip(0..).take_while(|(block, position)| is_good(block, *position)).count();
    if good == 0 {
        return Err(14);
    }
    let byte = |index: usize| byte(input, index);
    let (kind, processes, operations, of) = (byte(0), byte(1), byte(2) * 256 + byte(3), byte(4) * 256 + byte(5));
    let ranges = [
        (5, (1..=3).contains(&kind)),
        (6, (1..=8).contains(&processes)),
        (7, (1..=256).contains(&operations)),
        (8, of <= 16_384),
    ];
    if let Some((number, _)) = ranges.iter().find(|(_, in_range)| !in_range) {
        return Err(*number);
    }
    let front = 6 + 4 * operations;
    let blocks = good.min((front + of).div_ceil(PAYLOAD));
    let entries = (blocks * PAYLOAD).checked_sub(front).ok_or(14u32)?.min(of);
    let record =
        |at: usize| byte(at) < processes && (byte(at + 1) == 1 || [byte(at + 1), byte(at + 2), byte(at + 3)] == [2, 0, 0]);
    if !(6..front).step_by(4).all(record) {
        return Err(10);
    }
    let entry = |at: usize| byte(at) % 128 < processes;
    if (front..front + entries).all(entry) { Ok(Kept { blocks, entries, of, front }) } else { Err(11) }
}

/// Whether a number and an output are the answer to an input: what comes out is a file of good blocks, as many as it needs, with the
/// input's header but for S, the input's records, its first entries, and zeros.
pub fn answers(input: &[u8], number: u32, output: &[u8]) -> Result<(), String> {
    let said = |what: String| Err(format!("request 7 {what}"));
    let kept = match (kept(input), number) {
        (Ok(kept), 0) => kept,
        (Err(expected), _) if number == expected => return Ok(()),
        (Ok(kept), _) => return said(format!("keeps {kept:?}, but the number is {number}")),
        (Err(expected), _) => return said(format!("refuses it {expected}, but the number is {number}")),
    };
    let length = kept.front + kept.entries;
    if output.len() != length.div_ceil(PAYLOAD) * BLOCK {
        return said(format!("keeps {kept:?}, but {} bytes come out", output.len()));
    }
    if let Some(block) = output.chunks(BLOCK).zip(0..).position(|(block, position)| !is_good(block, position)) {
        return said(format!("has a proper file come out, but its block {block} is none"));
    }
    let expected = |index: usize| match index {
        4 => kept.entries / 256,
        5 => kept.entries % 256,
        _ if index < length => byte(input, index),
        _ => 0,
    };
    match (0..output.len() / BLOCK * PAYLOAD).find(|&index| byte(output, index) != expected(index)) {
        None => Ok(()),
        Some(index) => {
            said(format!("keeps {kept:?}: byte {index} of the stream is {}, not {}", byte(output, index), expected(index)))
        }
    }
}
