//! Faults, one for each refusal, that can be put into a job's file or stream together; the first in the paper's order decides.

pub mod cards;
pub mod windows;

use crate::file::{BLOCK, BLOCKS, PAYLOAD, SUMMED, seal_sums, sealed};
use crate::generate::Draft;
use crate::job::{DROP, HEADER, OPERATIONS, PROCESSES, RECORD, STEPS};
use crate::random::Random;

/// One fault: the number of its refusal and what is done.
#[derive(Clone, Copy, Debug)]
pub struct Fault {
    pub number: u32,
    change: Change,
}

#[derive(Clone, Copy, Debug)]
enum Change {
    /// The stream's byte at an index becomes a value.
    Byte(usize, u8),
    /// The stream's two bytes at an index become a value.
    Word(usize, u16),
    /// Blocks of zeros are added, or the last block is taken away.
    MoreBlocks(usize),
    FewerBlocks,
    /// A block has another number, with right sums.
    Number(usize, u16),
    /// A byte of a block's sums is changed.
    Sum(usize, usize, u8),
    /// The file is made longer or shorter by some bytes, or has too many blocks, or is empty.
    MoreBytes(usize),
    FewerBytes(usize),
    TooManyBlocks,
    Nothing,
}

/// The numbers that a file can meet, and those that a stream can.
pub const FILE_NUMBERS: [u32; 11] = [2, 3, 4, 5, 6, 7, 8, 9, 10, 11, 12];
pub const STREAM_NUMBERS: [u32; 8] = [2, 5, 6, 7, 8, 9, 10, 11];

impl Fault {
    /// Where the condition stands in the order of document 01: the sums and numbers go block by block.
    fn place(&self) -> (u32, usize, u32) {
        match self.change {
            Change::Number(block, _) | Change::Sum(block, ..) => (3, block, self.number),
            _ => (self.number, 0, 0),
        }
    }
}

/// The number that must be answered when all these faults are there.
pub fn decides(faults: &[Fault]) -> u32 {
    faults.iter().min_by_key(|fault| fault.place()).map_or(0, |fault| fault.number)
}

/// A wrong sum in a block, and a wrong number with right sums in one.
pub fn wrong_sum(block: usize) -> Fault {
    Fault { number: 3, change: Change::Sum(block, 3, 1) }
}

pub fn wrong_number(block: usize) -> Fault {
    Fault { number: 4, change: Change::Number(block, block as u16 + 1) }
}

/// A byte from `low` up.
fn from(low: u8, random: &mut Random) -> u8 {
    if random.chance(2) { low } else { random.between(usize::from(low), 255) as u8 }
}

/// An entry whose process, without the 128 of a drop, the job has not.
fn no_entry(processes: u8, random: &mut Random) -> u8 {
    let process = match random.below(4) {
        0 | 1 => processes,
        2 => DROP - 1,
        _ => random.between(usize::from(processes), usize::from(DROP) - 1) as u8,
    };
    if random.chance(2) { process } else { DROP + process }
}

/// A fault with the given number, for the file or the stream of a draft; none if the draft has no place for it.
pub fn fault(number: u32, draft: &Draft, random: &mut Random) -> Option<Fault> {
    let length = draft.stream().len();
    let blocks = length.div_ceil(PAYLOAD);
    // the last block may be taken away by another fault
    let block = random.below((blocks - 1).max(1));
    let header_byte = |good_from: u8, good_to: u8, random: &mut Random| {
        if random.chance(2) { good_from - 1 } else { from(good_to + 1, random) }
    };
    let change = match number {
        2 => length_change(random),
        3 => Change::Sum(block, random.below(BLOCK - SUMMED), random.between(1, 255) as u8),
        4 => Change::Number(block, (block + random.between(1, 65_535)) as u16),
        5 => Change::Byte(0, header_byte(1, 3, random)),
        6 => Change::Byte(1, header_byte(1, PROCESSES as u8, random)),
        7 => Change::Word(2, *random.pick(&[0, OPERATIONS as u16 + 1, 512, 65_535])),
        8 => Change::Word(4, *random.pick(&[STEPS as u16 + 1, 16_640, 32_768, 65_535])),
        9 if blocks > 1 && random.chance(2) => Change::FewerBlocks,
        9 if blocks < BLOCKS => Change::MoreBlocks(random.between(1, BLOCKS - blocks)),
        9 => Change::FewerBlocks,
        10 => record_change(draft, random),
        11 if !draft.schedule.is_empty() => {
            let entry = HEADER + RECORD * draft.records.len() + random.below(draft.schedule.len());
            Change::Byte(entry, no_entry(draft.processes, random))
        }
        12 if length < blocks * PAYLOAD => Change::Byte(random.between(length, blocks * PAYLOAD - 1), from(1, random)),
        _ => return None,
    };
    Some(Fault { number, change })
}

fn length_change(random: &mut Random) -> Change {
    match random.below(8) {
        0 => Change::Nothing,
        1 => Change::TooManyBlocks,
        2..=4 => Change::MoreBytes(random.between(1, BLOCK - 1)),
        _ => Change::FewerBytes(random.between(1, BLOCK - 1)),
    }
}

fn record_change(draft: &Draft, random: &mut Random) -> Change {
    let index = random.below(draft.records.len());
    let at = HEADER + RECORD * index;
    let take = draft.records[index][1] == 2;
    match random.below(3) {
        0 => Change::Byte(at, from(draft.processes, random)),
        1 if take => Change::Byte(at + random.between(2, 3), from(1, random)),
        _ => Change::Byte(at + 1, *random.pick(&[0, 3, 4, 128, 129, 255])),
    }
}

/// A draft's stream with the changes that concern the stream, over its padding too.
fn spoiled(draft: &Draft, faults: &[Fault]) -> Vec<u8> {
    let mut stream = draft.stream();
    let length = stream.len();
    stream.resize(length.div_ceil(PAYLOAD) * PAYLOAD, 0);
    for fault in faults {
        match fault.change {
            Change::Byte(at, value) => stream[at] = value,
            Change::Word(at, value) => stream[at..at + 2].copy_from_slice(&value.to_be_bytes()),
            _ => {}
        }
    }
    stream
}

/// A draft's file with all these faults in it.
pub fn file(draft: &Draft, faults: &[Fault]) -> Vec<u8> {
    let mut stream = spoiled(draft, faults);
    for fault in faults {
        match fault.change {
            Change::MoreBlocks(count) => stream.resize(stream.len() + count * PAYLOAD, 0),
            Change::FewerBlocks => stream.truncate(stream.len() - PAYLOAD),
            _ => {}
        }
    }
    let mut file = sealed(&stream);
    for fault in faults {
        if let Change::Number(block, number) = fault.change {
            let block = &mut file.as_chunks_mut().0[block];
            block[..2].copy_from_slice(&number.to_be_bytes());
            seal_sums(block);
        }
    }
    for fault in faults {
        if let Change::Sum(block, byte, flip) = fault.change {
            file[block * BLOCK + SUMMED + byte] ^= flip;
        }
    }
    for fault in faults {
        resize(&mut file, fault.change);
    }
    file
}

fn resize(file: &mut Vec<u8>, change: Change) {
    match change {
        Change::MoreBytes(count) => file.resize(file.len() + count, 0),
        Change::FewerBytes(count) => file.truncate(file.len() - count),
        Change::TooManyBlocks => file.resize((BLOCKS + 1) * BLOCK, 0),
        Change::Nothing => file.clear(),
        _ => {}
    }
}

/// A draft's stream, without padding, with all these faults in it: 9 is a wrong length, 2 a length under six.
pub fn stream(draft: &Draft, faults: &[Fault], random: &mut Random) -> Vec<u8> {
    let mut stream = spoiled(draft, faults);
    stream.truncate(draft.stream().len());
    if faults.iter().any(|fault| fault.number == 9) {
        let lengths = [stream.len() + 1, stream.len() - 1, stream.len() + 506, HEADER, stream.len() + 65_536];
        stream.resize(*random.pick(&lengths), 0);
    }
    if faults.iter().any(|fault| fault.number == 2) {
        stream.truncate(random.below(HEADER));
    }
    stream
}
