//! What becomes of a job's file on a spoiled card: blocks overwritten, lost, doubled, mixed up, or those of another job.

use crate::file::{BLOCK, PAYLOAD, SUMMED, seal_sums};
use crate::random::Random;

/// What is done to a block.
#[derive(Clone, Copy, PartialEq, Eq, Debug)]
pub enum Spoil {
    /// A byte is another, and the sums are as they were.
    Byte(usize, u8),
    /// Two bytes of the payload change places: sum a is right.
    Exchanged,
    /// Three bytes of the payload are others, and both sums are right all the same: nothing shows that the block is spoiled.
    Unseen,
    /// Its number is another, with right sums.
    Number(u16),
    /// All of its bytes are this one.
    All(u8),
    /// It is the block at its position in another job's file.
    Foreign,
    /// It is the block at another position.
    CopyOf(usize),
    SwappedWith(usize),
    /// It is gone, and those behind it move up; or it is there twice, and they move back.
    Lost,
    Twice,
}

/// Bytes of a block: of its number, its payload from the header to the end, sum a and sum b.
const BYTES: [usize; 13] = [0, 1, 2, 4, 7, 8, 100, 506, 507, 508, 509, 510, 511];

/// Every way to spoil a block at this position of a file of so many.
pub fn every(position: usize, blocks: usize) -> Vec<Spoil> {
    let mut every = few(position, blocks);
    every.extend(BYTES.into_iter().flat_map(|at| [1, 128].map(|flip| Spoil::Byte(at, flip))));
    every.extend([position + 256, position + 2, 65_535].map(|number| Spoil::Number(number as u16)));
    every.extend([Spoil::All(255), Spoil::Exchanged, Spoil::Twice]);
    let others = || (0..blocks).filter(|&other| other != position);
    every.extend(others().map(Spoil::SwappedWith));
    every.extend(others().map(Spoil::CopyOf));
    every
}

/// One of most sorts, to be tried in pairs.
pub fn few(position: usize, blocks: usize) -> Vec<Spoil> {
    let next = if position + 1 < blocks { position + 1 } else { 0 };
    let sums = [SUMMED + 1, SUMMED + 3].map(|at| Spoil::Byte(at, 1));
    let number = Spoil::Number(position as u16 + 1);
    let whole = [Spoil::All(0), Spoil::Foreign, Spoil::Unseen, Spoil::CopyOf(next), Spoil::SwappedWith(next), Spoil::Lost];
    [sums.as_slice(), &[Spoil::Byte(300, 16), number], &whole].concat()
}

/// Any of them.
pub fn any(position: usize, blocks: usize, random: &mut Random) -> Spoil {
    match random.below(4) {
        0 => Spoil::Byte(random.below(BLOCK), random.between(1, 255) as u8),
        1 => Spoil::Number(random.word() as u16),
        _ => *random.pick(&every(position, blocks)),
    }
}

/// Spoils the block at a position, if it is still there; `other` is another job's file.
pub fn spoil(file: &mut Vec<u8>, position: usize, spoil: Spoil, other: &[u8]) {
    let at = position * BLOCK;
    if file.len() < at + BLOCK {
        return;
    }
    match spoil {
        Spoil::Lost => drop(file.drain(at..at + BLOCK)),
        Spoil::Twice => drop(file.splice(at..at, file[at..at + BLOCK].to_vec())),
        Spoil::CopyOf(from) if file.len() >= (from + 1) * BLOCK => file.copy_within(from * BLOCK..(from + 1) * BLOCK, at),
        Spoil::SwappedWith(with) if file.len() >= (with + 1) * BLOCK => file.as_chunks_mut::<BLOCK>().0.swap(position, with),
        Spoil::Foreign if other.len() >= at + BLOCK => file[at..at + BLOCK].copy_from_slice(&other[at..at + BLOCK]),
        _ => spoil_bytes(&mut file.as_chunks_mut().0[position], spoil),
    }
}

fn spoil_bytes(block: &mut [u8; BLOCK], spoil: Spoil) {
    match spoil {
        Spoil::Byte(at, flip) => block[at] ^= flip,
        Spoil::All(byte) => block.fill(byte),
        Spoil::Number(number) => {
            block[..2].copy_from_slice(&number.to_be_bytes());
            seal_sums(block);
        }
        Spoil::Exchanged => {
            let unequal = (2..SUMMED - 1).find(|&at| block[at] != block[at + 1]).unwrap_or(2);
            block.swap(unequal, unequal + 1);
        }
        Spoil::Unseen => unseen(block),
        _ => {}
    }
}

/// One more, two less, one more: a comes out the same, and so does b, as what the second byte lacks came one earlier and comes one later.
fn unseen(block: &mut [u8; BLOCK]) {
    let fits = |at: &usize| block[*at] < 255 && block[at + 1] > 1 && block[at + 2] < 255;
    if let Some(at) = (2..PAYLOAD).rev().find(fits) {
        block[at] += 1;
        block[at + 1] -= 2;
        block[at + 2] += 1;
    }
}
