//! The leading blocks of a file that are whole and right, which a salvage keeps, and what is wrong with the one behind them.

use super::place::word;
use pigwazet::block::{held, sums};
use pigwazet::limits::BLOCK;

#[derive(Clone, Copy, PartialEq, Eq, Debug)]
pub enum Wrong {
    /// The file ends before it.
    Missing,
    /// The file ends within it, behind so many bytes.
    Part(usize),
    /// A sum differs.
    Sum,
    /// This is its number, and not its position.
    Number(u16),
}

/// What is wrong with the block at a position; none where nothing is.
pub fn wrong(file: &[u8], position: usize) -> Option<Wrong> {
    let from = file.get(position * BLOCK..).unwrap_or_default();
    match from.first_chunk::<BLOCK>() {
        None if from.is_empty() => Some(Wrong::Missing),
        None => Some(Wrong::Part(from.len())),
        Some(block) if sums(block) != held(block) => Some(Wrong::Sum),
        Some(block) => Some(word(block, 0)).filter(|&number| usize::from(number) != position).map(Wrong::Number),
    }
}

/// The first position whose block is wrong, which is also how many blocks before it are right.
pub fn first_wrong(file: &[u8]) -> (usize, Wrong) {
    (0..).find_map(|position| Some((position, wrong(file, position)?))).expect("a file ends")
}
