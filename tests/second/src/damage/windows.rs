//! Window blocks that are not right, each in one way: all of them are refused with 13.

use crate::calendar::{DAY, Date};
use crate::file::{BLOCK, SUMMED, seal_sums};
use crate::job::PROCESSES;
use crate::windows::{MINUTES, USED, Windows};

/// What is done to a block that is right.
#[derive(Clone, Copy, PartialEq, Eq, Debug)]
pub enum Wrong {
    /// It is cut, or it begins anew behind itself.
    Length(usize),
    /// Its number, with right sums.
    Number(u16),
    /// A byte of its sums is another.
    Sum(usize, u8),
    Date(u16, u8, u8),
    Second(u32),
    /// Of a process.
    Weekdays(usize, u8),
    Opening(usize, u16),
    Closing(usize, u16),
    /// A byte behind the entries is not zero.
    Padding(usize, u8),
}

/// The longest input that is tried.
pub const LONGEST: usize = 1_100;

/// Days that no month has, and months and years that a block has not.
const NO_DATES: [(u16, u8, u8); 25] = [
    (2_001, 2, 29),
    (2_099, 2, 29),
    (2_000, 2, 30),
    (2_024, 2, 30),
    (2_024, 1, 32),
    (2_024, 3, 32),
    (2_024, 4, 31),
    (2_024, 5, 32),
    (2_024, 6, 31),
    (2_024, 7, 32),
    (2_024, 8, 32),
    (2_024, 9, 31),
    (2_024, 10, 32),
    (2_024, 11, 31),
    (2_024, 12, 32),
    (2_024, 1, 0),
    (2_024, 0, 1),
    (2_024, 13, 1),
    (2_024, 255, 1),
    (2_024, 1, 255),
    (1_999, 12, 31),
    (2_100, 1, 1),
    (2_100, 2, 29),
    (0, 1, 1),
    (65_535, 1, 1),
];

/// Every way, each range at its edges.
pub fn every() -> Vec<Wrong> {
    let mut every: Vec<Wrong> = (1..=LONGEST).filter(|&length| length != BLOCK).map(Wrong::Length).collect();
    every.extend([1, 255, 256, 65_535].map(Wrong::Number));
    every.extend((0..BLOCK - SUMMED).flat_map(|byte| [1, 128, 255].map(|flip| Wrong::Sum(byte, flip))));
    every.extend(NO_DATES.map(|(year, month, day)| Wrong::Date(year, month, day)));
    every.extend([DAY, DAY + 1, 131_072, 16_777_216, 2_147_483_648, u32::MAX].map(Wrong::Second));
    for process in 0..PROCESSES {
        every.extend([128, 129, 255].map(|weekdays| Wrong::Weekdays(process, weekdays)));
        for minute in [MINUTES + 1, 1_536, 32_768, 65_535] {
            every.extend([Wrong::Opening(process, minute), Wrong::Closing(process, minute)]);
        }
    }
    every.extend((2 + USED..SUMMED).flat_map(|at| [1, 128].map(|byte| Wrong::Padding(at, byte))));
    every
}

/// The block of right windows, made wrong.
pub fn spoiled(windows: &Windows, wrong: Wrong) -> Vec<u8> {
    let mut block = changed(*windows, wrong).block();
    match wrong {
        Wrong::Number(number) => block[..2].copy_from_slice(&number.to_be_bytes()),
        Wrong::Padding(at, byte) => block[at] = byte,
        _ => {}
    }
    seal_sums(&mut block);
    match wrong {
        Wrong::Length(length) => return block.into_iter().cycle().take(length).collect(),
        Wrong::Sum(byte, flip) => block[SUMMED + byte] ^= flip,
        _ => {}
    }
    block.to_vec()
}

/// The windows with what is wrong in a field.
fn changed(mut windows: Windows, wrong: Wrong) -> Windows {
    match wrong {
        Wrong::Date(year, month, day) => windows.date = Date { year, month, day },
        Wrong::Second(second) => windows.second = second,
        Wrong::Weekdays(process, weekdays) => windows.entries[process].weekdays = weekdays,
        Wrong::Opening(process, minute) => windows.entries[process].opening = minute,
        Wrong::Closing(process, minute) => windows.entries[process].closing = minute,
        Wrong::Length(_) | Wrong::Number(_) | Wrong::Sum(..) | Wrong::Padding(..) => {}
    }
    windows
}
