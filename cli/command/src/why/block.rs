//! Where a window block is wrong, what stands there, and what to do. All of it is number 13; of several faults the first in this order is told:
//! what is no block at all, length, sums, number, the fields, the zeros behind them, and last the date, which only the library can tell to be none.

use super::decided;
use super::place::{bytes, sums_told, word};
use crate::input::looks_like_text;
use crate::words::grouped;
use pigwazet::block::{held, sums};
use pigwazet::limits::{BLOCK, DAY, ENTRY, FRONT, MINUTES, PROCESSES, SUMMED, YEARS};
use std::ops::Range;

/// The bytes that decided, their name, what stands there, and what to do.
pub struct Wrong {
    pub at: Range<usize>,
    name: String,
    found: String,
    remedy: String,
}

const ENTRIES: usize = 2 + FRONT;
const PADDING: usize = ENTRIES + PROCESSES * ENTRY;

pub fn told(block: &[u8]) -> String {
    let Wrong { at, name, found, remedy } = wrong(block);
    let place = match at.len() {
        length if length == block.len() => name,
        1 => format!("{name}, at byte {} of the block", at.start),
        _ => format!("{name}, at bytes {} to {} of the block", at.start, at.end - 1),
    };
    decided(&place, &found, &remedy)
}

/// What is wrong with a block that is refused.
pub fn wrong(block: &[u8]) -> Wrong {
    let length = || whole(block, bytes(block), format!("a window block has {BLOCK} bytes: copy it again, or make it anew"));
    something_else(block).unwrap_or_else(|| block.try_into().map_or_else(|_| length(), within))
}

fn of_bytes(at: Range<usize>, name: impl Into<String>, found: impl Into<String>, remedy: impl Into<String>) -> Wrong {
    Wrong { at, name: name.into(), found: found.into(), remedy: remedy.into() }
}

fn whole(block: &[u8], found: impl Into<String>, remedy: impl Into<String>) -> Wrong {
    of_bytes(0..block.len(), "the block as a whole", found, remedy)
}

/// A text or a job file, whatever its length.
fn something_else(block: &[u8]) -> Option<Wrong> {
    if looks_like_text(block) {
        let remedy = "if it is windows written as text, make their block with `bench windows`";
        Some(whole(block, format!("{} of plain text, which no window block is", bytes(block)), remedy))
    } else if pigwazet::read(block).is_ok() {
        Some(whole(block, "a job file, which no window block is", "name the job file first, the block behind --windows"))
    } else {
        None
    }
}

/// What is wrong within a block.
fn within(block: &[u8; BLOCK]) -> Wrong {
    let entries = || (0..PROCESSES).find_map(|process| entry(block, process));
    let found = sealed(block).or_else(|| front(block)).or_else(entries).or_else(|| padding(block));
    found.unwrap_or_else(|| date(block))
}

/// Sums and number.
fn sealed(block: &[u8; BLOCK]) -> Option<Wrong> {
    let number = word(block, 0);
    if sums(block) != held(block) {
        Some(of_bytes(SUMMED..BLOCK, "its sums", sums_told(block), "copy the block again, or make it anew"))
    } else if number != 0 {
        Some(of_bytes(0..2, "its number", grouped(usize::from(number)), "a window block has the number 0"))
    } else {
        None
    }
}

/// The fields that lie in a range, whatever the others hold.
fn front(block: &[u8; BLOCK]) -> Option<Wrong> {
    let (year, month) = (word(block, 2), block[4]);
    let second = u32::from(word(block, 6)) << 16 | u32::from(word(block, 8));
    if !YEARS.contains(&year) {
        Some(of_bytes(2..4, "the year", year.to_string(), format!("a year is {} to {}", YEARS.start(), YEARS.end())))
    } else if !(1..=12).contains(&month) {
        Some(of_bytes(4..5, "the month", month.to_string(), "a month is 1 to 12"))
    } else if second >= DAY {
        let remedy = format!("a day has the seconds 0 to {}", grouped(DAY as usize - 1));
        Some(of_bytes(6..10, "the second of the day", grouped(second as usize), remedy))
    } else {
        None
    }
}

fn entry(block: &[u8; BLOCK], process: usize) -> Option<Wrong> {
    let at = ENTRIES + ENTRY * process;
    let name = |field: &str| format!("process {process}, its {field}");
    let late = |at: usize, field: &str| {
        let (minute, remedy) = (word(block, at), format!("minutes are 0 to {}", grouped(usize::from(MINUTES))));
        (minute > MINUTES).then(|| of_bytes(at..at + 2, name(field), grouped(usize::from(minute)), remedy))
    };
    if block[at] >> 7 == 1 {
        let remedy = "bit 0 is Monday, bit 6 Sunday, and bit 7 is zero";
        return Some(of_bytes(at..at + 1, name("weekdays"), format!("{}, which has bit 7", block[at]), remedy));
    }
    late(at + 1, "opening").or_else(|| late(at + 3, "closing"))
}

fn padding(block: &[u8; BLOCK]) -> Option<Wrong> {
    let at = (PADDING..SUMMED).find(|&at| block[at] != 0)?;
    let name = "the first byte behind the fields that is not zero";
    Some(of_bytes(at..at + 1, name, block[at].to_string(), "fill the block with zeros behind the fields, and make its sums anew"))
}

/// All else is in range.
fn date(block: &[u8; BLOCK]) -> Wrong {
    let date = format!("{}-{:02}-{:02}", word(block, 2), block[4], block[5]);
    of_bytes(5..6, "the day", format!("{}, for the date {date}", block[5]), "that month of that year has no such day")
}
