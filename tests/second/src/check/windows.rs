//! Request 6 in another way than the replayer's: on a count of seconds from 1 January 2000, each day's windows are painted over the steps
//! that they span.

use super::almanac;
use crate::file::{BLOCK, PAYLOAD};
use crate::job::Job;
use std::ops::Range;

const DAY: i64 = 86_400;
/// Where the block has what: "from byte 2".
const YEAR: usize = 2;
const SECOND: usize = 6;
const ENTRIES: Range<usize> = 10..50;
const ZEROS: Range<usize> = 50..2 + PAYLOAD;

fn number(bytes: &[u8]) -> i64 {
    bytes.iter().fold(0, |number, &byte| 256 * number + i64::from(byte))
}

/// Weekday byte, opening and closing minute of each process.
fn entries(block: &[u8]) -> impl Iterator<Item = (u8, i64, i64)> {
    block[ENTRIES].chunks(5).map(|entry| (entry[0], number(&entry[1..3]), number(&entry[3..])))
}

/// The days from 1 January 2000 to the block's date, if there is such a date, and the second of the day.
fn start(block: &[u8]) -> (Option<usize>, i64) {
    let date = (number(&block[YEAR..YEAR + 2]) as u16, block[YEAR + 2], block[YEAR + 3]);
    (almanac::place(date), number(&block[SECOND..SECOND + 4]))
}

/// Whether a block with right sums is taken.
pub fn is_right(block: &[u8; BLOCK]) -> bool {
    let (day, second) = start(block);
    let in_range = |(weekdays, opening, closing): (u8, i64, i64)| weekdays < 128 && opening <= 1_440 && closing <= 1_440;
    let zeros = block[..2].iter().chain(&block[ZEROS]).all(|&byte| byte == 0);
    zeros && day.is_some() && second < DAY && entries(block).all(in_range)
}

/// By step: whether it is outside its process's window. Without a block none is.
pub fn shut(job: &Job, block: &[u8]) -> Vec<bool> {
    let steps = job.schedule.len();
    if block.is_empty() {
        return vec![false; steps];
    }
    let (day, second) = start(block);
    let day = day.expect("a block that is taken has a date") as i64;
    let open: Vec<Vec<bool>> = entries(block).map(|entry| open_steps(entry, day, second, steps)).collect();
    job.schedule.iter().enumerate().map(|(step, entry)| !open[usize::from(entry % 128)][step]).collect()
}

/// By step: whether it falls into a window. More days are painted than can matter.
fn open_steps((weekdays, opening, closing): (u8, i64, i64), first_day: i64, second: i64, steps: usize) -> Vec<bool> {
    let mut open = vec![false; steps];
    let step = |moment: i64| (moment - DAY * first_day - second).clamp(0, steps as i64) as usize;
    for day in first_day - 4..=first_day + 4 {
        // day 0 was a Saturday, and so was every seventh before it
        let weekday = (day + 5).rem_euclid(7);
        let closing_day = if closing < opening { day + 1 } else { day };
        if weekdays >> weekday & 1 == 1 {
            open[step(DAY * day + 60 * opening)..step(DAY * closing_day + 60 * closing)].fill(true);
        }
    }
    open
}
