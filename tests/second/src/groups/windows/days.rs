//! Dates and their weekdays: every day of the hundred years by count, some by a printed calendar, and what is no date.

use super::{OPEN, date, opens, probe, windows};
use crate::check::almanac::{self, Day};
use crate::compare::ENOUGH;
use crate::file::sealed;
use crate::groups::Bench;
use crate::windows::Window;

/// Days as a printed calendar has them; Monday is 0.
const PRINTED: [((u16, u8, u8), u8); 16] = [
    ((2_000, 1, 1), 5),
    ((2_000, 2, 29), 1),
    ((2_000, 3, 1), 2),
    ((2_000, 12, 31), 6),
    ((2_001, 1, 1), 0),
    ((2_001, 2, 28), 2),
    ((2_001, 3, 1), 3),
    ((2_004, 2, 29), 6),
    ((2_016, 2, 29), 0),
    ((2_020, 2, 29), 5),
    ((2_024, 2, 29), 3),
    ((2_024, 12, 25), 2),
    ((2_037, 7, 4), 5),
    ((2_050, 6, 15), 2),
    ((2_096, 2, 29), 2),
    ((2_099, 12, 31), 3),
];

/// Each of the first seven processes has one weekday, all day long.
fn by_weekday() -> [Window; 7] {
    std::array::from_fn(|weekday| Window { weekdays: 1 << weekday, ..OPEN })
}

/// One step of each process: only that of the day's weekday is open, at noon and at the last second before midnight.
fn weekday_is(bench: &mut Bench, day: (u16, u8, u8), weekday: u8) -> Result<(), String> {
    let schedule = [0, 1, 2, 3, 4, 5, 6, 7];
    opens(bench, &schedule, &windows(day, 43_200, &by_weekday()), &[u16::from(weekday) + 1])?;
    let mut last_second = windows(day, 86_399, &[]);
    last_second.entries[7] = Window { weekdays: 1 << weekday, ..OPEN };
    opens(bench, &[7, 7], &last_second, &[1])
}

pub fn printed(bench: &mut Bench) -> Result<usize, String> {
    for (day, weekday) in PRINTED {
        weekday_is(bench, day, weekday)?;
    }
    Ok(PRINTED.len())
}

/// Every day from 1 January 2000 to 31 December 2099, against the count and the second replayer's calendar.
pub fn every(bench: &mut Bench) -> Result<usize, String> {
    for (&Day { date: day, weekday }, number) in almanac::days().iter().zip(0..) {
        let own = date(day);
        if !own.exists() || own.number() != number || own.weekday() != u32::from(weekday) {
            return Err(format!("{own:?} is day {number}, weekday {weekday}"));
        }
        weekday_is(bench, day, weekday)?;
    }
    let days = almanac::days().len();
    if days == 36_525 { Ok(days) } else { Err(format!("{days} days in a hundred years")) }
}

/// A block of that date is taken exactly if the count has it.
fn is_taken(bench: &mut Bench, day: (u16, u8, u8)) -> Result<(), String> {
    let block = windows(day, 0, &[]).block();
    let file = sealed(&probe(&[0]).stream());
    let number = bench.compare.replay(&file, &block, ENOUGH).map_err(|why| format!("{day:?}: {why}"))?.number;
    let expected = if almanac::place(day).is_some() { 0 } else { 13 };
    if number == expected { Ok(()) } else { Err(format!("{day:?}: {number} in place of {expected}")) }
}

/// Every year that two bytes hold; the ends of the months 0 to 13 of every year; and of a leap year and a common one, every month and every day that
/// a byte holds.
pub fn taken(bench: &mut Bench) -> Result<usize, String> {
    let mut days: Vec<(u16, u8, u8)> = (0..=u16::MAX).map(|year| (year, 1, 1)).collect();
    for year in 1_999..=2_100 {
        days.extend((0..=13).flat_map(|month| [0, 1, 28, 29, 30, 31, 32].map(|day| (year, month, day))));
    }
    for year in [2_000, 2_023] {
        days.extend((0..=255).map(|month| (year, month, 1)));
        days.extend((1..=12).flat_map(|month| (0..=255).map(move |day| (year, month, day))));
    }
    for &day in &days {
        is_taken(bench, day)?;
    }
    Ok(days.len())
}
