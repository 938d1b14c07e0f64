//! Openings and closings to the second: rows worked out by hand, and every combination of some minutes, weekdays and starts.

use super::{opens, probe, run, windows};
use crate::check::almanac::{self, Day};
use crate::check::windows::shut;
use crate::groups::Bench;
use crate::job::{Job, PROCESSES};
use crate::windows::Window;

const MON: u8 = 1;
const TUE: u8 = 2;
const WED: u8 = 4;
const THU: u8 = 8;
const FRI: u8 = 16;
const SUN: u8 = 64;
const ALL: u8 = 127;

/// A date and a second of it, a window, and which of the four steps from then on are open. Two seconds before midnight is 86,398.
type ByHand = ((u16, u8, u8), u32, (u8, u16, u16), &'static [u16]);

const BY_HAND: [ByHand; 32] = [
    // the opening second is in, the closing second is not: 10:00 to 11:00 on Thursday, 29 February 2024
    ((2_024, 2, 29), 35_998, (THU, 600, 660), &[3, 4]),
    ((2_024, 2, 29), 39_598, (THU, 600, 660), &[1, 2]),
    ((2_024, 2, 29), 35_998, (ALL - THU, 600, 660), &[]),
    // a closing before its opening counts a day later: 23:00 to 1:00 from Sunday, 31 December 2023, to Monday
    ((2_023, 12, 31), 82_798, (SUN, 1_380, 60), &[3, 4]),
    ((2_023, 12, 31), 86_398, (SUN, 1_380, 60), &[1, 2, 3, 4]),
    ((2_024, 1, 1), 3_598, (SUN, 1_380, 60), &[1, 2]),
    // it belongs to the day of its opening: on Monday it opens at 23:00, and Monday at 1:00 is Sunday's
    ((2_023, 12, 31), 86_398, (MON, 1_380, 60), &[]),
    ((2_024, 1, 1), 82_798, (MON, 1_380, 60), &[3, 4]),
    ((2_024, 1, 2), 3_598, (MON, 1_380, 60), &[1, 2]),
    // equal minutes are shut
    ((2_024, 2, 29), 35_998, (ALL, 600, 600), &[]),
    ((2_024, 2, 29), 86_398, (ALL, 0, 0), &[]),
    ((2_024, 2, 29), 86_398, (ALL, 1_440, 1_440), &[]),
    // 0 to 1,440 is the whole day and no more
    ((2_024, 2, 28), 86_398, (THU, 0, 1_440), &[3, 4]),
    ((2_024, 2, 29), 86_398, (THU, 0, 1_440), &[1, 2]),
    ((2_024, 2, 29), 86_398, (ALL, 0, 1_440), &[1, 2, 3, 4]),
    // an opening of 1,440 is the next midnight under the weekday before; with a closing of 0 it closes as it opens
    ((2_024, 2, 28), 86_398, (WED, 1_440, 60), &[3, 4]),
    ((2_024, 2, 28), 86_398, (THU, 1_440, 60), &[]),
    ((2_024, 2, 29), 3_598, (WED, 1_440, 60), &[1, 2]),
    ((2_024, 2, 28), 86_398, (ALL, 1_440, 0), &[]),
    ((2_024, 2, 28), 86_398, (WED, 1_380, 0), &[1, 2]),
    // all but one minute, from one day's 10:00 to the next day's 9:59
    ((2_024, 2, 29), 35_938, (ALL, 600, 599), &[1, 2]),
    ((2_024, 2, 29), 35_998, (ALL, 600, 599), &[3, 4]),
    // 1 January 2000, a Saturday, has Friday's window before it; 31 December 2099 is a Thursday, and a Friday follows
    ((2_000, 1, 1), 0, (FRI, 1_320, 120), &[1, 2, 3, 4]),
    ((2_000, 1, 1), 7_198, (FRI, 1_320, 120), &[1, 2]),
    ((2_000, 1, 1), 0, (FRI, 1_440, 1), &[1, 2, 3, 4]),
    ((2_099, 12, 31), 86_398, (THU, 1_380, 60), &[1, 2, 3, 4]),
    ((2_099, 12, 31), 86_398, (FRI, 0, 1_440), &[3, 4]),
    // leap days and the days around them
    ((2_000, 2, 28), 86_398, (TUE, 0, 1_440), &[3, 4]),
    ((2_000, 2, 29), 86_398, (WED, 0, 1_440), &[3, 4]),
    ((2_001, 2, 28), 86_398, (THU, 0, 1_440), &[3, 4]),
    ((2_024, 2, 29), 86_398, (FRI, 0, 1_440), &[3, 4]),
    ((2_024, 12, 31), 86_398, (TUE | WED, 1_439, 1_440), &[1, 2]),
];

pub fn by_hand(bench: &mut Bench) -> Result<usize, String> {
    for (day, second, (weekdays, opening, closing), open) in BY_HAND {
        let windows = windows(day, second, &[Window { weekdays, opening, closing }]);
        opens(bench, &[0; 4], &windows, open)?;
        run(bench, &probe(&[0; 4]), &windows)?;
    }
    Ok(BY_HAND.len())
}

/// Minutes at which windows open and close, and before and after which runs begin.
const MINUTES: [u16; 6] = [0, 1, 600, 601, 1_439, 1_440];

/// Every opening and closing of those, on each weekday alone, on all and on none, in eights.
fn entries() -> Vec<[Window; PROCESSES]> {
    let weekdays = (0..7).map(|weekday| 1 << weekday).chain([0, ALL]);
    let pairs = || MINUTES.iter().flat_map(|&opening| MINUTES.map(|closing| (opening, closing)));
    let all: Vec<Window> =
        weekdays.flat_map(|weekdays| pairs().map(move |(opening, closing)| Window { weekdays, opening, closing })).collect();
    let eights = all.chunks(PROCESSES);
    eights.map(|some| std::array::from_fn(|process| *some.get(process).unwrap_or(&some[0]))).collect()
}

/// From ten seconds before each of the minutes to two behind it, so that each of eight steps comes to both sides.
fn starts() -> Vec<u32> {
    let around = |&minute: &u16| (0..13).map(move |second| (60 * u32::from(minute) + second).wrapping_sub(10));
    let mut starts: Vec<u32> = MINUTES.iter().flat_map(around).filter(|&second| second < 86_400).collect();
    starts.sort_unstable();
    starts.dedup();
    starts
}

/// A week at the beginning of the years, one with a leap day, and one at their end.
fn weeks() -> impl Iterator<Item = &'static Day> {
    let days = almanac::days();
    let leap = almanac::place((2_024, 2, 26)).expect("a date");
    days[..7].iter().chain(&days[leap..leap + 7]).chain(&days[days.len() - 7..])
}

pub fn every(bench: &mut Bench) -> Result<usize, String> {
    let schedule = [0, 1, 2, 3, 4, 5, 6, 7];
    let stream = probe(&schedule).stream();
    let job = Job::of_stream(&stream).map_err(|number| format!("no job: {number}"))?;
    let (entries, starts) = (entries(), starts());
    let mut count = 0;
    for day in weeks() {
        for &second in &starts {
            for first in &entries {
                let windows = windows(day.date, second, first);
                let open: Vec<u16> =
                    (1..).zip(shut(&job, &windows.block())).filter(|(_, shut)| !shut).map(|(step, _)| step).collect();
                opens(bench, &schedule, &windows, &open)?;
                count += 1;
            }
        }
    }
    Ok(count)
}
