//! Random windows for a run: it begins close to an edge of a day, a month, a year or a window, and windows open and close while it lasts.

use crate::calendar::{DAY, Date, MINUTE, Moment};
use crate::check::almanac;
use crate::random::Random;
use crate::windows::{MINUTES, Window, Windows};

/// A window that is never open, and one that always is.
pub const SHUT: Window = Window { weekdays: 0, opening: 0, closing: 0 };
pub const OPEN: Window = Window { weekdays: 127, opening: 0, closing: MINUTES };

/// Leap days, ends of months and years, and the first and last dates of a block.
const SHARP_DATES: [(u16, u8, u8); 16] = [
    (2_000, 1, 1),
    (2_000, 2, 28),
    (2_000, 2, 29),
    (2_000, 3, 1),
    (2_000, 12, 31),
    (2_001, 2, 28),
    (2_001, 3, 1),
    (2_024, 2, 28),
    (2_024, 2, 29),
    (2_024, 12, 31),
    (2_025, 1, 1),
    (2_050, 6, 30),
    (2_099, 2, 28),
    (2_099, 3, 1),
    (2_099, 12, 30),
    (2_099, 12, 31),
];

/// Windows for a run of so many steps.
pub fn windows(steps: usize, random: &mut Random) -> Windows {
    let date = date(random);
    let edge = minute(random);
    let second = second(edge, steps, random);
    let start = Moment { weekday: date.weekday(), second };
    let entries = std::array::from_fn(|_| window(start, edge, steps, random));
    Windows { date, second, entries }
}

fn date(random: &mut Random) -> Date {
    let (year, month, day) = if random.chance(2) { *random.pick(&SHARP_DATES) } else { random.pick(almanac::days()).date };
    Date { year, month, day }
}

fn minute(random: &mut Random) -> u16 {
    match random.below(3) {
        0 => *random.pick(&[0, 1, 719, 720, MINUTES - 1, MINUTES]),
        _ => random.between(0, usize::from(MINUTES)) as u16,
    }
}

/// Mostly one from which a run of so many steps comes to that minute, or just not.
fn second(edge: u16, steps: usize, random: &mut Random) -> u32 {
    match random.below(8) {
        0 => 0,
        1 => DAY - 1,
        2 => random.below(DAY as usize) as u32,
        _ => (DAY + MINUTE * u32::from(edge) + 2 - random.below(steps + 4) as u32) % DAY,
    }
}

/// A window that begins or ends at that minute or while the run lasts, on this weekday, the one before or any.
fn window(start: Moment, edge: u16, steps: usize, random: &mut Random) -> Window {
    let end = |random: &mut Random| match random.below(6) {
        0 | 1 => edge,
        2 | 3 => (start.after(random.below(steps + 60) as u32).second / MINUTE) as u16,
        4 => edge.abs_diff(1),
        _ => minute(random),
    };
    let (opening, closing) = match random.below(10) {
        0 => (0, MINUTES),
        1 => (edge, edge),
        _ => (end(random), end(random)),
    };
    Window { weekdays: weekdays(start.weekday, random), opening, closing }
}

fn weekdays(today: u32, random: &mut Random) -> u8 {
    let (yesterday, tomorrow) = (1 << ((today + 6) % 7), 1 << ((today + 1) % 7));
    let today = 1 << today;
    let any = random.byte();
    *random.pick(&[127, 127, 0, today, yesterday, tomorrow, today | yesterday, !today, !yesterday, any]) & 127
}
