//! Days, times and windows in the words of docs/TEXT.md.

use pigwazet::limits::{DAY, MINUTE};
use pigwazet::{Start, Window};

/// The days of a week. In texts their first three letters stand for them.
pub const DAYS: [&str; 7] = ["Monday", "Tuesday", "Wednesday", "Thursday", "Friday", "Saturday", "Sunday"];
const SHORT: usize = 3;
/// So many days in a row are written as a range.
const RANGE: usize = 3;

pub const ALWAYS: &str = "always";
pub const SHUT: &str = "shut";
pub const DAILY: &str = "daily";
pub const NEVER: &str = "never";

/// A day's three letters.
pub fn short(day: usize) -> &'static str {
    &DAYS[day % DAYS.len()][..SHORT]
}

/// `2024-02-29 23:59:50`
pub fn start(start: &Start) -> String {
    format!("{:04}-{:02}-{:02} {}", start.year, start.month, start.day, clock(start.second))
}

/// `Thursday`
pub fn weekday(start: &Start) -> &'static str {
    DAYS[usize::from(start.weekday().expect("the date of an accepted block"))]
}

/// When a step falls, by the second of the first day and its weekday: `Thu 23:59:50`
pub fn moment(second: u32, weekday: u8, step: u16) -> String {
    let second = second + u32::from(step) - 1;
    format!("{} {}", short(usize::from(weekday) + (second / DAY) as usize), clock(second % DAY))
}

/// `23:59:50`
fn clock(second: u32) -> String {
    format!("{}:{:02}", minute((second / MINUTE) as u16), second % MINUTE)
}

/// `24:00` for 1440.
fn minute(minute: u16) -> String {
    format!("{:02}:{:02}", minute / 60, minute % 60)
}

/// `Mon-Fri 06:00 to 09:30`, `always` or `shut`
pub fn window(window: Window) -> String {
    match window {
        Window::ALWAYS => ALWAYS.to_string(),
        Window::SHUT => SHUT.to_string(),
        Window { days, opening, closing } => format!("{} {} to {}", self::days(days), minute(opening), minute(closing)),
    }
}

/// `Mon-Fri`, `Sat,Sun`, `daily` or `never`
fn days(bits: u8) -> String {
    let booked: Vec<usize> = (0..DAYS.len()).filter(|day| bits >> day & 1 == 1).collect();
    if booked.len() == DAYS.len() {
        return DAILY.to_string();
    }
    let mut terms = vec![];
    for run in booked.chunk_by(|day, next| day + 1 == *next) {
        match run {
            [first, .., last] if run.len() >= RANGE => terms.push(format!("{}-{}", short(*first), short(*last))),
            _ => terms.extend(run.iter().map(|&day| short(day).to_string())),
        }
    }
    if terms.is_empty() { NEVER.to_string() } else { terms.join(",") }
}

#[cfg(test)]
mod tests {
    use super::*;

    #[test]
    fn windows_in_words() {
        let of = |days, opening, closing| window(Window { days, opening, closing });
        for (words, window) in [
            ("Mon-Fri 06:00 to 09:30", of(0b001_1111, 360, 570)),
            ("Sat,Sun 23:59 to 24:00", of(0b110_0000, 1_439, 1_440)),
            ("Mon,Wed-Fri,Sun 24:00 to 00:00", of(0b101_1101, 1_440, 0)),
            ("Tue 06:00 to 06:00", of(0b000_0010, 360, 360)),
            ("daily 00:00 to 23:59", of(0x7f, 0, 1_439)),
            ("never 00:01 to 00:00", of(0, 1, 0)),
            ("always", of(0x7f, 0, 1_440)),
            ("shut", of(0, 0, 0)),
        ] {
            assert_eq!(words, window);
        }
    }
}
