//! Every day of the years 2000 to 2099, counted one by one from Saturday, 1 January 2000.

use std::sync::OnceLock;

/// Year, month and day; Monday is weekday 0.
#[derive(Clone, Copy, PartialEq, Eq, PartialOrd, Ord, Debug)]
pub struct Day {
    pub date: (u16, u8, u8),
    pub weekday: u8,
}

/// All of them, in order.
pub fn days() -> &'static [Day] {
    static DAYS: OnceLock<Vec<Day>> = OnceLock::new();
    DAYS.get_or_init(|| dates().into_iter().zip([5, 6, 0, 1, 2, 3, 4].into_iter().cycle()).map(day).collect())
}

fn day((date, weekday): ((u16, u8, u8), u8)) -> Day {
    Day { date, weekday }
}

/// In these hundred years every fourth is a leap year, 2000 among them.
fn dates() -> Vec<(u16, u8, u8)> {
    let mut dates = vec![];
    for year in 2_000..2_100 {
        let february = if year % 4 == 0 { 29 } else { 28 };
        for (month, days) in (1..).zip([31, february, 31, 30, 31, 30, 31, 31, 30, 31, 30, 31]) {
            dates.extend((1..=days).map(|day| (year, month, day)));
        }
    }
    dates
}

/// How many days a date comes after 1 January 2000; none if there is no such date in these years.
pub fn place(date: (u16, u8, u8)) -> Option<usize> {
    days().binary_search_by_key(&date, |day| day.date).ok()
}
