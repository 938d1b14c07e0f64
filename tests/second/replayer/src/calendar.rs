//! Dates of the Gregorian calendar, from 1 January 2000 to 31 December 2099, and moments of a week. There are no clock changes.

pub const MINUTE: u32 = 60;
pub const DAY: u32 = 86_400;

const YEARS: std::ops::RangeInclusive<u16> = 2_000..=2_099;
/// Days are numbered from 1 January 2000, a Saturday. Monday is weekday 0.
const SATURDAY: u32 = 5;
const WEEK: u32 = 7;

/// The days of a common year before each month, and before the year after.
const STARTS: [u32; 13] = [0, 31, 59, 90, 120, 151, 181, 212, 243, 273, 304, 334, 365];

pub fn is_leap(year: u16) -> bool {
    year.is_multiple_of(4) && (!year.is_multiple_of(100) || year.is_multiple_of(400))
}

/// The days of a year before a month; month 13 is the year's end.
fn start(year: u16, month: u8) -> u32 {
    let leap_day = month > 2 && is_leap(year);
    STARTS[usize::from(month) - 1] + u32::from(leap_day)
}

#[derive(Clone, Copy, PartialEq, Eq, Debug)]
pub struct Date {
    pub year: u16,
    pub month: u8,
    pub day: u8,
}

impl Date {
    /// Whether there is such a date, in the years of a window block.
    pub fn exists(self) -> bool {
        let Date { year, month, day } = self;
        let days = || start(year, month + 1) - start(year, month);
        YEARS.contains(&year) && (1..=12).contains(&month) && (1..=days()).contains(&u32::from(day))
    }

    /// The days from 1 January 2000 to this one, which exists.
    pub fn number(self) -> u32 {
        let years: u32 = (*YEARS.start()..self.year).map(|year| start(year, 13)).sum();
        years + start(self.year, self.month) + u32::from(self.day) - 1
    }

    pub fn weekday(self) -> u32 {
        (SATURDAY + self.number()) % WEEK
    }
}

/// What windows ask of a moment: its weekday and its second of the day.
#[derive(Clone, Copy, PartialEq, Eq, Debug)]
pub struct Moment {
    pub weekday: u32,
    pub second: u32,
}

impl Moment {
    pub fn after(self, seconds: u32) -> Moment {
        let second = self.second + seconds;
        Moment { weekday: (self.weekday + second / DAY) % WEEK, second: second % DAY }
    }

    /// The seconds to the next whole minute, 1 to 60.
    pub fn rest_of_minute(self) -> u32 {
        MINUTE - self.second % MINUTE
    }
}

/// The weekday before another.
pub fn day_before(weekday: u32) -> u32 {
    (weekday + WEEK - 1) % WEEK
}
