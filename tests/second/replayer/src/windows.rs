//! Transmission windows: the second input of a replay, empty or one block, and the steps at which it lets a process work.

use crate::calendar::{DAY, Date, MINUTE, Moment, day_before};
use crate::file::{self, BLOCK};
use crate::job::{PROCESSES, Refusal};

/// The last minute that a window may name: the end of its day.
pub const MINUTES: u16 = 1_440;
const FRONT: usize = 8;
const ENTRY: usize = 5;
/// What the payload holds before its zeros: date and second, then the entries.
pub const USED: usize = FRONT + ENTRY * PROCESSES;

/// A process's window: bit 0 of `weekdays` is Monday, bit 6 Sunday; opening and closing count minutes from their day's midnight.
#[derive(Clone, Copy, PartialEq, Eq, Debug)]
pub struct Window {
    pub weekdays: u8,
    pub opening: u16,
    pub closing: u16,
}

impl Window {
    fn in_range(&self) -> bool {
        self.weekdays >> 7 == 0 && self.opening <= MINUTES && self.closing <= MINUTES
    }

    /// Whether a moment falls into the window of its own day, or into that of the day before.
    fn is_open(&self, moment: Moment) -> bool {
        let Moment { weekday, second } = moment;
        self.is_booked(weekday) && self.includes(second) || self.is_booked(day_before(weekday)) && self.includes(second + DAY)
    }

    fn is_booked(&self, weekday: u32) -> bool {
        self.weekdays >> weekday & 1 == 1
    }

    /// Whether a second, counted from the midnight of the window's own day, is in it. "A closing before its opening counts a day later."
    fn includes(&self, second: u32) -> bool {
        let days_later = u32::from(self.closing < self.opening);
        let opens = MINUTE * u32::from(self.opening);
        let closes = MINUTE * u32::from(self.closing) + DAY * days_later;
        (opens..closes).contains(&second)
    }
}

/// The date and the second of the day at which step 1 falls, and each process's window.
#[derive(Clone, Copy, PartialEq, Eq, Debug)]
pub struct Windows {
    pub date: Date,
    pub second: u32,
    pub entries: [Window; PROCESSES],
}

impl Windows {
    /// None for an empty input, the windows of a block, or condition 13.
    pub fn read(input: &[u8]) -> Result<Option<Windows>, Refusal> {
        if input.is_empty() {
            return Ok(None);
        }
        let block: &[u8; BLOCK] = input.try_into().map_err(|_| 13u32)?;
        let payload = file::payload(block, 0).map_err(|_| 13u32)?;
        let windows = Windows::of(payload);
        let padding = &payload[USED..];
        if windows.in_range() && padding.iter().all(|&byte| byte == 0) { Ok(Some(windows)) } else { Err(13) }
    }

    fn of(payload: &[u8]) -> Windows {
        let word = |at: usize| u16::from_be_bytes([payload[at], payload[at + 1]]);
        let date = Date { year: word(0), month: payload[2], day: payload[3] };
        let second = u32::from(word(4)) << 16 | u32::from(word(6));
        let entries = std::array::from_fn(|process| {
            let at = FRONT + ENTRY * process;
            Window { weekdays: payload[at], opening: word(at + 1), closing: word(at + 3) }
        });
        Windows { date, second, entries }
    }

    fn in_range(&self) -> bool {
        self.date.exists() && self.second < DAY && self.entries.iter().all(Window::in_range)
    }

    /// The block that holds them; if they are not in range, one that is refused.
    pub fn block(&self) -> [u8; BLOCK] {
        let Windows { date, second, entries } = self;
        let mut payload = date.year.to_be_bytes().to_vec();
        payload.extend([date.month, date.day]);
        payload.extend(second.to_be_bytes());
        for Window { weekdays, opening, closing } in entries {
            payload.push(*weekdays);
            payload.extend([*opening, *closing].map(u16::to_be_bytes).as_flattened());
        }
        file::sealed(&payload).try_into().expect("one block")
    }

    /// The moment of step 1.
    pub fn start(&self) -> Moment {
        Moment { weekday: self.date.weekday(), second: self.second }
    }

    /// Whether a process may work at a step. "Step k falls k − 1 seconds after the start."
    pub fn is_open(&self, process: u8, step: u16) -> bool {
        self.entries[usize::from(process)].is_open(self.start().after(u32::from(step) - 1))
    }

    /// By bit: the processes that may work at a moment. Windows open and close at whole minutes, so it is the same until the next one.
    pub fn open_at(&self, moment: Moment) -> u8 {
        let bits = self.entries.iter().zip(0..).map(|(entry, process)| u8::from(entry.is_open(moment)) << process);
        bits.fold(0, |open, bit| open | bit)
    }
}
