//! The windows that are measured. A full-size run from 22:00 on lasts until 2:33:04, so it passes midnight.

use crate::calendar::Date;
use crate::generate::windows::OPEN;
use crate::job::PROCESSES;
use crate::windows::{Window, Windows};

fn from_ten_at_night(last_four: [Window; 4]) -> Windows {
    let date = Date { year: 2_024, month: 3, day: 1 };
    let mut entries = [OPEN; PROCESSES];
    entries[4..].copy_from_slice(&last_four);
    Windows { date, second: 22 * 3_600, entries }
}

fn every_day(opening: u16, closing: u16) -> Window {
    Window { opening, closing, ..OPEN }
}

/// Nothing is shut.
pub fn open() -> Windows {
    from_ten_at_night([OPEN; 4])
}

/// Four processes are shut half of the time: the second half, the first, the first and last quarter, the two between.
pub fn half() -> Windows {
    from_ten_at_night([every_day(1_320, 17), every_day(17, 1_320), every_day(1_388, 85), every_day(85, 1_388)])
}
