//! Two satellite uplinks that are booked one behind the other: a job, its windows, and its reports without them and within, written out by hand.

use super::{Trace, trace};
use crate::calendar::{DAY, Date};
use crate::generate::{put, take, turns};
use crate::job::{DROP, PROCESSES};
use crate::windows::{Window, Windows};

/// Both uplinks reach for the one reading, as in the listing, and both get it. The drop at step 13 comes too late for its take.
pub fn unbooked() -> Trace {
    trace(
        "two satellite uplinks",
        1,
        3,
        &[put(0, 1200), take(1), take(2)],
        &turns(&[(0, 4), (1, 1), (2, 1), (1, 1), (2, 1), (1, 1), (2, 1), (1, 1), (2, 1), (DROP + 1, 1), (2, 3)]),
        "object queue\n\
         op 1 process 0 put 120 first 1 last 4 done\n\
         op 2 process 1 take first 5 last 11 item 1 value 120\n\
         op 3 process 2 take first 6 last 12 item 1 value 120\n\
         at 3 put 1\n\
         at 11 take 1 by 2 3\n\
         lost 0\n\
         left 0\n",
    )
}

const SHUT: Window = Window { weekdays: 0, opening: 0, closing: 0 };

/// From ten seconds before midnight on, so that 1 March begins with step 11. 29 February 2024 is a Thursday, with bit 3, the day behind it a
/// Friday, with bit 4. The hub may always work, uplink 1 on Thursdays from 23:30 to 24:00, uplink 2 on Fridays from 0:00 to 0:30.
pub fn windows() -> Windows {
    let mut entries = [SHUT; PROCESSES];
    entries[0] = Window { weekdays: 127, opening: 0, closing: 1_440 };
    entries[1] = Window { weekdays: 8, opening: 1_410, closing: 1_440 };
    entries[2] = Window { weekdays: 16, opening: 0, closing: 30 };
    Windows { date: Date { year: 2_024, month: 2, day: 29 }, second: DAY - 10, entries }
}

/// The same job within them. Uplink 1 has made T1, T2 and T3 by step 9 and is shut from step 11 on, where its T5 would be: its take stays
/// open, and is not dropped at step 13. Uplink 2 is shut at steps 6, 8 and 10 and makes its four steps at 12, 14, 15 and 16.
pub const BOOKED: &str = "object queue\n\
     op 1 process 0 put 120 first 1 last 4 done\n\
     op 2 process 1 take first 5 last - open\n\
     op 3 process 2 take first 12 last 16 item 1 value 120\n\
     at 3 put 1\n\
     at 16 take 1 by 3\n\
     lost 0\n\
     left 0\n";
