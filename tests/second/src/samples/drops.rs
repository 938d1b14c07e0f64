//! Jobs with drops, one of each object, with their reports written out by hand. An entry of `drop(p)` is a power cut of process p.

use super::{Trace, trace};
use crate::generate::{put, take, turns};
use crate::job::DROP;

fn drop(process: u8) -> (u8, usize) {
    (DROP + process, 1)
}

/// Process 0 loses power between the Q3 that put its reading in and the Q4 that moves Tail. Put 2 finds Tail behind: Q5 helps, at step 7, and
/// a round is lost. Process 0 goes on with put 3, and the uplink takes the reading of put 1 all the same.
pub fn put_dropped() -> Trace {
    trace(
        "a put dropped before its Q4",
        1,
        3,
        &[put(0, 1200), put(1, 1310), put(0, 1420), take(2)],
        &turns(&[(0, 3), drop(0), (1, 7), (0, 4), (2, 4)]),
        "object queue\n\
         op 1 process 0 put 120 first 1 last - dropped\n\
         op 2 process 1 put 131 first 5 last 11 done\n\
         op 3 process 0 put 142 first 12 last 15 done\n\
         op 4 process 2 take first 16 last 19 item 1 value 120\n\
         at 3 put 1\n\
         at 10 put 2\n\
         at 14 put 3\n\
         at 19 take 1 by 4\n\
         lost 1\n\
         left 2 2 3\n",
    )
}

/// Uplink 1 loses power between R3 and R4: it has marked reading 2, which is gone and came nowhere. Put 4 takes the marked node off (P4),
/// and the uplink goes on with take 5.
pub fn take_dropped() -> Trace {
    trace(
        "a take dropped before its R4",
        2,
        2,
        &[put(0, 1200), put(0, 1310), take(1), put(0, 1420), take(1)],
        &turns(&[(0, 5), (1, 3), drop(1), (0, 6), (1, 4)]),
        "object stack\n\
         op 1 process 0 put 120 first 1 last 2 done\n\
         op 2 process 0 put 131 first 3 last 5 done\n\
         op 3 process 1 take first 6 last - dropped\n\
         op 4 process 0 put 142 first 10 last 15 done\n\
         op 5 process 1 take first 16 last 19 item 4 value 142\n\
         at 2 put 1\n\
         at 5 put 2\n\
         at 6 take 2 by 3\n\
         at 15 put 4\n\
         at 16 take 4 by 5\n\
         left 1 1\n",
    )
}

/// Drops with none begun: uplink 1 at step 1, before its first take; at step 12, just after the drop of take 2, so that take 3 is not
/// skipped; and process 0 at step 13, with nothing left to do. Take 2 had passed its W4.
pub fn nothing_dropped() -> Trace {
    trace(
        "drops with none begun",
        3,
        2,
        &[put(0, 1200), take(1), take(1)],
        &turns(&[drop(1), (0, 5), (1, 4), drop(1), drop(1), drop(0), (1, 7)]),
        "object linked\n\
         op 1 process 0 put 120 first 2 last 6 done\n\
         op 2 process 1 take first 7 last - dropped\n\
         op 3 process 1 take first 14 last 20 empty\n\
         at 5 put 1\n\
         at 10 take 1 by 2\n\
         at 20 empty by 3\n\
         left 0\n",
    )
}
