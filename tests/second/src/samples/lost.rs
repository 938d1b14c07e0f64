//! Small queues that lose as many rounds as document 02 allows, with their reports written out by hand.

use super::{Trace, trace};
use crate::generate::{put, take, turns};
use crate::job::DROP;

/// Both puts have read that node 0 has no next when put 1 links its node at step 5. Put 2 loses two rounds for it: its Q3 at step 6 comes too
/// late, its Q5 at step 9 moves Tail on. Two processes, one put in the record: 2 is the most.
pub fn puts_collide() -> Trace {
    trace(
        "two puts collide",
        1,
        2,
        &[put(0, 1200), put(1, 1310)],
        &turns(&[(0, 2), (1, 2), (0, 1), (1, 4), (0, 1)]),
        "object queue\n\
         op 1 process 0 put 120 first 1 last 10 done\n\
         op 2 process 1 put 131 first 3 last - open\n\
         at 5 put 1\n\
         lost 2\n\
         left 1 1\n",
    )
}

/// The same collision, but put 2 is dropped once its Q3 has come too late, at step 6, and take 3 helps: T4 at step 11. The drop counts for
/// nothing, as the put was not linked: 2 is again the most.
pub fn take_helps() -> Trace {
    trace(
        "a put comes too late, a take helps",
        1,
        2,
        &[put(0, 1200), put(1, 1310), take(1)],
        &turns(&[(0, 2), (1, 2), (0, 1), (1, 1), (DROP + 1, 1), (1, 8), (0, 1)]),
        "object queue\n\
         op 1 process 0 put 120 first 1 last 16 done\n\
         op 2 process 1 put 131 first 3 last - dropped\n\
         op 3 process 1 take first 8 last 15 item 1 value 120\n\
         at 5 put 1\n\
         at 15 take 1 by 3\n\
         lost 2\n\
         left 0\n",
    )
}

/// One process: its put 1 is linked at step 3 and dropped before its Q4, so its own put 2 finds Tail behind: Q5 at step 7. No other process is
/// there, and one drop was made between a changing Q3 and its Q4: 1 is the most.
pub fn own_help() -> Trace {
    trace(
        "a process helps its own dropped put",
        1,
        1,
        &[put(0, 1200), put(0, 1310)],
        &turns(&[(0, 3), (DROP, 1), (0, 3)]),
        "object queue\n\
         op 1 process 0 put 120 first 1 last - dropped\n\
         op 2 process 0 put 131 first 5 last - open\n\
         at 3 put 1\n\
         lost 1\n\
         left 1 1\n",
    )
}
