//! Every order of steps of a few small jobs, for each object; and of some, with one drop and with two drops in every place.

use super::Bench;
use crate::failure::kept;
use crate::file::sealed;
use crate::generate::{Draft, put, take, turns};
use crate::job::{DROP, Record};

/// Operations, the steps with which every order of them begins, and how many follow in any order.
struct Small {
    processes: u8,
    begun: Vec<u8>,
    steps: usize,
    records: Vec<Record>,
}

fn small(processes: u8, begun: &[(u8, usize)], steps: usize, records: &[Record]) -> Small {
    Small { processes, begun: turns(begun), steps, records: records.to_vec() }
}

/// A queue's and a stack's operations are short enough to begin with nothing.
fn short() -> Vec<Small> {
    vec![
        small(2, &[], 13, &[put(0, 15), take(1), put(0, 35), take(1)]),
        small(2, &[], 12, &[put(0, 15), put(1, 15), take(0), take(1)]),
        small(3, &[], 9, &[put(0, 15), take(1), take(2)]),
        small(3, &[], 9, &[put(0, 15), put(1, -35), take(2)]),
    ]
}

/// A linked stack's, from fresh memory; with one item in; with Top behind; with all before the row that decides; with a dead node on top.
fn linked() -> Vec<Small> {
    let put_all = (0, 5);
    vec![
        small(2, &[], 14, &[put(0, 15), take(1), put(0, 35), take(1)]),
        small(2, &[put_all], 14, &[put(0, 15), take(0), take(1), put(1, 35)]),
        small(2, &[(0, 4)], 14, &[put(0, 15), take(0), put(1, 35), take(1)]),
        small(3, &[put_all, (0, 3), (1, 3), (2, 3)], 9, &[put(0, 15), take(0), take(1), put(2, 35)]),
        small(3, &[put_all, (0, 3), (1, 3), (2, 3)], 9, &[put(0, 15), put(0, 25), put(1, 35), take(2)]),
        small(3, &[put_all, (0, 4), (1, 3), (2, 3)], 9, &[put(0, 15), take(0), put(1, 35), take(2)]),
    ]
}

/// For drops, a queue's: from fresh memory; with a put before its Q4; with an item in and two takes before their T5.
fn queue_drops() -> Vec<Small> {
    let put_all = (0, 4);
    vec![
        small(2, &[], 9, &[put(0, 15), put(1, 25), take(0), take(1)]),
        small(2, &[(0, 3)], 9, &[put(0, 15), take(0), put(1, 35), take(1)]),
        small(2, &[put_all, (0, 3), (1, 1)], 9, &[put(0, 15), take(0), take(1), take(0), take(1)]),
        small(3, &[put_all, (0, 2), (1, 3), (2, 3)], 6, &[put(0, 15), put(0, 25), take(1), take(2), take(1), put(2, 35)]),
    ]
}

/// A stack's: from fresh memory; with a take before its R4; with two takes before their R3 and a put before its P3.
fn stack_drops() -> Vec<Small> {
    let put_all = (0, 2);
    vec![
        small(2, &[], 9, &[put(0, 15), take(1), put(0, 35), take(1)]),
        small(2, &[put_all, (1, 3)], 9, &[put(0, 15), take(1), put(0, 25), take(1)]),
        small(2, &[put_all, (0, 2), (1, 2)], 9, &[put(0, 15), take(0), take(1), take(0), put(1, 35)]),
        small(3, &[put_all, (0, 2), (1, 2), (2, 2)], 6, &[put(0, 15), put(0, 25), take(1), take(2), take(1), take(2)]),
    ]
}

/// A linked stack's: with a put before its V4; before its V5; with a take before its W5; with all before the row that decides.
fn linked_drops() -> Vec<Small> {
    let put_all = (0, 5);
    vec![
        small(2, &[(0, 3), (1, 1)], 9, &[put(0, 15), put(1, 25), take(0), take(1)]),
        small(2, &[(0, 4)], 9, &[put(0, 15), take(0), put(1, 35), take(1)]),
        small(2, &[put_all, (0, 4), (1, 2)], 9, &[put(0, 15), take(0), put(1, 35), take(0), take(1)]),
        small(3, &[put_all, (0, 3), (1, 3), (2, 3)], 6, &[put(0, 15), put(0, 25), take(1), take(2), take(1), put(2, 35)]),
    ]
}

/// Every order of the small jobs without drops.
pub fn schedules(bench: &mut Bench) -> Result<usize, String> {
    of_each(bench, [short(), short(), linked()], as_it_is)
}

/// Every order of the small jobs for drops, with one and with two.
pub fn drops(bench: &mut Bench) -> Result<usize, String> {
    of_each(bench, [queue_drops(), stack_drops(), linked_drops()], with_drops)
}

/// What is done with a draft whose first so many steps stay.
type Test = fn(&mut Bench, &Draft, usize) -> Result<usize, String>;

/// Every order of the small jobs of kinds 1, 2 and 3.
fn of_each(bench: &mut Bench, jobs: [Vec<Small>; 3], test: Test) -> Result<usize, String> {
    let mut count = 0;
    for (jobs, kind) in jobs.into_iter().zip(1..) {
        for Small { processes, begun, steps, records } in jobs {
            let schedule = [begun.as_slice(), &vec![0; steps]].concat();
            count += all_orders(bench, Draft { kind, processes, records, schedule }, begun.len(), test)?;
        }
    }
    Ok(count)
}

/// Every order of the steps behind the first `begun`.
pub(super) fn all_orders(bench: &mut Bench, mut draft: Draft, begun: usize, test: Test) -> Result<usize, String> {
    let mut count = 0;
    loop {
        count += test(bench, &draft, begun)?;
        if !advance(&mut draft.schedule[begun..], draft.processes) {
            return Ok(count);
        }
    }
}

fn as_it_is(bench: &mut Bench, draft: &Draft, _: usize) -> Result<usize, String> {
    let stream = draft.stream();
    let file = sealed(&stream);
    let seen = bench.compare.run(&stream, &file, &[]).map_err(|why| kept("order.job", &file, why))?;
    bench.seen.add(&seen);
    Ok(1)
}

/// Drops in every two places; where the two are one, one drop.
fn with_drops(bench: &mut Bench, draft: &Draft, begun: usize) -> Result<usize, String> {
    let mut count = 0;
    for one in begun..draft.schedule.len() {
        for other in one..draft.schedule.len() {
            let mut dropping = draft.clone();
            dropping.schedule[one] |= DROP;
            dropping.schedule[other] |= DROP;
            count += as_it_is(bench, &dropping, begun)?;
        }
    }
    Ok(count)
}

/// The next schedule, counted in base `processes`; false after the last one.
fn advance(schedule: &mut [u8], processes: u8) -> bool {
    for entry in schedule {
        *entry += 1;
        if *entry < processes {
            return true;
        }
        *entry = 0;
    }
    false
}
