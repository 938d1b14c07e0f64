//! Small jobs in every order, with every place at which windows open and close: each process is open throughout, only before that place,
//! only from there on, or never.

use super::{OPEN, SHUT, run, windows};
use crate::generate::{Draft, put, take};
use crate::groups::Bench;
use crate::groups::every::all_orders;
use crate::job::DROP;
use crate::windows::Window;

/// 10:00, in seconds and in minutes.
const EDGE: u32 = 36_000;
const BEFORE: Window = Window { closing: 600, ..OPEN };
const AFTER: Window = Window { opening: 600, ..OPEN };

fn small(kind: u8, steps: usize) -> Draft {
    Draft { kind, processes: 2, records: vec![put(0, 15), put(1, 25), take(0), take(1)], schedule: vec![0; steps] }
}

/// Every order of seven steps.
pub fn every(bench: &mut Bench) -> Result<usize, String> {
    (1..=3).map(|kind| all_orders(bench, small(kind, 7), 0, |bench, draft, _| every_window(bench, draft))).sum()
}

/// Every order of five, each step once a drop.
pub fn drops(bench: &mut Bench) -> Result<usize, String> {
    (1..=3).map(|kind| all_orders(bench, small(kind, 5), 0, |bench, draft, _| every_drop(bench, draft))).sum()
}

fn every_drop(bench: &mut Bench, draft: &Draft) -> Result<usize, String> {
    let mut count = 0;
    for step in 0..draft.schedule.len() {
        let mut dropping = draft.clone();
        dropping.schedule[step] |= DROP;
        count += every_window(bench, &dropping)?;
    }
    Ok(count)
}

fn every_window(bench: &mut Bench, draft: &Draft) -> Result<usize, String> {
    let mut count = 0;
    for first in [OPEN, BEFORE, AFTER, SHUT] {
        for second in [OPEN, BEFORE, AFTER, SHUT] {
            for made_before in 0..=draft.schedule.len() as u32 {
                let windows = windows((2_024, 2, 29), EDGE - made_before, &[first, second]);
                run(bench, draft, &windows)?;
                count += 1;
            }
        }
    }
    Ok(count)
}
