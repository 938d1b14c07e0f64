//! Request 6: when a window is open, which blocks are taken, and what a run within windows comes to.

pub mod days;
pub mod edges;
pub mod orders;
pub mod refused;
pub mod traces;

use super::Bench;
use super::traces::report_is;
use crate::calendar::Date;
use crate::failure::kept_within;
use crate::file::sealed;
use crate::generate::windows::{OPEN, SHUT};
use crate::generate::{Draft, take};
use crate::job::PROCESSES;
use crate::windows::{Window, Windows};

fn date((year, month, day): (u16, u8, u8)) -> Date {
    Date { year, month, day }
}

/// Windows of the first few processes; the others are shut.
fn windows(day: (u16, u8, u8), second: u32, first: &[Window]) -> Windows {
    let entries = std::array::from_fn(|process| first.get(process).copied().unwrap_or(SHUT));
    Windows { date: date(day), second, entries }
}

/// Runs a job within windows, with all the checks of a run.
fn run(bench: &mut Bench, draft: &Draft, windows: &Windows) -> Result<(), String> {
    let (stream, block) = (draft.stream(), windows.block());
    let file = sealed(&stream);
    let fail = |why: String| kept_within("windows", &file, &block, format!("{windows:?}: {why}"));
    bench.seen.add(&bench.compare.run(&stream, &file, &block).map_err(fail)?);
    Ok(())
}

/// A stack that nothing is put on: a take of it ends with the step that begins it, so the report tells of every step whether it was open.
/// Each process has as many takes as its entries.
fn probe(schedule: &[u8]) -> Draft {
    Draft {
        kind: 2,
        processes: PROCESSES as u8,
        records: schedule.iter().map(|&process| take(process)).collect(),
        schedule: schedule.to_vec(),
    }
}

/// The report of a probe in which exactly these steps, counted from 1, are open.
fn probed(schedule: &[u8], open: &[u16]) -> String {
    let mut waiting: Vec<usize> = (0..schedule.len()).collect();
    let mut ends = vec!["first - last - waiting".to_string(); schedule.len()];
    let mut record = String::new();
    for &step in open {
        let process = schedule[usize::from(step) - 1];
        let next = waiting.iter().position(|&i| schedule[i] == process).expect("a take for each entry");
        let i = waiting.remove(next);
        ends[i] = format!("first {step} last {step} empty");
        record += &format!("at {step} empty by {}\n", i + 1);
    }
    let lines =
        ends.iter().zip(schedule).zip(1..).map(|((end, process), number)| format!("op {number} process {process} take {end}\n"));
    format!("object stack\n{}{record}left 0\n", lines.collect::<String>())
}

/// Whether exactly these steps of a probe are open on both sides.
fn opens(bench: &mut Bench, schedule: &[u8], windows: &Windows, open: &[u16]) -> Result<(), String> {
    let file = sealed(&probe(schedule).stream());
    report_is(bench, &format!("{windows:?}"), &file, &windows.block(), probed(schedule, open).as_bytes())
}
