//! Request 5 on one run: the lost line of a queue's report counts the returns to Q1 or T1, and is within its bound. The bound is taken
//! twice: with what the steps say of puts and drops, and with what the report alone says.

use super::facts::Facts;
use super::parse::{Effect, Ending, Report};
use crate::job::{Job, Kind};
use crate::watch::Row;

fn ensure(holds: bool, otherwise: impl FnOnce() -> String) -> Result<(), String> {
    if holds { Ok(()) } else { Err(otherwise()) }
}

/// "At most 2 × (P − 1) × K + D, with K the puts in the record and D the drops made between a changing Q3 and its Q4."
pub fn bound(processes: u8, puts: usize, drops: usize) -> usize {
    2 * (usize::from(processes) - 1) * puts + drops
}

/// "It must equal the count by the step table", and be within its bound.
pub fn counted(job: &Job, facts: &Facts, report: &Report) -> Result<(), String> {
    in_report(job, report)?;
    let Some(lost) = report.lost.map(usize::from) else { return Ok(()) };
    ensure(lost == facts.lost, || format!("lost {lost}, but {} returns to Q1 or T1", facts.lost))?;
    let puts = facts.operations.iter().filter(|own| own.change.is_some()).count();
    let drops = facts.operations.iter().filter(|own| own.dropped_before() == Some(Row::Q4)).count();
    let most = bound(job.processes, puts, drops);
    ensure(lost <= most, || format!("lost {lost}, over {most}: {puts} puts and {drops} drops before Q4"))
}

/// What a report says by itself. A dropped put is in the record if its Q3 changed, and has not ended, so its Q4 was not made: those are D.
pub fn in_report(job: &Job, report: &Report) -> Result<(), String> {
    let Some(lost) = report.lost.map(usize::from) else {
        return ensure(job.kind != Kind::Queue, || "a queue without a lost line".to_string());
    };
    ensure(job.kind == Kind::Queue, || "a lost line of a stack".to_string())?;
    let puts: Vec<u16> = report.lines.iter().filter_map(|line| put(&line.effect)).collect();
    let dropped = || report.operations.iter().filter(|own| own.ending == Ending::Dropped);
    let drops = dropped().filter(|own| puts.contains(&own.number)).count();
    let most = bound(job.processes, puts.len(), drops);
    ensure(lost <= most, || format!("lost {lost}, over {most} by the report's puts and drops"))?;
    let none = job.processes == 1 && dropped().next().is_none();
    ensure(!none || lost == 0, || format!("lost {lost}, with one process and no drop"))
}

fn put(effect: &Effect) -> Option<u16> {
    match effect {
        Effect::Put(own) => Some(*own),
        _ => None,
    }
}
