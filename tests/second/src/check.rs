//! Demand 3 and requests 5 and 6, checked on one run: the report's record explains what the steps did, its lost line counts their returns, and
//! shut steps did nothing. The report is taken as text, so that either side's can be judged; the steps come from the second replayer's log,
//! which is itself checked against a plain memory. Request 7 is checked on an answer (`salvage`) and on two reports (`shortened`).

pub mod almanac;
pub mod cut;
pub mod explains;
pub mod facts;
pub mod listing;
pub mod lost;
pub mod order;
pub mod parse;
pub mod salvage;
pub mod seen;
pub mod shortened;
pub mod windows;

use crate::calls::REPORT;
use crate::job::Job;
use crate::report;
use crate::watch::Log;
use crate::windows::Windows;
pub use facts::Facts;
use parse::Report;
pub use seen::Seen;

/// The log of a run, within windows or without, and the report that the second replayer makes of it.
pub fn logged(job: &Job, windows: Option<&Windows>) -> (Log, Vec<u8>) {
    let mut log = Log::default();
    let mut report = vec![0; REPORT];
    let length = report::replay_watched(job, windows, &mut report, &mut log);
    report.truncate(length);
    (log, report)
}

/// Whether a report explains a run, with what was seen of it, or why not.
pub fn explained(job: &Job, log: &Log, facts: &Facts, report: &[u8]) -> Result<Seen, String> {
    let report = Report::of(report)?;
    explains::operations(job, facts, &report)?;
    explains::record(job, facts, &report)?;
    lost::counted(job, facts, &report)?;
    Ok(Seen::of(job, log, facts, &report))
}
