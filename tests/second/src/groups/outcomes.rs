//! The proved traces: both sides give the report of each, and together they meet every outcome of every row of the listings.

use super::Bench;
use super::traces::report_is;
use crate::check;
use crate::file::sealed;
use crate::job::Job;
use crate::proved;
use crate::watch::{CLEARED, Event, Log, ROWS, Row};

/// What decided where a row leads, or whether it changed anything.
#[derive(Clone, Copy, PartialEq, Eq, Debug)]
enum Way {
    /// The row has one way only.
    Always,
    /// The reference that was read: none, or a node.
    None,
    Node,
    /// The mark that was read.
    Clear,
    Raised,
    /// T3: "h = t and n is none", "h = t", "else". W2: "none with t the sentinel".
    Empty,
    Helps,
    Goes,
    /// "Set A from b to c".
    Changed,
    Kept,
    /// The flag that was read, or that kept a V4 from linking; a W4 that cleared a live flag, and one that found it cleared already.
    Live,
    Cleared,
}

type Outcome = (Row, Way);

/// The rows of the listings, each with its ways.
const LISTINGS: [(Row, &[Way]); ROWS] = [
    (Row::Q1, &[Way::Always]),
    (Row::Q2, &[Way::None, Way::Node]),
    (Row::Q3, &[Way::Changed, Way::Kept]),
    (Row::Q4, &[Way::Changed, Way::Kept]),
    (Row::Q5, &[Way::Changed, Way::Kept]),
    (Row::T1, &[Way::Always]),
    (Row::T2, &[Way::Always]),
    (Row::T3, &[Way::Empty, Way::Helps, Way::Goes]),
    (Row::T4, &[Way::Changed, Way::Kept]),
    (Row::T5, &[Way::Changed, Way::Kept]),
    (Row::P1, &[Way::None, Way::Node]),
    (Row::P2, &[Way::Clear, Way::Raised]),
    (Row::P3, &[Way::Changed, Way::Kept]),
    (Row::P4, &[Way::Changed, Way::Kept]),
    (Row::R1, &[Way::None, Way::Node]),
    (Row::R2, &[Way::Clear, Way::Raised]),
    (Row::R3, &[Way::Always]),
    (Row::R4, &[Way::Changed, Way::Kept]),
    (Row::R5, &[Way::Changed, Way::Kept]),
    (Row::V1, &[Way::Always]),
    (Row::V2, &[Way::None, Way::Node]),
    (Row::V3, &[Way::Live, Way::Cleared]),
    (Row::V4, &[Way::Changed, Way::Node, Way::Cleared]),
    (Row::V5, &[Way::Changed, Way::Kept]),
    (Row::V6, &[Way::Changed, Way::Kept]),
    (Row::V7, &[Way::Changed, Way::Kept]),
    (Row::V8, &[Way::Changed, Way::Kept]),
    (Row::W1, &[Way::Always]),
    (Row::W2, &[Way::Empty, Way::None, Way::Node]),
    (Row::W3, &[Way::Live, Way::Cleared]),
    (Row::W4, &[Way::Live, Way::Cleared, Way::Node]),
    (Row::W5, &[Way::Changed, Way::Kept]),
    (Row::W6, &[Way::Changed, Way::Kept]),
    (Row::W7, &[Way::Changed, Way::Kept]),
    (Row::W8, &[Way::Changed, Way::Kept]),
    (Row::W9, &[Way::Changed, Way::Kept]),
];

const OUTCOMES: usize = 70;

fn outcomes() -> impl Iterator<Item = Outcome> {
    LISTINGS.into_iter().flat_map(|(row, ways)| ways.iter().map(move |&way| (row, way)))
}

/// The way that a logged step went.
fn way(log: &Log, event: &Event) -> Way {
    let choose = |holds: bool, yes: Way, no: Way| if holds { yes } else { no };
    let nothing = event.held == 0;
    match event.row {
        Row::Q1 | Row::T1 | Row::T2 | Row::R3 | Row::V1 | Row::W1 => Way::Always,
        Row::W2 if event.answer.is_some() => Way::Empty,
        Row::Q2 | Row::P1 | Row::R1 | Row::V2 | Row::W2 => choose(nothing, Way::None, Way::Node),
        Row::P2 | Row::R2 => choose(nothing, Way::Clear, Way::Raised),
        Row::T3 if latest(log, event, Row::T1) != latest(log, event, Row::T2) => Way::Goes,
        Row::T3 => choose(nothing, Way::Empty, Way::Helps),
        Row::V3 | Row::W3 => choose(nothing, Way::Live, Way::Cleared),
        // a cell is a node and live, or none and cleared, or 0
        Row::V4 if event.wrote.is_none() => choose(event.held == CLEARED, Way::Cleared, Way::Node),
        Row::W4 if event.wrote.is_none() => Way::Node,
        Row::W4 => choose(nothing, Way::Live, Way::Cleared),
        _ => choose(event.wrote.is_some(), Way::Changed, Way::Kept),
    }
}

/// What the operation of a step read at its latest step of a row before it: h at T1, t at T2.
fn latest(log: &Log, event: &Event, row: Row) -> Option<u16> {
    let own = |before: &&Event| before.step < event.step && before.operation == event.operation && before.row == row;
    log.events.iter().filter(own).last().map(|before| before.held)
}

/// The outcomes that the steps of a job meet, by the second replayer's log, and how many operations it drops.
fn met(stream: &[u8]) -> Result<(Vec<Outcome>, usize), String> {
    let job = Job::of_stream(stream).map_err(|number| format!("no job: {number}"))?;
    let (log, _) = check::logged(&job, None);
    Ok((log.events.iter().map(|event| (event.row, way(&log, event))).collect(), log.drops.len()))
}

pub fn proved(bench: &mut Bench) -> Result<usize, String> {
    let traces = proved::traces()?;
    let mut all = vec![];
    let mut dropped = 0;
    for (trace, number) in traces.iter().zip(1..) {
        let (name, stream) = (format!("trace {number}"), trace.draft.stream());
        bench.compare.job(&stream).map_err(|why| format!("{name}: {why}"))?;
        report_is(bench, &name, &sealed(&stream), &[], trace.expected.as_bytes())?;
        let (outcomes, drops) = met(&stream)?;
        all.extend(outcomes);
        dropped += drops;
    }
    let missing: Vec<Outcome> = outcomes().filter(|outcome| !all.contains(outcome)).collect();
    let unrun: Vec<Row> = LISTINGS.iter().map(|&(row, _)| row).filter(|row| all.iter().all(|(run, _)| run != row)).collect();
    if outcomes().count() != OUTCOMES {
        Err(format!("the listings have {OUTCOMES} outcomes"))
    } else if dropped == 0 {
        Err(format!("in {} traces no operation is dropped", traces.len()))
    } else if missing.is_empty() && unrun.is_empty() {
        Ok(traces.len())
    } else {
        Err(format!("in {} traces: rows not run {unrun:?}; outcomes not met {missing:?}", traces.len()))
    }
}
