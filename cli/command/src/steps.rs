//! `bench steps`: the run step by step. The steps are the second replayer's, so they are shown only where its report is the proved one.

mod access;
mod drops;
mod lost;

use crate::status::{Failure, Status, say};
use crate::turns::Turns;
use crate::words::counted;
use crate::{input, output};
use pigwazet::{Kind, Turn};
use second_replayer::calls::REPORT;
use second_replayer::file::{self, WORK};
use second_replayer::machine::{Answer, NONE};
use second_replayer::report;
use second_replayer::watch::{self, Cell, Event, Log, Row};
use second_replayer::windows::Windows;
use std::ops::RangeInclusive;
use std::path::Path;

/// Which steps are asked for.
pub struct Asked {
    /// Those of an operation.
    pub op: Option<u16>,
    pub from: u16,
    pub to: Option<u16>,
}

pub fn run(path: &Path, windows: Option<&Path>, Asked { op, from, to }: Asked) -> Result<Status, Failure> {
    let both = |file: &[u8], block: &[u8]| Ok((input::replayed(file, block)?, second(file, block)));
    let Some(((turns, proved), second)) = input::accepted(path, windows, both)? else { return Ok(Status::Refused) };
    let operations = turns.job.operations.len();
    if op.is_some_and(|op| !(1..=operations).contains(&usize::from(op))) {
        return Err(Failure(format!("--op is one of the job's operations, 1 to {operations}.")));
    }
    let range = range(from, to, turns.job.schedule.len())?;
    let log = agreed(second, &turns, proved.as_str())?;
    let text = told(&turns, &log, op, &range);
    output::print(&text)?;
    if text.lines().count() == 1 {
        say(&op.map_or("The job has no steps.".to_string(), |op| format!("Operation {op} made no step there.")));
    }
    let run = proved.run();
    let asked = op.and_then(|op| run.operation(op));
    if let Some((op, shut)) = asked.and_then(|own| Some((own.number, turns.shut_out(own)?))) {
        say(&format!("Operation {op} did not end; it was {shut}."));
    }
    Ok(Status::Fine)
}

/// The steps asked for, which the job must have.
fn range(from: u16, to: Option<u16>, steps: usize) -> Result<RangeInclusive<u16>, Failure> {
    let range = from..=to.unwrap_or(steps as u16);
    let all = range == (1..=steps as u16);
    if all || (1 <= from && !range.is_empty() && usize::from(*range.end()) <= steps) {
        return Ok(range);
    }
    Err(Failure(format!("The job has {}, counted from 1; --from is not past --to.", counted(steps, "step", "steps"))))
}

/// The second replayer's report of a file, with the log of its steps; none if it refuses the file or the window block.
pub fn second(file: &[u8], block: &[u8]) -> Option<(Log, Vec<u8>)> {
    let mut work = vec![0; WORK];
    let (job, _) = file::open(file, &mut work).ok()?;
    let windows = Windows::read(block).ok()?;
    let mut log = Log::default();
    let mut memory = vec![0; REPORT];
    let length = report::replay_watched(&job, windows.as_ref(), &mut memory, &mut log);
    memory.truncate(length);
    Some((log, memory))
}

/// The log, if the second replayer's report is the proved one, byte for byte, its steps lose as many rounds as that says, and those that it
/// has shut are those that the library has.
pub fn agreed(second: Option<(Log, Vec<u8>)>, turns: &Turns, proved: &str) -> Result<Log, Failure> {
    let agrees = |log: &Log, report: &[u8]| {
        let shut = turns.shut().map(|(step, _)| step);
        report == proved.as_bytes() && lost::agrees(log, proved) && shut.eq(log.shut.iter().copied())
    };
    match second {
        Some((log, report)) if agrees(&log, &report) => Ok(log),
        _ => Err(Failure(
            "The second replayer's steps do not come to the proved report, so they are not shown. Please keep the file and tell the makers of the bench."
                .to_string(),
        )),
    }
}

/// A line for each step asked for.
pub fn told(turns: &Turns, log: &Log, op: Option<u16>, range: &RangeInclusive<u16>) -> String {
    let mut text = row("step", "process", "operation", "row", "what");
    let mut events = log.events.iter().peekable();
    let mut drops = log.drops.iter().peekable();
    let mut shut = log.shut.iter().peekable();
    let mut rounds = 0;
    for (step, turn) in turns.all() {
        let came = match (events.next_if(|event| event.step == step), drops.next_if(|drop| drop.step == step)) {
            (Some(event), _) => {
                rounds += u16::from(lost::back_to(event).is_some());
                Came::Act(event, rounds)
            }
            (None, Some(drop)) => Came::Drop(drop),
            (None, None) if shut.next_if_eq(&&step).is_some() => Came::Shut,
            (None, None) => Came::Nothing,
        };
        let asked = op.is_none_or(|op| came.operation() == Some(op));
        if asked && range.contains(&step) {
            text += &line(turns, log, step, turn, &came);
        }
    }
    text
}

/// What came of a step.
enum Came<'a> {
    /// The step, and the rounds lost by then, its own among them.
    Act(&'a Event, u16),
    Drop(&'a watch::Drop),
    /// It fell outside the window of its process.
    Shut,
    /// It was idle.
    Nothing,
}

impl Came<'_> {
    fn operation(&self) -> Option<u16> {
        match self {
            Came::Act(event, _) => Some(event.operation),
            Came::Drop(drop) => Some(drop.operation),
            Came::Shut | Came::Nothing => None,
        }
    }
}

/// What stands for the row in a drop, which runs none, and in a step that is shut.
const DROP: &str = "x";
const SHUT: &str = "/";

fn row(step: &str, process: &str, operation: &str, row: &str, what: &str) -> String {
    format!("{step:>5}  {process:>7}  {operation:>9}  {row:3}  {what}\n")
}

fn line(turns: &Turns, log: &Log, number: u16, turn: Turn, came: &Came) -> String {
    let (step, process) = (number.to_string(), turn.process().to_string());
    let operation = came.operation().map_or("-".to_string(), |operation| operation.to_string());
    match (came, turn) {
        (Came::Act(event, rounds), _) => {
            row(&step, &process, &operation, &format!("{:?}", event.row), &what(turns.job.kind, event, *rounds))
        }
        (Came::Drop(drop), _) => row(&step, &process, &operation, DROP, &drops::told(&turns.job, log, drop)),
        (Came::Shut, _) => row(&step, &process, &operation, SHUT, &shut(turns, number, turn)),
        (Came::Nothing, Turn::Drops(_)) => row(&step, &process, &operation, DROP, "idle: no begun operation to drop"),
        (Came::Nothing, Turn::Acts(_)) => row(&step, &process, &operation, "-", "idle: no operation remains"),
    }
}

/// Why a step was shut, and of a drop that nothing came of it.
fn shut(turns: &Turns, step: u16, turn: Turn) -> String {
    let drop = if matches!(turn, Turn::Drops(_)) { ", so nothing is dropped" } else { "" };
    format!("shut: {}{drop}", turns.outside(step, turn.process()))
}

/// What a step read or changed, and what came of it; of one that goes back, which of the run's lost rounds it is.
fn what(kind: Kind, event: &Event, rounds: u16) -> String {
    let mut text = access::told(kind, event);
    match (event.row, event.cell, event.wrote) {
        (Row::Q3 | Row::P3 | Row::V4, _, Some(own)) => text += &format!("; reading {own} is in"),
        (Row::T5, _, Some(item)) => text += &format!("; reading {item} is out"),
        // the first to clear the flag: the cell was none and live
        (Row::W4, Cell::Whole(item), Some(_)) if event.held == NONE => text += &format!("; reading {item} is out"),
        _ => {}
    }
    match event.answer {
        Some(Answer::Done) => text += "; ends, done",
        Some(Answer::Item(item)) => text += &format!("; ends with reading {item}"),
        Some(Answer::Empty) => text += "; ends, empty",
        None => {}
    }
    if let Some(first) = lost::back_to(event) {
        text += &format!("; back to {first:?}, lost round {rounds}");
    }
    text
}

#[cfg(test)]
mod tests {
    use super::*;

    /// The turns of a sample, its proved report and what the second replayer has, without windows.
    fn listing() -> (Turns, String, Option<(Log, Vec<u8>)>) {
        let file = include_bytes!("../../../examples/listing.job");
        let (turns, proved) = input::replayed(file, &[]).unwrap();
        (turns, proved.to_string(), second(file, &[]))
    }

    #[test]
    fn steps_are_shown_only_where_the_reports_agree() {
        let (turns, proved, second) = listing();
        let (log, report) = second.unwrap();
        assert!(agreed(None, &turns, &proved).is_err());
        let log = agreed(Some((log, report.clone())), &turns, &proved).unwrap();
        let other = proved.replace("value 50", "value 51");
        assert!(agreed(Some((log, report)), &turns, &other).is_err());
        // the two reports are the same, and the steps lose no round
        let (turns, proved, second) = listing();
        let (log, _) = second.unwrap();
        let other = proved.replace("lost 0", "lost 1");
        assert!(agreed(Some((log, other.clone().into_bytes())), &turns, &other).is_err());
    }

    #[test]
    fn steps_are_shown_only_where_the_same_are_shut() {
        let (turns, proved, second) = listing();
        let (mut log, report) = second.unwrap();
        log.shut.push(12);
        assert!(agreed(Some((log, report)), &turns, &proved).is_err());
    }

    #[test]
    fn steps_that_the_job_has_not_are_refused() {
        assert!(range(1, None, 0).is_ok_and(|range| range.is_empty()));
        assert_eq!(range(2, Some(2), 12), Ok(2..=2));
        for (from, to) in [(0, None), (3, Some(2)), (1, Some(13)), (13, None)] {
            assert!(range(from, to, 12).is_err());
        }
    }
}
