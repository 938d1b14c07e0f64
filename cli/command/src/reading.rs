//! `bench reading`: the fate of one reading, or all doubles, from the report; when an operation was dropped, the job tells, and out of which
//! turns one was shut, the windows.

use crate::status::{Failure, Status};
use crate::turns::Turns;
use crate::words::{counted, list, step, steps};
use crate::{input, output};
use pigwazet::Kind;
use pigwazet::report::{Action, Ending, Operation, Run};
use std::path::Path;

pub fn run(path: &Path, windows: Option<&Path>, number: Option<u16>) -> Result<Status, Failure> {
    let Some((turns, report)) = input::accepted(path, windows, input::replayed)? else { return Ok(Status::Refused) };
    let run = report.run();
    let lines = match number {
        Some(number) => fate(&turns, &run, number).ok_or_else(|| Failure(no_reading(&run, number)))?,
        None => doubles(&turns, &run),
    };
    output::print(lines.join("\n") + "\n").map(|()| Status::Fine)
}

/// The readings of a run: number and value in cm.
pub fn readings<'a>(run: &'a Run) -> impl Iterator<Item = (u16, i32)> + 'a {
    run.operations.iter().filter_map(|operation| match operation.action {
        Action::Put(value) => Some((operation.number, value)),
        Action::Take => None,
    })
}

fn no_reading(run: &Run, number: u16) -> String {
    let why = if run.operation(number).is_some() { "is a take" } else { "is not in the job" };
    let numbers: Vec<String> = readings(run).map(|(number, _)| number.to_string()).collect();
    let readings = match numbers.len() {
        0 => "here there is none".to_string(),
        1..=10 => format!("here {}", list(&numbers)),
        many => format!("here {many}, from {} to {}", numbers[0], numbers[many - 1]),
    };
    format!("Operation {number} {why}. A reading has the number of its put: {readings}.")
}

/// The end from which readings are taken, and from which a report lists what is left.
pub fn end(kind: Kind) -> &'static str {
    match kind {
        Kind::Queue => "front",
        Kind::Stack | Kind::Linked => "top",
    }
}

/// The fate of a reading, in sentences; none if it is no put of the run.
pub fn fate(turns: &Turns, run: &Run, item: u16) -> Option<Vec<String>> {
    let put = run.operation(item)?;
    let Action::Put(value) = put.action else { return None };
    let object = run.kind.noun();
    let by = if put.first.is_some() { "put by" } else { "to be put by" };
    let mut lines = vec![format!("Reading {item}: {value} cm, {by} {}.", operation_told(turns, put)), coming(run, put)];
    if let Some(place) = run.left.iter().position(|&left| left == item) {
        let (place, all, end) = (place + 1, run.left.len(), end(run.kind));
        lines.push(format!("Nobody took it. It is still in the {object}: place {place} of {all} from the {end}."));
    }
    if let Some(line) = run.taken(item) {
        let takers = takers(run, item);
        lines.push(format!("The record has it going out at {}, to {}.", step(line.at), all_told(turns, &takers)));
        lines.push(how_often(turns, &takers));
    }
    Some(lines)
}

/// When a reading came in, or that it did not; with a drop, which is later than the one and the reason of the other.
fn coming(run: &Run, put: &Operation) -> String {
    let object = run.kind.noun();
    let dropped = put.ending == Ending::Dropped;
    match run.put(put.number) {
        Some(line) => {
            let before = if dropped { ", before its put was dropped" } else { "" };
            format!("The record has it coming into the {object} at {}{before}.", step(line.at))
        }
        None if dropped => format!("It is not in the record: its put was dropped before it came into the {object}."),
        None => format!("It is not in the record: it never came into the {object}."),
    }
}

fn takers<'a>(run: &'a Run, item: u16) -> Vec<&'a Operation<'a>> {
    run.takers(item).iter().filter_map(|&taker| run.operation(taker)).collect()
}

fn all_told(turns: &Turns, operations: &[&Operation]) -> String {
    list(&operations.iter().map(|operation| operation_told(turns, operation)).collect::<Vec<_>>())
}

/// An operation, its process and its interval.
fn operation_told(turns: &Turns, operation: &Operation) -> String {
    let who = format!("operation {} of process {}", operation.number, operation.process);
    let shut = turns.shut_out(operation).map_or(String::new(), |turns| format!("; {turns}"));
    match (operation.first, operation.last, turns.dropped_at(operation)) {
        (Some(first), Some(last), _) => format!("{who} ({})", steps(first, last)),
        (Some(first), None, Some(drop)) => format!("{who} (begun at {}, dropped at {})", step(first), step(drop)),
        (Some(first), None, None) => format!("{who} (open since {}{shut})", step(first)),
        _ => format!("{who} (not begun{shut})"),
    }
}

/// Once, or more than once and by which overlap; and whether somebody has it at all.
fn how_often(turns: &Turns, takers: &[&Operation]) -> String {
    let of = |ending: Ending| takers.iter().filter(|taker| taker.ending == ending).count();
    match (takers.len(), of(Ending::Open), of(Ending::Dropped)) {
        (1, 0, 0) => "It was taken once: no double.".to_string(),
        (1, _, 0) => "That one has claimed it and is open, so nobody has it yet.".to_string(),
        (1, ..) => "That one had claimed it and was dropped, so nobody got it.".to_string(),
        (many, open, dropped) => {
            format!("A double: the {many} takers overlap {}.{}", overlap(turns, takers), without(many, open, dropped))
        }
    }
}

/// Which of several takers do not have what they claimed.
fn without(takers: usize, open: usize, dropped: usize) -> &'static str {
    match (open, dropped) {
        (0, 0) => "",
        (_, 0) if open == takers => " All of them are open, so nobody has it yet.",
        (_, 0) => " Those that are open have claimed it and do not have it yet.",
        (0, _) if dropped == takers => " All of them were dropped, so nobody got it.",
        (0, _) => " Those that were dropped had claimed it and did not get it.",
        _ if open + dropped == takers => " Some are open and the others were dropped, so nobody has it yet.",
        _ => " Those that are open have claimed it and do not have it yet; those that were dropped did not get it.",
    }
}

/// The steps that lie in the intervals of all takers, that of a dropped one up to its drop: intervals that overlap two by two have some in
/// common.
fn overlap(turns: &Turns, takers: &[&Operation]) -> String {
    let from = takers.iter().filter_map(|taker| taker.first).max().unwrap_or_default();
    match takers.iter().filter_map(|taker| taker.last.or(turns.dropped_at(taker))).min() {
        Some(to) => format!("from {} to {}", step(from), step(to)),
        None => format!("from {} on", step(from)),
    }
}

/// A line for each reading that was taken more than once, in the order of their numbers, and how many they are.
fn doubles(turns: &Turns, run: &Run) -> Vec<String> {
    let mut lines = vec![];
    let doubled: Vec<u16> = run.doubles().collect();
    for (item, value) in readings(run).filter(|(item, _)| doubled.contains(item)) {
        let takers = takers(run, item);
        let (all, overlap) = (all_told(turns, &takers), overlap(turns, &takers));
        lines.push(format!("Reading {item}: {value} cm, to {all}; they overlap {overlap}."));
    }
    let all = counted(readings(run).count(), "reading", "readings");
    lines.push(match lines.len() {
        0 => format!("Of {all} none was taken more than once."),
        1 => format!("Of {all} 1 was taken more than once."),
        many => format!("Of {all} {many} were taken more than once."),
    });
    lines
}
