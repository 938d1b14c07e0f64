//! The sentences of demand 3, each on one run. "Whatever operations an accepted job lists, and whatever order of steps it gives,
//! the record of that run has only lines that the queue or stack with multiplicity allows, each after all those before it." A
//! linked stack's are those of a stack.

use super::facts::{Facts, Operation};
use super::parse::{Effect, Ending, Line, Report};
use crate::job::{self, Action, Job, Kind, Record};
use crate::machine::Answer;
use std::collections::VecDeque;

fn ensure(holds: bool, otherwise: impl FnOnce() -> String) -> Result<(), String> {
    if holds { Ok(()) } else { Err(otherwise()) }
}

/// The operation lines: number, process, action, first, last and ending, as the steps say.
pub fn operations(job: &Job, facts: &Facts, report: &Report) -> Result<(), String> {
    let name = match job.kind {
        Kind::Queue => "queue",
        Kind::Stack => "stack",
        Kind::Linked => "linked",
    };
    ensure(report.object == name, || format!("object {}", report.object))?;
    ensure(report.operations.len() == job.records.len(), || "the number of operation lines".to_string())?;
    for (i, (line, record)) in report.operations.iter().zip(job.records).enumerate() {
        let own = &facts.operations[i + 1];
        let put = (job::action(record) == Action::Put).then(|| centimetres(record));
        let same = usize::from(line.number) == i + 1
            && line.process == job::process(record)
            && line.put == put
            && line.first == own.first
            && line.last == own.last
            && line.ending == ending(job, own);
        ensure(same, || format!("the line of operation {}: {line:?}", i + 1))?;
    }
    Ok(())
}

/// Of the centimetres around a value the one that is less than half a cm off, or half off and even.
fn centimetres(record: &Record) -> i32 {
    let value = job::value(record);
    let fits = |&cm: &i32| {
        let off = (value - 10 * cm).abs();
        off < 5 || off == 5 && cm % 2 == 0
    };
    let mut around = value / 10 - 1..=value / 10 + 1;
    around.find(fits).expect("one of three in a row is as near")
}

fn ending(job: &Job, own: &Operation) -> Ending {
    match (own.first, own.dropped, own.answer) {
        (None, ..) => Ending::Waiting,
        (_, Some(_), _) => Ending::Dropped,
        (_, _, None) => Ending::Open,
        (_, _, Some(Answer::Done)) => Ending::Done,
        (_, _, Some(Answer::Empty)) => Ending::Empty,
        (_, _, Some(Answer::Item(item))) => Ending::Item(item, centimetres(&job.records[usize::from(item) - 1])),
    }
}

/// The record: its lines are allowed, explain every answer, stand where effects stand, and lead to what is left.
pub fn record(job: &Job, facts: &Facts, report: &Report) -> Result<(), String> {
    let ascend = report.lines.is_sorted_by(|one, next| one.at < next.at);
    ensure(ascend, || "the lines are not in the order of their steps".to_string())?;
    let contents = allowed(job, &report.lines)?;
    ensure(contents == report.left, || format!("the lines leave {contents:?}, the report {:?}", report.left))?;
    ensure(facts.left(job.kind).as_ref() == Some(&report.left), || "left is not what the memory holds".to_string())?;
    counted(report)?;
    let stands = entries(job, report)?;
    for own in 1..=job.records.len() {
        present(own, facts, &stands)?;
    }
    for line in &report.lines {
        stands_right(job.kind, facts, line)?;
    }
    precedence(facts, &stands)
}

/// Runs the lines on the machine with multiplicity; gives its contents, front or top first.
fn allowed(job: &Job, lines: &[Line]) -> Result<Vec<u16>, String> {
    let mut contents = VecDeque::new();
    for Line { at, effect } in lines {
        let fits = match effect {
            Effect::Put(_) => true,
            Effect::Take(item, takers) => contents.front() == Some(item) && !takers.is_empty(),
            Effect::Empty(_) => contents.is_empty(),
        };
        ensure(fits, || format!("the line at {at} is not allowed: {effect:?} on {contents:?}"))?;
        match effect {
            Effect::Put(item) if job.kind == Kind::Queue => contents.push_back(*item),
            Effect::Put(item) => contents.push_front(*item),
            Effect::Take(..) => drop(contents.pop_front()),
            Effect::Empty(_) => {}
        }
    }
    Ok(contents.into())
}

/// "Items put in the record are those handed out, counted by line, plus those left."
fn counted(report: &Report) -> Result<(), String> {
    let puts = report.lines.iter().filter(|line| matches!(line.effect, Effect::Put(_))).count();
    let takes = report.lines.iter().filter(|line| matches!(line.effect, Effect::Take(..))).count();
    ensure(puts == takes + report.left.len(), || format!("{puts} put, {takes} handed out, {} left", report.left.len()))
}

/// Where an operation is in the record: the step of its line and, for a taker, the item.
#[derive(Clone, Copy)]
struct Entry {
    at: u16,
    answer: Answer,
}

/// By operation: its one place in the record. An operation that is there twice, or under another's action, is a fault.
fn entries(job: &Job, report: &Report) -> Result<Vec<Option<Entry>>, String> {
    let mut entries = vec![None; job.records.len() + 1];
    let mut add = |own: u16, action: Action, entry: Entry| {
        let record = usize::from(own).checked_sub(1).and_then(|i| job.records.get(i));
        ensure(record.is_some_and(|record| job::action(record) == action), || format!("operation {own} in a wrong line"))?;
        let before = entries[usize::from(own)].replace(entry);
        ensure(before.is_none(), || format!("operation {own} is in the record twice"))
    };
    for Line { at, effect } in &report.lines {
        let at = *at;
        match effect {
            Effect::Put(own) => add(*own, Action::Put, Entry { at, answer: Answer::Done })?,
            Effect::Empty(own) => add(*own, Action::Take, Entry { at, answer: Answer::Empty })?,
            Effect::Take(item, takers) => {
                ensure(takers.is_sorted_by(|one, next| one < next), || format!("takers at {at} do not ascend"))?;
                for own in takers {
                    add(*own, Action::Take, Entry { at, answer: Answer::Item(*item) })?;
                }
            }
        }
    }
    Ok(entries)
}

/// "Every answered operation is in it exactly once, with its answer, at a step from its first to its last. An unanswered one is in
/// it once exactly when it took effect, otherwise not at all, and never before its first step." Of a dropped one: "Its effect, if any,
/// stands no later than the drop."
fn present(own: usize, facts: &Facts, entries: &[Option<Entry>]) -> Result<(), String> {
    let operation = &facts.operations[own];
    let Some(entry) = entries[own] else {
        return ensure(!operation.took_effect(), || format!("operation {own} took effect and is not in the record"));
    };
    ensure(operation.took_effect(), || format!("operation {own} is in the record without an effect"))?;
    let answered = operation.answer.is_none_or(|answer| answer == entry.answer);
    ensure(answered, || format!("operation {own} is in the record with another answer"))?;
    let begun = operation.first.is_some_and(|first| first <= entry.at);
    let not_over = operation.last.or(operation.dropped).is_none_or(|over| entry.at <= over);
    ensure(begun && not_over, || format!("operation {own} stands at {}, outside its steps", entry.at))
}

/// "Where an effect stands": the step of each line is the one that the papers name.
fn stands_right(kind: Kind, facts: &Facts, line: &Line) -> Result<(), String> {
    let of = |own: &u16| &facts.operations[usize::from(*own)];
    let step = match &line.effect {
        Effect::Put(own) => of(own).change,
        Effect::Empty(own) => of(own).start,
        Effect::Take(_, takers) if kind == Kind::Stack => takers.iter().filter_map(|own| of(own).start).max(),
        Effect::Take(item, _) => facts.taken[usize::from(*item)],
    };
    if let Effect::Take(item, takers) = &line.effect {
        let members = takers.iter().all(|own| of(own).joined == Some(*item));
        ensure(members, || format!("a taker of item {item} that is no member"))?;
    }
    ensure(step == Some(line.at), || format!("the line at {} stands at {step:?} by the steps", line.at))
}

/// "For any two operations in the record, one that ended before the other began stands in an earlier line, and any two takers of
/// one item overlap." (Two operations in one line are takers of one item, so both follow from one comparison.)
fn precedence(facts: &Facts, entries: &[Option<Entry>]) -> Result<(), String> {
    let mut begun = vec![];
    let mut ended = vec![];
    for (own, entry) in entries.iter().enumerate() {
        if let Some(entry) = entry {
            begun.push((facts.operations[own].first, entry.at, own));
            ended.extend(facts.operations[own].last.map(|last| (last, entry.at, own)));
        }
    }
    for &(last, at, own) in &ended {
        for &(first, other_at, other) in &begun {
            let after = first.is_some_and(|first| last < first);
            ensure(!after || at < other_at, || format!("operation {own} ended before {other} began, but stands no earlier"))?;
        }
    }
    Ok(())
}
