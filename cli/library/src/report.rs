//! A report: its text, and the text taken apart. `docs/FORMAT.md` has the form of every line.

mod parse;

use crate::hours::Hours;
use crate::job::{Job, Kind, Turn};
use std::fmt;

/// The report of a replay, whole: lines of plain text, each ended by a newline.
#[derive(Clone, PartialEq, Eq, Debug)]
pub struct Report(String);

impl Report {
    pub(crate) fn of(text: &str) -> Report {
        Report(text.to_string())
    }

    pub fn as_str(&self) -> &str {
        &self.0
    }

    /// The report taken apart.
    pub fn run(&self) -> Run<'_> {
        Run::of(&self.0).expect("the lines of docs/FORMAT.md")
    }
}

impl fmt::Display for Report {
    fn fmt(&self, f: &mut fmt::Formatter) -> fmt::Result {
        f.write_str(&self.0)
    }
}

/// What an operation was: a put with its value in whole cm, or a take.
#[derive(Clone, Copy, PartialEq, Eq, Debug)]
pub enum Action {
    Put(i32),
    Take,
}

/// What came of an operation.
#[derive(Clone, Copy, PartialEq, Eq, Debug)]
pub enum Ending {
    Done,
    /// A take's item, and its value in whole cm.
    Item(u16, i32),
    Empty,
    /// Begun, not ended.
    Open,
    /// Begun, and dropped before it ended.
    Dropped,
    /// Not begun.
    Waiting,
}

/// One operation line.
#[derive(Clone, PartialEq, Eq, Debug)]
pub struct Operation<'a> {
    pub number: u16,
    pub process: u8,
    pub action: Action,
    pub first: Option<u16>,
    pub last: Option<u16>,
    pub ending: Ending,
    /// The line as the report has it.
    pub line: &'a str,
}

impl Operation<'_> {
    /// The step in which it was dropped, if it was. A report does not tell the step, its job does: the first drop by the operation's process
    /// behind its first step.
    pub fn dropped_at(&self, job: &Job) -> Option<u16> {
        self.dropped_within(job, &Hours::default())
    }

    /// The same of a replay within windows: a drop that is shut drops nothing.
    pub fn dropped_within(&self, job: &Job, hours: &Hours) -> Option<u16> {
        let first = self.first.filter(|_| self.ending == Ending::Dropped)?;
        let drop = Turn::Drops(self.process).entry();
        let mut later = (1..).zip(&job.schedule).skip(usize::from(first));
        later.find_map(|(step, &entry)| (entry == drop && hours.is_open(self.process, step)).then_some(step))
    }
}

/// What a line of the record says.
#[derive(Clone, PartialEq, Eq, Debug)]
pub enum Effect {
    Put(u16),
    /// An item and its takers, ascending.
    Take(u16, Vec<u16>),
    Empty(u16),
}

/// One line of the record.
#[derive(Clone, PartialEq, Eq, Debug)]
pub struct Line<'a> {
    pub at: u16,
    pub effect: Effect,
    /// The line as the report has it.
    pub line: &'a str,
}

/// A report taken apart.
#[derive(Clone, PartialEq, Eq, Debug)]
pub struct Run<'a> {
    pub kind: Kind,
    /// Operation 1 first.
    pub operations: Vec<Operation<'a>>,
    /// In the order of steps.
    pub record: Vec<Line<'a>>,
    /// The rounds that a queue lost: how often a put or a take went back to its first row, Q1 or T1. Of the other kinds none are counted.
    pub lost: Option<u16>,
    /// That line as the report has it.
    pub lost_line: Option<&'a str>,
    /// Items, front or top first.
    pub left: Vec<u16>,
    /// The last line as the report has it.
    pub left_line: &'a str,
}

impl<'a> Run<'a> {
    /// An operation by its number, from 1.
    pub fn operation(&self, number: u16) -> Option<&Operation<'a>> {
        self.operations.get(usize::from(number).checked_sub(1)?)
    }

    /// The line that brought an item in; none if its put took no effect.
    pub fn put(&self, item: u16) -> Option<&Line<'a>> {
        self.record.iter().find(|line| line.effect == Effect::Put(item))
    }

    /// The line in which an item went out.
    pub fn taken(&self, item: u16) -> Option<&Line<'a>> {
        self.record.iter().find(|line| matches!(line.effect, Effect::Take(taken, _) if taken == item))
    }

    /// The operations that took an item, ascending: the members of its line, ended or not.
    pub fn takers(&self, item: u16) -> &[u16] {
        self.taken(item).map_or(&[], Line::members)
    }

    /// The items that several operations took, in the order of the record.
    pub fn doubles(&self) -> impl Iterator<Item = u16> {
        self.record.iter().filter_map(|line| match &line.effect {
            Effect::Take(item, takers) if takers.len() > 1 => Some(*item),
            _ => None,
        })
    }
}

impl Line<'_> {
    /// The operations that a line names.
    pub fn members(&self) -> &[u16] {
        match &self.effect {
            Effect::Put(own) | Effect::Empty(own) => std::slice::from_ref(own),
            Effect::Take(_, takers) => takers,
        }
    }
}
