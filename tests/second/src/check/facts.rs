//! What the logged steps of a run say of each operation, and the shared memory after them. The log is taken step by step over a
//! plain memory and held against the listings, so that a log that passes is the run that the papers describe.

use super::listing::{self, Read};
use super::order::Order;
use crate::job::{self, Job, Kind};
use crate::machine::{Answer, CELLS};
use crate::watch::{Cell, Drop, Event, Log, Row};
use std::iter;

/// Of one operation: its steps, its answer, and what gives it an effect.
#[derive(Clone, Default)]
pub struct Operation {
    pub first: Option<u16>,
    pub last: Option<u16>,
    /// The step that dropped it; it makes none after.
    pub dropped: Option<u16>,
    pub answer: Option<Answer>,
    /// The latest T1, R1 or W2.
    pub start: Option<u16>,
    /// The changing Q3, P3 or V4.
    pub change: Option<u16>,
    /// The item that a T5 or R3 was run for, or that a W4 was passed on.
    pub joined: Option<u16>,
    /// The row that comes next, once begun.
    at: Option<Row>,
    read: Read,
}

impl Operation {
    /// "One that has not ended took effect exactly if it is a put whose changing step was made, or a stack take that is a member." A
    /// dropped one is "recorded by the same conditions as an open one".
    pub fn took_effect(&self) -> bool {
        self.answer.is_some() || self.change.is_some() || self.joined.is_some()
    }

    /// Of a dropped operation: the row that it would have run next.
    pub fn dropped_before(&self) -> Option<Row> {
        self.dropped.and(self.at)
    }

    fn note(&mut self, event: &Event) {
        self.first.get_or_insert(event.step);
        match event.row {
            Row::T1 | Row::R1 | Row::W2 => self.start = Some(event.step),
            Row::Q3 | Row::P3 | Row::V4 if event.wrote.is_some() => self.change = Some(event.step),
            Row::T5 => self.joined = Some(self.read.next),
            Row::R3 => self.joined = Some(self.read.top),
            Row::W4 if event.wrote.is_some() => self.joined = Some(self.read.top),
            _ => {}
        }
        if event.answer.is_some() {
            (self.last, self.answer) = (Some(event.step), event.answer);
        }
    }

    fn keep(&mut self, event: &Event) {
        match event.row {
            Row::T1 => self.read.head = event.held,
            Row::Q1 | Row::T2 => self.read.tail = event.held,
            Row::P1 | Row::R1 | Row::V1 | Row::W1 => self.read.top = event.held,
            Row::Q2 | Row::T3 | Row::V2 | Row::W2 => self.read.next = event.held,
            _ => {}
        }
    }
}

pub struct Memory {
    head: u16,
    tail: u16,
    top: u16,
    /// Of a linked stack's node: its lower.
    next: [u16; CELLS],
    mark: [u16; CELLS],
    /// Of a linked stack's node: its one cell.
    whole: [u16; CELLS],
}

impl Memory {
    fn fresh() -> Memory {
        let none = [0; CELLS];
        Memory { head: 0, tail: 0, top: 0, next: none, mark: none, whole: none }
    }

    /// What an access of a cell finds there.
    fn content(&mut self, cell: Cell) -> u16 {
        let held = *self.cell(cell);
        match cell {
            Cell::Upper(_) => listing::upper(held),
            Cell::Flag(_) => held - listing::upper(held),
            _ => held,
        }
    }

    fn cell(&mut self, cell: Cell) -> &mut u16 {
        match cell {
            Cell::Head => &mut self.head,
            Cell::Tail => &mut self.tail,
            Cell::Top => &mut self.top,
            Cell::Next(node) => &mut self.next[usize::from(node)],
            Cell::Mark(node) => &mut self.mark[usize::from(node)],
            Cell::Upper(node) | Cell::Flag(node) | Cell::Whole(node) => &mut self.whole[usize::from(node)],
        }
    }

    /// The event's one access, on the memory as the steps before left it; whether it is what the listing says.
    fn take(&mut self, event: &Event, read: Read) -> bool {
        let below = self.next[usize::from(read.top)];
        let found = self.content(event.cell);
        let aim = listing::set(event, read, below);
        let wrote = aim.and_then(|(from, to)| (found == from).then_some(to));
        // a mark is raised and a flag is cleared whatever it was
        let aimed = if matches!(event.row, Row::R3 | Row::W4) { event.aim.is_none() } else { event.aim == aim };
        if let Some(value) = wrote {
            *self.cell(event.cell) = value;
            if matches!(event.row, Row::P3 | Row::V4) {
                self.next[usize::from(event.operation)] = read.top;
            }
        }
        event.cell == listing::cell(event.row, read, below) && event.held == found && event.wrote == wrote && aimed
    }
}

pub struct Facts {
    /// By operation number; place 0 is unused.
    pub operations: Vec<Operation>,
    /// By item: the first T5 that moved Head to it, or the first W4 that cleared its flag.
    pub taken: [Option<u16>; CELLS],
    /// The steps that the listing leads back to Q1 or T1.
    pub lost: usize,
    pub memory: Memory,
}

impl Facts {
    /// `shut` says by step whether it is outside its process's window: it must then be idle, and logged so.
    pub fn of(job: &Job, shut: &[bool], log: &Log) -> Result<Facts, String> {
        let operations = vec![Operation::default(); job.records.len() + 1];
        let mut facts = Facts { operations, taken: [None; CELLS], lost: 0, memory: Memory::fresh() };
        let mut order = Order::of(job, shut);
        let mut drops = log.drops.iter().peekable();
        for event in &log.events {
            while let Some(drop) = drops.next_if(|drop| drop.step < event.step) {
                facts.drop(job, &mut order, drop)?;
            }
            if !order.take(job, event) || !facts.take(job, event) {
                return Err(format!("the second replayer's steps are wrong: {event:?}"));
            }
        }
        drops.try_for_each(|drop| facts.drop(job, &mut order, drop))?;
        let ended = order.ended(job) && usize::from(log.steps) == job.schedule.len();
        let numbers = (1..).zip(shut).filter(|(_, shut)| **shut).map(|(step, _)| step);
        if !log.shut.iter().copied().eq(numbers) {
            return Err("the second replayer has other steps outside a window".to_string());
        }
        if ended { Ok(facts) } else { Err("the second replayer's steps end too soon".to_string()) }
    }

    /// Takes one drop: a begun operation, which has not ended, makes no step from here on. No memory changes.
    fn drop(&mut self, job: &Job, order: &mut Order, drop: &Drop) -> Result<(), String> {
        let right = order.drop(job, drop);
        let own = &mut self.operations[usize::from(drop.operation)];
        let begun = own.first.is_some() && own.last.is_none() && own.dropped.is_none();
        own.dropped = Some(drop.step);
        if right && begun { Ok(()) } else { Err(format!("the second replayer's drops are wrong: {drop:?}")) }
    }

    /// Takes one step; gives whether it is what the listing says.
    fn take(&mut self, job: &Job, event: &Event) -> bool {
        let own = &mut self.operations[usize::from(event.operation)];
        let action = job::action(&job.records[usize::from(event.operation) - 1]);
        let row = own.at.unwrap_or(listing::first(job.kind, action));
        let right = own.dropped.is_none() && event.row == row && self.memory.take(event, own.read);
        let after = listing::after(event, own.read);
        self.lost += usize::from(matches!(after, Ok(Row::Q1 | Row::T1)));
        own.at = after.ok();
        own.note(event);
        own.keep(event);
        if let (Row::T5 | Row::W4, Some(_), Some(item)) = (event.row, event.wrote, own.joined) {
            self.taken[usize::from(item)].get_or_insert(event.step);
        }
        right && event.answer == after.err()
    }

    /// What is left, read from the shared memory after the last step; none if the nexts, or the uppers, run in a circle.
    pub fn left(&self, kind: Kind) -> Option<Vec<u16>> {
        let Memory { head, top, next, mark, whole, .. } = &self.memory;
        let below = |node: usize| next[node];
        let above = |node: usize| listing::upper(whole[node]);
        let mut left = match kind {
            Kind::Queue => walk(below(usize::from(*head)), below)?,
            Kind::Stack => walk(*top, below)?,
            Kind::Linked => walk(above(0), above)?,
        };
        left.retain(|&node| mark[usize::from(node)] == 0 && listing::live(whole[usize::from(node)]));
        if kind == Kind::Linked {
            left.reverse();
        }
        Some(left)
    }
}

/// The nodes from `first` onward; none if they run in a circle.
fn walk(first: u16, onward: impl Fn(usize) -> u16) -> Option<Vec<u16>> {
    let nodes = iter::successors(Some(first), |&node| Some(onward(usize::from(node))));
    let nodes: Vec<u16> = nodes.take_while(|&node| node != 0).take(CELLS).collect();
    (nodes.len() < CELLS).then_some(nodes)
}
