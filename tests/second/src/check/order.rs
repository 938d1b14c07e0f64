//! The order of a log: each step is its scheduled process's, a step that is not logged is idle, and each process does its
//! operations in list order. A scheduled drop ends nothing: the process goes on with its next operation. A shut step is nobody's.

use crate::job::{self, Job};
use crate::watch::{Drop, Event};

pub struct Order<'a> {
    /// By step: whether it is shut.
    shut: &'a [bool],
    /// The steps walked so far.
    walked: usize,
    /// By process: where it is.
    at: Vec<At>,
}

/// The operation that a process is at, or the next one it will begin (0 when none is left), and whether it has begun it.
#[derive(Clone, Copy)]
struct At {
    operation: u16,
    begun: bool,
}

/// An entry of the schedule: its process, and whether it is a drop.
fn entry(entry: u8) -> (u8, bool) {
    (entry % 128, entry >= 128)
}

impl Order<'_> {
    pub fn of<'a>(job: &Job, shut: &'a [bool]) -> Order<'a> {
        let at = (0..job.processes).map(|process| At { operation: next_of(job, process, 0), begun: false }).collect();
        Order { shut, walked: 0, at }
    }

    /// Whether all steps that are not walked, up to `end`, are idle: shut, or no process acts on its entry and none has anything to drop.
    fn idle(&self, job: &Job, end: usize) -> bool {
        let mut steps = self.walked..end;
        steps.all(|step| {
            let (process, drop) = entry(job.schedule[step]);
            let At { operation, begun } = self.at[usize::from(process)];
            self.shut[step] || if drop { !begun } else { operation == 0 }
        })
    }

    /// Walks up to a logged step; gives its entry, or none if it is shut or a step between was not idle.
    fn walk(&mut self, job: &Job, step: u16) -> Option<(u8, bool)> {
        let step = usize::from(step);
        if step <= self.walked || step > job.schedule.len() {
            return None;
        }
        let idle = self.idle(job, step - 1);
        self.walked = step;
        (idle && !self.shut[step - 1]).then(|| entry(job.schedule[step - 1]))
    }

    /// Takes one logged step; gives whether it stands where the schedule has it.
    pub fn take(&mut self, job: &Job, event: &Event) -> bool {
        if self.walk(job, event.step) != Some((event.process, false)) {
            return false;
        }
        let at = &mut self.at[usize::from(event.process)];
        let right = event.operation == at.operation && at.operation != 0;
        at.begun = true;
        if right && event.answer.is_some() {
            *at = after(job, event.process, event.operation);
        }
        right
    }

    /// Takes one logged drop; gives whether it stands where the schedule has one, for an operation that is begun.
    pub fn drop(&mut self, job: &Job, drop: &Drop) -> bool {
        if self.walk(job, drop.step) != Some((drop.process, true)) {
            return false;
        }
        let at = &mut self.at[usize::from(drop.process)];
        let right = drop.operation == at.operation && at.begun;
        if right {
            *at = after(job, drop.process, drop.operation);
        }
        right
    }

    /// Whether only idle steps are left.
    pub fn ended(&self, job: &Job) -> bool {
        self.idle(job, job.schedule.len())
    }
}

/// Where a process is once its operation is over.
fn after(job: &Job, process: u8, operation: u16) -> At {
    At { operation: next_of(job, process, usize::from(operation)), begun: false }
}

/// The next operation of a process after operation `after`, or 0.
fn next_of(job: &Job, process: u8, after: usize) -> u16 {
    let rest = job.records[after..].iter();
    rest.map(job::process).position(|owner| owner == process).map_or(0, |ahead| (after + ahead + 1) as u16)
}
