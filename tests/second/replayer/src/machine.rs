//! The run of a job: eight places over one shared object, one step of one process at a time, and a journal of what came of it.

use crate::job::{self, Action, Job, OPERATIONS, PROCESSES, Slot};
use crate::watch::{Row, Watch};
use crate::windows::Windows;

/// Operations count from 1 and node i is operation i's, so 0 is free to say none.
pub const NONE: u16 = 0;
pub const CELLS: usize = OPERATIONS + 1;

#[derive(Clone, Copy, PartialEq, Eq, Debug)]
pub enum Answer {
    Done,
    Item(u16),
    Empty,
}

/// Where a process stands: its operation (NONE when it has none left), the row it is about to run, and what it has read.
#[derive(Clone, Copy)]
pub struct Place {
    pub operation: u16,
    pub row: Row,
    pub h: u16,
    pub t: u16,
    /// A linked stack's u.
    pub n: u16,
}

/// What a step leads to.
pub enum Then {
    Go(Row),
    End(Answer),
}

/// By operation: the steps that its report line and its effect need. By item: the step of its takers' line. 0 is none.
pub struct Journal {
    pub first: [u16; CELLS],
    pub last: [u16; CELLS],
    /// The step in which an operation was dropped.
    pub dropped: [u16; CELLS],
    pub answer: [Answer; CELLS],
    /// The latest T1 or R1 of a take, or the W2 that ended it.
    pub start: [u16; CELLS],
    /// The changing Q3, P3 or V4 of a put.
    pub change: [u16; CELLS],
    /// The item in whose line a take is.
    pub item: [u16; CELLS],
    /// The step at which an item's takers stand.
    pub taken: [u16; CELLS],
}

impl Journal {
    fn fresh() -> Journal {
        let none = [0; CELLS];
        let answer = [Answer::Empty; CELLS];
        Journal { first: none, last: none, dropped: none, answer, start: none, change: none, item: none, taken: none }
    }
}

/// A queue, a stack or a linked stack: its shared memory and its listing.
pub trait Object {
    const NAME: &'static str;
    fn fresh() -> Self;
    /// The first row of an operation.
    fn begin(action: Action) -> Row;
    /// Runs the place's row as step `step`.
    fn act(&mut self, place: &mut Place, step: u16, journal: &mut Journal, watch: &mut impl Watch) -> Then;
    /// The rounds lost, of an object that counts them.
    fn lost(&self) -> Option<u16> {
        None
    }
    /// Calls `item` on each item left, front or top first.
    fn left(&self, item: impl FnMut(u16));
}

pub struct Machine<'a, O> {
    pub object: O,
    pub journal: Journal,
    records: &'a [job::Record],
    places: [Place; PROCESSES],
    /// By operation: its process's next one, or NONE.
    following: [u16; CELLS],
}

impl<'a, O: Object> Machine<'a, O> {
    pub fn fresh(records: &'a [job::Record]) -> Machine<'a, O> {
        let mut following = [NONE; CELLS];
        let mut ahead = [NONE; PROCESSES];
        for (i, record) in records.iter().enumerate().rev() {
            let own = &mut ahead[usize::from(job::process(record))];
            following[i + 1] = *own;
            *own = (i + 1) as u16;
        }
        let row = O::begin(Action::Put);
        let places = ahead.map(|operation| Place { operation, row, h: 0, t: 0, n: 0 });
        let mut machine = Machine { object: O::fresh(), journal: Journal::fresh(), records, places, following };
        for (place, &operation) in machine.places.iter_mut().zip(&ahead) {
            stand_before::<O>(place, operation, records);
        }
        machine
    }

    /// The operation and row at which a process stands, or none if it has no operation left.
    pub fn standing(&self, process: u8) -> Option<(u16, Row)> {
        let place = &self.places[usize::from(process)];
        (place.operation != NONE).then_some((place.operation, place.row))
    }

    /// Makes step number `step`, whose entry in the schedule is `entry`.
    #[inline(always)]
    pub fn step(&mut self, step: u16, entry: u8, watch: &mut impl Watch) {
        match job::slot(entry) {
            Slot::Acts(process) => self.act(step, process, watch),
            Slot::Drops(process) => self.drop(step, process, watch),
        }
    }

    #[inline(always)]
    fn act(&mut self, step: u16, process: u8, watch: &mut impl Watch) {
        let place = &mut self.places[usize::from(process)];
        if place.operation == NONE {
            watch.step(step, process, None);
            return;
        }
        let own = usize::from(place.operation);
        watch.step(step, process, Some((place.operation, place.row)));
        if self.journal.first[own] == 0 {
            self.journal.first[own] = step;
        }
        match self.object.act(place, step, &mut self.journal, watch) {
            Then::Go(row) => place.row = row,
            Then::End(answer) => {
                watch.end(answer);
                self.journal.last[own] = step;
                self.journal.answer[own] = answer;
                stand_before::<O>(place, self.following[own], self.records);
            }
        }
    }

    /// The process drops its begun operation, which keeps what it has done, and stands before its next; with none begun it stays.
    fn drop(&mut self, step: u16, process: u8, watch: &mut impl Watch) {
        let place = &mut self.places[usize::from(process)];
        let own = usize::from(place.operation);
        if place.operation == NONE || self.journal.first[own] == 0 {
            watch.dropping(step, process, None);
            return;
        }
        watch.dropping(step, process, Some(place.operation));
        self.journal.dropped[own] = step;
        stand_before::<O>(place, self.following[own], self.records);
    }
}

/// Puts a place before the first row of an operation, or at rest if there is none.
fn stand_before<O: Object>(place: &mut Place, operation: u16, records: &[job::Record]) {
    place.operation = operation;
    if operation != NONE {
        place.row = O::begin(job::action(&records[usize::from(operation) - 1]));
    }
}

/// Runs a whole schedule, within windows if there are any.
pub fn run<'a, O: Object>(job: &Job<'a>, windows: Option<&Windows>, watch: &mut impl Watch) -> Machine<'a, O> {
    match windows {
        None => run_all(job, watch),
        Some(windows) => run_within(job, windows, watch),
    }
}

fn run_all<'a, O: Object>(job: &Job<'a>, watch: &mut impl Watch) -> Machine<'a, O> {
    let mut machine = Machine::fresh(job.records);
    for (&entry, step) in job.schedule.iter().zip(1..) {
        machine.step(step, entry, watch);
    }
    machine
}

/// The same, minute by minute: a step whose process may not work in its minute is idle.
fn run_within<'a, O: Object>(job: &Job<'a>, windows: &Windows, watch: &mut impl Watch) -> Machine<'a, O> {
    let mut machine = Machine::fresh(job.records);
    let mut moment = windows.start();
    let mut made = 0;
    while made < job.schedule.len() {
        let seconds = moment.rest_of_minute();
        let open = windows.open_at(moment);
        for (&entry, step) in job.schedule[made..].iter().take(seconds as usize).zip(made as u16 + 1..) {
            let process = job::slot(entry).process();
            if open >> process & 1 == 1 {
                machine.step(step, entry, watch);
            } else {
                watch.shut(step, process);
            }
        }
        made += seconds as usize;
        moment = moment.after(seconds);
    }
    machine
}
