//! What may be seen of a run, step by step. The replayer runs with `Nobody` watching, the checks with a log.

use crate::machine::Answer;

/// The rows of the three listings, by their names in documents 01 and 02.
#[derive(Clone, Copy, PartialEq, Eq, Debug)]
#[rustfmt::skip]
pub enum Row {
    Q1, Q2, Q3, Q4, Q5,
    T1, T2, T3, T4, T5,
    P1, P2, P3, P4,
    R1, R2, R3, R4, R5,
    V1, V2, V3, V4, V5, V6, V7, V8,
    W1, W2, W3, W4, W5, W6, W7, W8, W9,
}

pub const ROWS: usize = 36;

/// What a cleared flag of a linked stack's node holds; a live one holds 0.
pub const CLEARED: u16 = 1 << 15;

/// A cell of the shared memory. A linked stack's node has one cell, of which a step accesses the upper, the flag, or the whole: its content
/// is then the sum of both.
#[derive(Clone, Copy, PartialEq, Eq, Debug)]
pub enum Cell {
    Head,
    Tail,
    Top,
    Next(u16),
    Mark(u16),
    Upper(u16),
    Flag(u16),
    Whole(u16),
}

pub trait Watch {
    /// A step begins: its number, its process, and the operation with its row unless the step is idle.
    fn step(&mut self, step: u16, process: u8, acting: Option<(u16, Row)>);
    /// The step's one access: what the cell held, and what was written, if anything.
    fn access(&mut self, cell: Cell, held: u16, wrote: Option<u16>);
    /// That access is a set, from one value to another.
    fn aim(&mut self, from: u16, to: u16);
    /// The step ended its operation.
    fn end(&mut self, answer: Answer);
    /// A step that is a drop: its number, its process, and the operation dropped, unless none is begun and the step is idle.
    fn dropping(&mut self, step: u16, process: u8, operation: Option<u16>);
    /// A step outside its process's window, be it a drop or not: its number and its process. It is idle.
    fn shut(&mut self, step: u16, process: u8);
}

pub struct Nobody;

impl Watch for Nobody {
    fn step(&mut self, _: u16, _: u8, _: Option<(u16, Row)>) {}
    fn access(&mut self, _: Cell, _: u16, _: Option<u16>) {}
    fn aim(&mut self, _: u16, _: u16) {}
    fn end(&mut self, _: Answer) {}
    fn dropping(&mut self, _: u16, _: u8, _: Option<u16>) {}
    fn shut(&mut self, _: u16, _: u8) {}
}

/// A read of a cell.
pub fn read(watch: &mut impl Watch, cell: Cell, held: u16) -> u16 {
    watch.access(cell, held, None);
    held
}

/// "Set A from b to c" changes A only if it holds b; gives whether it changed.
pub fn set(watch: &mut impl Watch, cell: Cell, held: &mut u16, from: u16, to: u16) -> bool {
    let changed = *held == from;
    watch.access(cell, *held, changed.then_some(to));
    watch.aim(from, to);
    if changed {
        *held = to;
    }
    changed
}

/// One step as it was seen.
#[derive(Clone, Copy, Debug)]
pub struct Event {
    pub step: u16,
    pub process: u8,
    pub operation: u16,
    pub row: Row,
    pub cell: Cell,
    pub held: u16,
    pub wrote: Option<u16>,
    /// Of a set: from, to.
    pub aim: Option<(u16, u16)>,
    pub answer: Option<Answer>,
}

/// A begun operation dropped, as it was seen.
#[derive(Clone, Copy, Debug)]
pub struct Drop {
    pub step: u16,
    pub process: u8,
    pub operation: u16,
}

/// The acting steps of a run, its drops and the steps outside a window, each in order, and the number of all its steps.
#[derive(Default)]
pub struct Log {
    pub events: Vec<Event>,
    pub drops: Vec<Drop>,
    pub shut: Vec<u16>,
    pub steps: u16,
}

impl Watch for Log {
    fn step(&mut self, step: u16, process: u8, acting: Option<(u16, Row)>) {
        self.steps = step;
        if let Some((operation, row)) = acting {
            let (cell, held, wrote, aim, answer) = (Cell::Head, 0, None, None, None);
            self.events.push(Event { step, process, operation, row, cell, held, wrote, aim, answer });
        }
    }

    fn access(&mut self, cell: Cell, held: u16, wrote: Option<u16>) {
        let event = self.events.last_mut().expect("an access without a step");
        (event.cell, event.held, event.wrote) = (cell, held, wrote);
    }

    fn aim(&mut self, from: u16, to: u16) {
        self.events.last_mut().expect("a set without a step").aim = Some((from, to));
    }

    fn end(&mut self, answer: Answer) {
        self.events.last_mut().expect("an end without a step").answer = Some(answer);
    }

    fn dropping(&mut self, step: u16, process: u8, operation: Option<u16>) {
        self.steps = step;
        self.drops.extend(operation.map(|operation| Drop { step, process, operation }));
    }

    fn shut(&mut self, step: u16, _: u8) {
        self.steps = step;
        self.shut.push(step);
    }
}
