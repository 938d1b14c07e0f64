//! The listings of documents 01 and 02 as a check of a logged step: what its row accesses, and where the row leads.

use crate::job::{Action, Kind};
use crate::machine::Answer;
use crate::watch::{CLEARED, Cell, Event, Row};

/// The latest Head, Tail, Top and next (of a linked stack, upper) that an operation read: h, t, n and u of the papers.
#[derive(Clone, Copy, Default)]
pub struct Read {
    pub head: u16,
    pub tail: u16,
    pub top: u16,
    pub next: u16,
}

/// The row at which an operation begins.
pub fn first(kind: Kind, action: Action) -> Row {
    match (kind, action) {
        (Kind::Queue, Action::Put) => Row::Q1,
        (Kind::Queue, Action::Take) => Row::T1,
        (Kind::Stack, Action::Put) => Row::P1,
        (Kind::Stack, Action::Take) => Row::R1,
        (Kind::Linked, Action::Put) => Row::V1,
        (Kind::Linked, Action::Take) => Row::W1,
    }
}

/// The cell that a row accesses. `below` is the next, or the lower, of the Top that was read.
pub fn cell(row: Row, read: Read, below: u16) -> Cell {
    match row {
        Row::Q1 | Row::Q4 | Row::Q5 | Row::T2 | Row::T4 => Cell::Tail,
        Row::Q2 | Row::Q3 => Cell::Next(read.tail),
        Row::T1 | Row::T5 => Cell::Head,
        Row::T3 => Cell::Next(read.head),
        Row::P1 | Row::P3 | Row::P4 | Row::R1 | Row::R4 | Row::R5 => Cell::Top,
        Row::P2 | Row::R2 | Row::R3 => Cell::Mark(read.top),
        Row::V1 | Row::V5 | Row::V6 | Row::V8 => Cell::Top,
        Row::W1 | Row::W6 | Row::W8 | Row::W9 => Cell::Top,
        Row::V2 | Row::W2 => Cell::Upper(read.top),
        Row::V3 | Row::W3 => Cell::Flag(read.top),
        Row::V4 | Row::W4 => Cell::Whole(read.top),
        Row::V7 | Row::W5 | Row::W7 => Cell::Whole(below),
    }
}

/// What a row sets its cell from and to; none for a read.
pub fn set(event: &Event, read: Read, below: u16) -> Option<(u16, u16)> {
    let own = event.operation;
    match event.row {
        Row::Q3 => Some((0, own)),
        Row::Q4 => Some((read.tail, own)),
        Row::Q5 | Row::T4 => Some((read.tail, read.next)),
        Row::T5 => Some((read.head, read.next)),
        Row::P3 => Some((read.top, own)),
        Row::P4 | Row::R4 | Row::R5 => Some((read.top, below)),
        // the mark is raised whatever it was
        Row::R3 => Some((event.held, 1)),
        // none and live is 0, a node and live is its number
        Row::V4 => Some((0, own)),
        Row::V5 => Some((read.top, own)),
        Row::V6 | Row::W8 => Some((read.top, read.next)),
        Row::V7 | Row::W5 | Row::W7 => Some((read.top, 0)),
        Row::V8 | Row::W6 | Row::W9 => Some((read.top, below)),
        // the flag is cleared whatever it was, if the upper is none
        Row::W4 if upper(event.held) == 0 => Some((event.held, CLEARED)),
        _ => None,
    }
}

/// The upper in the whole cell of a linked stack's node, and whether its flag is live.
pub fn upper(whole: u16) -> u16 {
    whole & !CLEARED
}

pub fn live(whole: u16) -> bool {
    whole & CLEARED == 0
}

/// The row after a step, or the answer with which its operation ends.
pub fn after(event: &Event, read: Read) -> Result<Row, Answer> {
    let (nothing, changed) = (event.held == 0, event.wrote.is_some());
    match event.row {
        Row::Q1 => Ok(Row::Q2),
        Row::Q2 => choose(nothing, Row::Q3, Row::Q5),
        Row::Q3 => choose(changed, Row::Q4, Row::Q1),
        Row::Q4 => Err(Answer::Done),
        Row::Q5 => Ok(Row::Q1),
        Row::T1 => Ok(Row::T2),
        Row::T2 => Ok(Row::T3),
        Row::T3 if read.head == read.tail && nothing => Err(Answer::Empty),
        Row::T3 => choose(read.head == read.tail, Row::T4, Row::T5),
        Row::T4 => Ok(Row::T1),
        Row::T5 => Err(Answer::Item(read.next)),
        Row::P1 => choose(nothing, Row::P3, Row::P2),
        Row::P2 => choose(nothing, Row::P3, Row::P4),
        Row::P3 if changed => Err(Answer::Done),
        Row::P3 | Row::P4 => Ok(Row::P1),
        Row::R1 if nothing => Err(Answer::Empty),
        Row::R1 => Ok(Row::R2),
        Row::R2 => choose(nothing, Row::R3, Row::R5),
        Row::R3 => Ok(Row::R4),
        Row::R4 => Err(Answer::Item(read.top)),
        Row::R5 => Ok(Row::R1),
        _ => after_linked(event, read),
    }
}

fn choose(holds: bool, yes: Row, no: Row) -> Result<Row, Answer> {
    Ok(if holds { yes } else { no })
}

/// The same for the rows of document 02.
fn after_linked(event: &Event, read: Read) -> Result<Row, Answer> {
    // an upper that is none, a flag that is live
    let nothing = event.held == 0;
    let changed = event.wrote.is_some();
    match event.row {
        Row::V1 => Ok(Row::V2),
        Row::V2 => choose(nothing, Row::V3, Row::V6),
        Row::V3 => choose(nothing, Row::V4, Row::V7),
        Row::V4 => choose(changed, Row::V5, Row::V1),
        Row::V5 => Err(Answer::Done),
        Row::V6 | Row::V8 => Ok(Row::V1),
        Row::V7 => Ok(Row::V8),
        Row::W1 => Ok(Row::W2),
        Row::W2 if nothing && read.top == 0 => Err(Answer::Empty),
        Row::W2 => choose(nothing, Row::W3, Row::W8),
        Row::W3 => choose(nothing, Row::W4, Row::W7),
        Row::W4 => choose(changed, Row::W5, Row::W1),
        Row::W5 => Ok(Row::W6),
        Row::W6 => Err(Answer::Item(read.top)),
        Row::W7 => Ok(Row::W9),
        Row::W8 | Row::W9 => Ok(Row::W1),
        _ => unreachable!("a row of document 01"),
    }
}
