//! What a step read or changed, in words.

use pigwazet::Kind;
use second_replayer::watch::{CLEARED, Cell, Event};

pub fn told(kind: Kind, event: &Event) -> String {
    match (event.aim, event.wrote) {
        (Some((from, to)), wrote) => set(kind, event, from, to, wrote.is_some()),
        (None, Some(_)) => claim(kind, event),
        (None, None) => read(kind, event),
    }
}

fn set(kind: Kind, event: &Event, from: u16, to: u16, changed: bool) -> String {
    let content = |held: u16| content(kind, event.cell, held);
    let came = match event.cell {
        _ if changed => "changed".to_string(),
        Cell::Whole(node) if is_cleared(event.held) => format!("not changed, {} is cleared", name(Cell::Flag(node))),
        _ => format!("not changed, it holds {}", content(event.held)),
    };
    format!("sets {} from {} to {}: {came}", name(event.cell), content(from), content(to))
}

/// A take raises a mark or clears a flag, whatever it was.
fn claim(kind: Kind, event: &Event) -> String {
    let (does, node, cell) = match event.cell {
        Cell::Whole(node) => ("clears", node, Cell::Flag(node)),
        Cell::Mark(node) => ("raises", node, event.cell),
        other => return format!("writes {}", name(other)),
    };
    format!("{does} {}, which was {}: claims reading {node}", name(cell), content(kind, cell, event.held))
}

fn read(kind: Kind, event: &Event) -> String {
    let held = content(kind, event.cell, event.held);
    match event.cell {
        Cell::Whole(node) => format!("does not clear {}: {} is {held}", name(Cell::Flag(node)), name(Cell::Upper(node))),
        cell => format!("reads {}: {held}", name(cell)),
    }
}

/// A set of a linked stack's cell changes its upper.
fn name(cell: Cell) -> String {
    match cell {
        Cell::Head => "Head".to_string(),
        Cell::Tail => "Tail".to_string(),
        Cell::Top => "Top".to_string(),
        Cell::Next(node) => format!("node {node}'s next"),
        Cell::Mark(node) => format!("node {node}'s mark"),
        Cell::Upper(node) | Cell::Whole(node) => format!("node {node}'s upper"),
        Cell::Flag(node) => format!("node {node}'s flag"),
    }
}

fn is_cleared(held: u16) -> bool {
    held & CLEARED != 0
}

/// What a cell holds, of a linked stack's whole cell the upper. Head, Tail and a linked stack's Top may be at node 0; elsewhere 0 is none.
fn content(kind: Kind, cell: Cell, held: u16) -> String {
    match (cell, held & !CLEARED) {
        (Cell::Flag(_), _) if is_cleared(held) => "cleared".to_string(),
        (Cell::Flag(_), _) => "live".to_string(),
        (Cell::Mark(_), 0) => "clear".to_string(),
        (Cell::Mark(_), _) => "raised".to_string(),
        (Cell::Top, 0) if kind == Kind::Stack => "none".to_string(),
        (Cell::Next(_) | Cell::Upper(_) | Cell::Whole(_), 0) => "none".to_string(),
        (_, node) => format!("node {node}"),
    }
}
