//! What a drop cut off and what remains of it, in words.

use pigwazet::{Action, Job};
use second_replayer::watch::{Cell, Drop, Event, Log, Row};

/// Which operation was dropped, behind which row, and whether something came of it.
pub fn told(job: &Job, log: &Log, drop: &Drop) -> String {
    let own = drop.operation;
    let made: Vec<&Event> = log.events.iter().filter(|event| event.operation == own).collect();
    let behind = made.last().map_or(String::new(), |event| format!(", behind {:?}", event.row));
    let remains = match (job.operations[usize::from(own) - 1].action, made.iter().find_map(|event| effect(event))) {
        (Action::Put(_), Some(_)) => format!("reading {own} is in all the same"),
        (Action::Put(_), None) => format!("reading {own} does not come in"),
        (Action::Take, Some(item)) => format!("it had claimed reading {item} and does not get it"),
        (Action::Take, None) => "nothing was taken".to_string(),
    };
    format!("drops operation {own}{behind}: {remains}")
}

/// The reading that a step brought in or claimed. Of an operation that does not end, only these rows do.
fn effect(event: &Event) -> Option<u16> {
    match (event.row, event.cell, event.wrote) {
        (Row::Q3 | Row::V4, _, Some(own)) => Some(own),
        (Row::R3, Cell::Mark(item), _) | (Row::W4, Cell::Whole(item), Some(_)) => Some(item),
        _ => None,
    }
}
