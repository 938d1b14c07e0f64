//! When windows are open, asked of the library: a take on an empty stack is one step, so in which steps takes were made shows in which their
//! process may work. No date and no window is worked out here; only that a window opens and closes on full minutes is known.

use crate::limits::{MINUTE, OPERATIONS, PROCESSES};
use crate::windows::{Start, Window, Windows};
use crate::{Action, Job, Kind, Operation, Refusal, read_windows, replay_within, write, write_windows};
use std::ops::RangeInclusive;

/// Which steps of a run are shut to which process. By default none is.
///
/// ```
/// let block = include_bytes!("../../../examples/satellite.win");
/// let hours = pigwazet::Hours::of(block, 16)?;
/// assert!(hours.is_open(1, 10) && !hours.is_open(1, 11));
/// assert_eq!(hours.shut(2), [1..=10]);
/// # Ok::<(), pigwazet::Refusal>(())
/// ```
#[derive(Clone, PartialEq, Eq, Debug, Default)]
pub struct Hours {
    shut: [Vec<RangeInclusive<u16>>; PROCESSES],
}

impl Hours {
    /// Those of a window block, or of none, over so many steps: 16,384 at most.
    pub fn of(block: &[u8], steps: u16) -> Result<Hours, Refusal> {
        let mut hours = Hours::default();
        if let Some(Windows { start, .. }) = read_windows(block)? {
            let minutes = minutes(start.second, steps);
            for (process, shut) in (0..).zip(&mut hours.shut) {
                *shut = spans(&minutes, steps, &open(block, process, &minutes)?);
            }
        }
        Ok(hours)
    }

    /// Whether a process may work in a step.
    pub fn is_open(&self, process: u8, step: u16) -> bool {
        !self.shut(process).iter().any(|steps| steps.contains(&step))
    }

    /// The steps in which it may not, in order.
    pub fn shut(&self, process: u8) -> &[RangeInclusive<u16>] {
        self.shut.get(usize::from(process)).map_or(&[], Vec::as_slice)
    }
}

impl Start {
    /// 0 for a Monday to 6 for a Sunday: of seven processes, each with one weekday for its window, one may work.
    pub fn weekday(self) -> Result<u8, Refusal> {
        let day = |process: usize| Window { days: 1 << process & Window::ALWAYS.days, ..Window::ALWAYS };
        let windows = Windows { start: Start { second: 0, ..self }, entries: std::array::from_fn(day) };
        let hours = Hours::of(&write_windows(&windows)?, 1)?;
        Ok((0..7).find(|&process| hours.is_open(process, 1)).expect("a day of the week"))
    }
}

/// The first step, and those that fall on a full minute.
fn minutes(second: u32, steps: u16) -> Vec<u16> {
    (1..=steps).filter(|&step| step == 1 || (second + u32::from(step) - 1).is_multiple_of(MINUTE)).collect()
}

/// Those of some steps in which a process may work.
fn open(block: &[u8], process: u8, steps: &[u16]) -> Result<Vec<u16>, Refusal> {
    let mut open = vec![];
    for asked in steps.chunks(OPERATIONS) {
        let operations = vec![Operation { process, action: Action::Take }; asked.len()];
        // in between steps one that has no operation
        let other = (process + 1) % PROCESSES as u8;
        let turn = |step: u16| if asked.binary_search(&step).is_ok() { process } else { other };
        let schedule = (1..=asked[asked.len() - 1]).map(turn).collect();
        let job = Job { kind: Kind::Stack, processes: PROCESSES as u8, operations, schedule };
        let report = replay_within(&write(&job)?, block)?;
        open.extend(report.run().operations.iter().filter_map(|take| take.first));
    }
    Ok(open)
}

/// All steps but those from an open minute up to the next one.
fn spans(minutes: &[u16], steps: u16, open: &[u16]) -> Vec<RangeInclusive<u16>> {
    let mut spans: Vec<RangeInclusive<u16>> = vec![];
    let ends = minutes.iter().skip(1).map(|next| next - 1).chain([steps]);
    for (&from, to) in minutes.iter().zip(ends).filter(|(from, _)| open.binary_search(from).is_err()) {
        match spans.last_mut() {
            Some(last) if last.end() + 1 == from => *last = *last.start()..=to,
            _ => spans.push(from..=to),
        }
    }
    spans
}
