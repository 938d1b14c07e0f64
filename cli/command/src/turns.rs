//! The turns of a run: whose each step was, and which of them fell outside the window of their process.

use crate::windows::words::{moment, window};
use crate::words::{counted, list, step, steps};
use pigwazet::report::{Ending, Operation};
use pigwazet::{Hours, Job, Refusal, Turn, Windows};
use std::ops::RangeInclusive;

pub struct Turns {
    pub job: Job,
    /// None without a window block: then nothing is shut.
    pub windows: Option<Windows>,
    /// That of the start, 0 for Monday.
    pub weekday: u8,
    pub hours: Hours,
}

impl From<Job> for Turns {
    fn from(job: Job) -> Turns {
        Turns { job, windows: None, weekday: 0, hours: Hours::default() }
    }
}

impl Turns {
    /// Of the job in a file, within the windows of a block, if there is one.
    pub fn of(file: &[u8], block: &[u8]) -> Result<Turns, Refusal> {
        let job = pigwazet::read(file)?;
        let hours = Hours::of(block, job.schedule.len() as u16)?;
        let windows = pigwazet::read_windows(block)?;
        let weekday = windows.map_or(Ok(0), |windows| windows.start.weekday())?;
        Ok(Turns { job, windows, weekday, hours })
    }

    /// Each step with its turn.
    pub fn all(&self) -> impl Iterator<Item = (u16, Turn)> {
        (1..).zip(self.job.schedule.iter().map(|&entry| Turn::of(entry)))
    }

    /// The steps that were shut.
    pub fn shut(&self) -> impl Iterator<Item = (u16, Turn)> {
        self.all().filter(|&(step, turn)| !self.hours.is_open(turn.process(), step))
    }

    /// The step in which an operation was dropped, if it was.
    pub fn dropped_at(&self, operation: &Operation) -> Option<u16> {
        operation.dropped_within(&self.job, &self.hours)
    }

    /// The turns out of which an operation that did not end was shut, in words: those of its process behind its first step.
    pub fn shut_out(&self, operation: &Operation) -> Option<String> {
        if !matches!(operation.ending, Ending::Open | Ending::Waiting) {
            return None;
        }
        self.shut_behind(operation.process, operation.first.unwrap_or_default())
    }

    /// The turns out of which a process was shut behind a step, in words; nothing of none.
    pub fn shut_behind(&self, process: u8, behind: u16) -> Option<String> {
        let own = |&(step, turn): &(u16, Turn)| turn.process() == process && step > behind;
        let shut: Vec<u16> = self.shut().filter(own).map(|(step, _)| step).collect();
        turns_told(&shut, self.hours.shut(process)).map(|turns| format!("shut out of {turns}"))
    }

    /// Why a step is shut to a process, in words: when it fell, and the window.
    pub fn outside(&self, step: u16, process: u8) -> String {
        let own = |windows: Windows| windows.entries[usize::from(process)];
        match self.windows.filter(|&windows| !own(windows).is_shut()) {
            None => "its process has no window".to_string(),
            Some(windows) => {
                let moment = moment(windows.start.second, self.weekday, step);
                format!("{moment} is outside {}", window(own(windows)))
            }
        }
    }
}

/// `1 turn, step 11`; `3 turns from step 11 to step 15`; where they lie in several spans, `4 turns in step 2 and steps 11 to 15`.
fn turns_told(turns: &[u16], spans: &[RangeInclusive<u16>]) -> Option<String> {
    let together = |one: &u16, next: &u16| spans.iter().any(|span| span.contains(one) && span.contains(next));
    let parts: Vec<&[u16]> = turns.chunk_by(together).collect();
    let count = counted(turns.len(), "turn", "turns");
    match parts[..] {
        [] => None,
        [&[one]] => Some(format!("{count}, {}", step(one))),
        [&[first, .., last]] => Some(format!("{count} from {} to {}", step(first), step(last))),
        _ => {
            let parts: Vec<String> = parts.iter().map(|part| steps(part[0], part[part.len() - 1])).collect();
            Some(format!("{count} in {}", list(&parts)))
        }
    }
}
