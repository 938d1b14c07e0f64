//! What a run showed, counted, so that a test can tell whether its jobs reached every row and every case of the record.

use super::facts::Facts;
use super::lost;
use super::parse::{Effect, Report};
use crate::job::{DROP, Job, PROCESSES, slot};
use crate::watch::{CLEARED, Event, Log, ROWS, Row};

/// Each count is of runs' steps or lines; `rows` is by row and by outcome.
pub struct Seen {
    /// A set (or a W4) that changed or did not; a read (or a raised mark) that found zero or something else.
    pub rows: [[usize; 2]; ROWS],
    /// A W4 that found the flag cleared already.
    pub cleared_again: usize,
    pub shared_lines: usize,
    pub lines_of_eight: usize,
    pub open_takers: usize,
    pub open_puts: usize,
    pub idle_steps: usize,
    pub dropped: Dropped,
    pub shut: Shut,
}

/// Counts of dropped operations, and of drops with none begun.
pub struct Dropped {
    /// By the row that the operation would have run next.
    pub before: [usize; ROWS],
    pub takers: usize,
    pub puts: usize,
    pub idle: usize,
}

/// Counts of steps outside their process's window, and of windows that opened or closed between two steps of their process.
#[derive(Clone, Copy, Default, Debug)]
pub struct Shut {
    pub steps: usize,
    /// Of them, those that are drops in the schedule.
    pub drops: usize,
    pub openings: usize,
    pub closings: usize,
}

impl Default for Seen {
    fn default() -> Seen {
        let rows = [[0; 2]; ROWS];
        let dropped = Dropped { before: [0; ROWS], takers: 0, puts: 0, idle: 0 };
        let shut = Shut::default();
        Seen {
            rows,
            cleared_again: 0,
            shared_lines: 0,
            lines_of_eight: 0,
            open_takers: 0,
            open_puts: 0,
            idle_steps: 0,
            dropped,
            shut,
        }
    }
}

impl Seen {
    pub fn of(job: &Job, log: &Log, facts: &Facts, report: &Report) -> Seen {
        let mut seen = Seen::default();
        for event in &log.events {
            seen.step(event);
        }
        seen.shut = Shut::of(job, log);
        seen.idle_steps = usize::from(log.steps) - log.events.len() - log.drops.len() - log.shut.len();
        for row in facts.operations.iter().filter_map(|own| own.dropped_before()) {
            seen.dropped.before[row as usize] += 1;
        }
        let drops = job.schedule.iter().filter(|&&entry| entry >= DROP).count();
        seen.dropped.idle = drops - log.drops.len() - seen.shut.drops;
        for line in &report.lines {
            seen.line(&line.effect, facts);
        }
        seen
    }

    fn step(&mut self, event: &Event) {
        let clears = event.row == Row::W4;
        let outcome = if event.aim.is_some() || clears { event.wrote.is_some() } else { event.held != 0 };
        self.rows[event.row as usize][usize::from(outcome)] += 1;
        self.cleared_again += usize::from(clears && event.held == CLEARED);
    }

    fn line(&mut self, effect: &Effect, facts: &Facts) {
        let dropped = |own: &u16| facts.operations[usize::from(*own)].dropped.is_some();
        let open = |own: &u16| facts.operations[usize::from(*own)].answer.is_none() && !dropped(own);
        match effect {
            Effect::Put(own) => {
                self.open_puts += usize::from(open(own));
                self.dropped.puts += usize::from(dropped(own));
            }
            Effect::Take(_, takers) => {
                self.shared_lines += usize::from(takers.len() > 1);
                self.lines_of_eight += usize::from(takers.len() == 8);
                self.open_takers += takers.iter().filter(|own| open(own)).count();
                self.dropped.takers += takers.iter().filter(|own| dropped(own)).count();
            }
            Effect::Empty(_) => {}
        }
    }

    pub fn add(&mut self, other: &Seen) {
        for (own, more) in self.rows.as_flattened_mut().iter_mut().zip(other.rows.as_flattened()) {
            *own += more;
        }
        self.cleared_again += other.cleared_again;
        self.shared_lines += other.shared_lines;
        self.lines_of_eight += other.lines_of_eight;
        self.open_takers += other.open_takers;
        self.open_puts += other.open_puts;
        self.idle_steps += other.idle_steps;
        self.dropped.add(&other.dropped);
        self.shut.add(&other.shut);
    }

    /// The rounds lost: Q3s that changed nothing, Q5s and T4s.
    pub fn lost(&self) -> usize {
        let [failed, _] = self.rows[Row::Q3 as usize];
        let helped = [Row::Q5, Row::T4].iter().flat_map(|&row| self.rows[row as usize]);
        failed + helped.sum::<usize>()
    }

    /// The most that document 02 lets one run on so many processes lose.
    pub fn may_lose(&self, processes: u8) -> usize {
        let [_, puts] = self.rows[Row::Q3 as usize];
        lost::bound(processes, puts, self.dropped.before[Row::Q4 as usize])
    }

    /// Whether every row went both ways and every case of the record was met.
    pub fn all(&self) -> bool {
        let rows = self.rows.as_flattened().iter().all(|&count| count > 0);
        rows && self.cleared_again > 0
            && self.shared_lines > 0
            && self.lines_of_eight > 0
            && self.open_takers > 0
            && self.open_puts > 0
            && self.idle_steps > 0
            && self.dropped.all()
            && self.shut.all()
    }
}

impl Dropped {
    fn add(&mut self, other: &Dropped) {
        for (own, more) in self.before.iter_mut().zip(&other.before) {
            *own += more;
        }
        self.takers += other.takers;
        self.puts += other.puts;
        self.idle += other.idle;
    }

    /// Whether operations were dropped before every row, in the record and outside it. An operation begins before it is dropped, so those
    /// before a first row are on their way back to it.
    fn all(&self) -> bool {
        self.before.iter().all(|&count| count > 0) && self.takers > 0 && self.puts > 0 && self.idle > 0
    }
}

impl Shut {
    fn of(job: &Job, log: &Log) -> Shut {
        let mut shut = Shut::default();
        let mut outside = log.shut.iter().copied().peekable();
        // by process: whether its step before this one was shut
        let mut before = [None; PROCESSES];
        for (&entry, step) in job.schedule.iter().zip(1..) {
            let is_shut = outside.next_if_eq(&step).is_some();
            shut.steps += usize::from(is_shut);
            shut.drops += usize::from(is_shut && entry >= DROP);
            match before[usize::from(slot(entry).process())].replace(is_shut) {
                Some(true) if !is_shut => shut.openings += 1,
                Some(false) if is_shut => shut.closings += 1,
                _ => {}
            }
        }
        shut
    }

    fn add(&mut self, other: &Shut) {
        self.steps += other.steps;
        self.drops += other.drops;
        self.openings += other.openings;
        self.closings += other.closings;
    }

    pub fn all(&self) -> bool {
        self.steps > 0 && self.drops > 0 && self.openings > 0 && self.closings > 0
    }
}
