//! A full-size hour of a flood: a crest passes five gauges on its way down the river; their hubs put stages, three uplinks take them.

use crate::generate::{Draft, put, take};
use crate::job::{OPERATIONS, PROCESSES, Record, STEPS};
use crate::machine::Machine;
use crate::queue::Queue;
use crate::random::Random;
use crate::watch::Nobody;
use std::ops::Range;

/// The hub furthest upstream. The flood takes it away after a few readings, and from then on its steps are idle.
const LOST: u8 = 0;
const READINGS_OF_LOST: usize = 3;
/// The other hubs, down the river.
const HUBS: [u8; 4] = [1, 2, 3, 4];
/// Radio, cell and satellite.
const UPLINKS: [u8; 3] = [5, 6, 7];
/// Radio comes to a step twice as often as cell, and cell twice as often as satellite. So few steps go to all of them that the operations last
/// the whole hour and come in each other's way.
const PACE: Pace =
    Pace { steps: STEPS, group: 8, turns: &[1, 1, 1, 2, 2, 2, 3, 3, 3, 4, 4, 4, 5, 5, 5, 5, 6, 6, 7], one_in: 10, idle: LOST };
/// While the crest is near, by operation: hubs read more often.
const NEAR: Range<usize> = 40..180;

pub fn hour() -> Draft {
    let mut random = Random::new(1936);
    let records: Vec<Record> = (0..OPERATIONS).map(|i| record(i, &mut random)).collect();
    let schedule = PACE.schedule(&records, &mut random);
    Draft { kind: 1, processes: PROCESSES as u8, records, schedule }
}

fn record(i: usize, random: &mut Random) -> Record {
    let puts_of_eight = if NEAR.contains(&i) { 5 } else { 2 };
    if i < READINGS_OF_LOST {
        put(LOST, stage(LOST, i, random))
    } else if random.below(8) < puts_of_eight {
        let hub = *random.pick(&HUBS);
        put(hub, stage(hub, i, random))
    } else {
        take(*random.pick(&UPLINKS))
    }
}

/// The stage in mm when operation `i` falls due: base flow, waves, and a crest that comes later downstream and falls slower than it rose.
fn stage(hub: u8, i: usize, random: &mut Random) -> i16 {
    let hub = usize::from(hub);
    let crest = 30 + 30 * hub;
    let width: usize = if i < crest { 30 } else { 70 };
    let height = 3_400 - 250 * hub;
    let rise = height * width.pow(2) / (width.pow(2) + i.abs_diff(crest).pow(2));
    (900 + 140 * hub + rise + random.below(25)) as i16
}

/// How a flood goes on: when its operations fall due, and who comes to a step.
pub(super) struct Pace {
    pub steps: usize,
    /// Operations fall due in groups of so many, evenly over the steps.
    pub group: usize,
    /// How often each process comes to a step when it has an operation due.
    pub turns: &'static [u8],
    /// One step in so many goes to one of them, the others to a process that has soon nothing left to do.
    pub one_in: usize,
    pub idle: u8,
}

impl Pace {
    pub(super) fn schedule(&self, records: &[Record], random: &mut Random) -> Vec<u8> {
        let mut machine = Machine::<Queue>::fresh(records);
        let mut schedule = vec![];
        while schedule.len() < self.steps {
            let begins = |operation: u16| (usize::from(operation) - 1) / self.group * self.group * self.steps / records.len();
            let is_due = |(operation, _)| begins(operation) <= schedule.len();
            let has_work = |process: &u8| machine.standing(*process).is_some_and(is_due);
            let ready: Vec<u8> = self.turns.iter().copied().filter(has_work).collect();
            let process = if ready.is_empty() || !random.chance(self.one_in) { self.idle } else { *random.pick(&ready) };
            schedule.push(process);
            machine.step(schedule.len() as u16, process, &mut Nobody);
        }
        schedule
    }
}
