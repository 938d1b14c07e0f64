//! The jobs that are measured: of each shape as many as a rotation has, alike but for their seeds.

use crate::generate::order::Order;
use crate::generate::{Draft, drops, put, take};
use crate::job::{Slot, slot};
use crate::linked::Linked;
use crate::machine::{Machine, Object};
use crate::queue::Queue;
use crate::random::Random;
use crate::stack::Stack;
use crate::watch::Nobody;

/// The number of different jobs in a rotation.
pub const ROTATION: u64 = 64;
/// The seed of the first, which is also the one that is repeated.
const FIRST_SEED: u64 = 8;

/// Jobs of both puts and takes on eight processes.
pub fn jobs(kind: u8, operations: usize, steps: usize, order: &Order) -> Vec<Draft> {
    (FIRST_SEED..FIRST_SEED + ROTATION).map(|seed| job(kind, operations, steps, order, seed)).collect()
}

/// The job of a seed.
pub fn job(kind: u8, operations: usize, steps: usize, order: &Order, seed: u64) -> Draft {
    let mut random = Random::new(seed);
    let record = |i: usize| {
        let process = random.below(8) as u8;
        if random.chance(2) { put(process, 900 + 13 * i as i16) } else { take(process) }
    };
    let records = (0..operations).map(record).collect();
    let mut draft = Draft { kind, processes: 8, records, schedule: vec![] };
    draft.schedule = order.schedule(&draft, steps, &mut random);
    draft
}

/// The same jobs without their idle steps; a drop with none begun is one.
pub fn acting(drafts: &[Draft]) -> Vec<Draft> {
    let steps = |draft: &Draft| match draft.kind {
        1 => acting_steps::<Queue>(draft),
        2 => acting_steps::<Stack>(draft),
        _ => acting_steps::<Linked>(draft),
    };
    drafts.iter().map(|draft| Draft { schedule: steps(draft), ..draft.clone() }).collect()
}

fn acting_steps<O: Object>(draft: &Draft) -> Vec<u8> {
    let mut machine = Machine::<O>::fresh(&draft.records);
    let mut acting = draft.schedule.clone();
    let mut step = 0;
    acting.retain(|&entry| {
        let standing = machine.standing(slot(entry).process());
        let begun = |(operation, _)| machine.journal.first[usize::from(operation)] != 0;
        let acts = match slot(entry) {
            Slot::Acts(_) => standing.is_some(),
            Slot::Drops(_) => standing.is_some_and(begun),
        };
        step += 1;
        machine.step(step, entry, &mut Nobody);
        acts
    });
    acting
}

/// One entry in so many is a drop.
const DROPS_ONE_IN: usize = 16;

/// The same jobs with drops.
pub fn dropping(drafts: &[Draft]) -> Vec<Draft> {
    let mut random = Random::new(FIRST_SEED);
    let mut dropping = drafts.to_vec();
    for draft in &mut dropping {
        drops::here_and_there(&mut draft.schedule, DROPS_ONE_IN, &mut random);
    }
    dropping
}
