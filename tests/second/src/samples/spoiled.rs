//! A logger's card that comes back spoiled: half an hour of a flood in four blocks, of which the third has some bytes overwritten.

use super::flood::Pace;
use crate::file::{BLOCK, sealed};
use crate::generate::{Draft, put, take};
use crate::job::Record;
use crate::random::Random;

/// The hub upstream has two readings and then nothing to do; of the others, one gauges the creek and one the river below its mouth.
const UPSTREAM: u8 = 0;
const HUBS: [u8; 2] = [1, 2];
/// Radio and satellite.
const UPLINKS: [u8; 2] = [3, 4];
const OPERATIONS: usize = 40;
const PACE: Pace = Pace { steps: 1_800, group: 4, turns: &[1, 1, 2, 2, 3, 3, 3, 4, 4], one_in: 8, idle: UPSTREAM };
/// The crest is there when this operation falls due.
const CREST: usize = 24;

/// What the logger wrote.
pub fn undamaged() -> Draft {
    let mut random = Random::new(1927);
    let records: Vec<Record> = (0..OPERATIONS).map(|i| record(i, &mut random)).collect();
    let schedule = PACE.schedule(&records, &mut random);
    Draft { kind: 1, processes: 5, records, schedule }
}

fn record(i: usize, random: &mut Random) -> Record {
    if i < 2 {
        put(UPSTREAM, stage(UPSTREAM, i, random))
    } else if random.chance(2) {
        let hub = *random.pick(&HUBS);
        put(hub, stage(hub, i, random))
    } else {
        take(*random.pick(&UPLINKS))
    }
}

/// The stage in mm: 60 more with each operation up to the crest, then 25 less.
fn stage(hub: u8, i: usize, random: &mut Random) -> i16 {
    let rise = 60 * i.min(CREST) - 25 * i.saturating_sub(CREST);
    (700 + 160 * usize::from(hub) + rise + random.below(15)) as i16
}

/// Where the card was overwritten: so many bytes of the third block, with ones.
const AT: usize = 2 * BLOCK + 171;
const BYTES: usize = 23;

pub fn card() -> Vec<u8> {
    let mut card = sealed(&undamaged().stream());
    card[AT..AT + BYTES].fill(255);
    card
}

/// The first two blocks hold the header, 40 records and 846 entries: 2 × 506 is 6 + 4 × 40 + 846.
pub const KEPT: usize = 846;

/// What comes out of it. Take 20 ends with the last step kept and gets reading 14; so does take 18 in what the logger wrote, but later: here it is
/// still open, as is put 19, and nothing tells of a double.
pub fn salvaged() -> Draft {
    let mut draft = undamaged();
    draft.schedule.truncate(KEPT);
    draft
}
