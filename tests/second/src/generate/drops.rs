//! Drops in an order of steps: an entry with 128 on top has its process drop what it has begun.

use super::Style;
use crate::job::DROP;
use crate::random::Random;

/// Makes drops of some entries of a schedule, as a style has them.
pub fn put_into(schedule: &mut [u8], style: Style, processes: u8, random: &mut Random) {
    match style {
        Style::FewDrops => here_and_there(schedule, *random.pick(&[20, 50, 200]), random),
        Style::ManyDrops => here_and_there(schedule, *random.pick(&[2, 3, 5, 8]), random),
        Style::PowerCuts => power_cuts(schedule, processes, random),
        _ => {}
    }
}

/// One entry in so many.
pub fn here_and_there(schedule: &mut [u8], one_in: usize, random: &mut Random) {
    for entry in schedule {
        if random.chance(one_in) {
            *entry |= DROP;
        }
    }
}

/// Now and then every process drops what it has begun, one after the other.
fn power_cuts(schedule: &mut [u8], processes: u8, random: &mut Random) {
    for _ in 0..random.between(1, 6) {
        let from = random.between(0, schedule.len());
        for (entry, process) in schedule[from..].iter_mut().zip(0..processes) {
            *entry = DROP + process;
        }
    }
}
