//! Lent memories of every length around the limits, with good and bad jobs and windows.

use super::Bench;
use crate::calls::REPORT;
use crate::compare::Lent;
use crate::damage;
use crate::file::{FILE_LIMIT, WORK};
use crate::generate;
use crate::random::Random;
use crate::samples;

/// Lengths of memory to lend where `limit` bytes are needed.
pub(super) fn around(limit: usize) -> Vec<usize> {
    let near = limit - 20..=limit + 20;
    [0, 1, 2, 505, 506, 512, limit / 2].into_iter().chain(near).collect()
}

pub fn all(bench: &mut Bench) -> Result<usize, String> {
    let mut random = Random::new(6);
    let mut count = 0;
    let draft = generate::job(9);
    let faults: Vec<_> = damage::fault(10, &draft, &mut random).into_iter().collect();
    let block = generate::windows::windows(draft.schedule.len(), &mut random).block();
    for file in [damage::file(&draft, &[]), damage::file(&draft, &faults), vec![], damage::file(&samples::flood::hour(), &[])] {
        for work in around(WORK) {
            number_is(work < WORK, bench.compare.read(&file, work)?.number)?;
            count += 1;
            for report in around(REPORT) {
                let lent = Lent { work, report };
                for windows in [&[], block.as_slice(), &block[1..]] {
                    number_is(work < WORK || report < REPORT, bench.compare.replay(&file, windows, lent)?.number)?;
                    count += 1;
                }
            }
        }
    }
    for stream in [draft.stream(), vec![], vec![0; 6], samples::flood::hour().stream()] {
        for out in around(FILE_LIMIT) {
            number_is(out < FILE_LIMIT, bench.compare.write(&stream, out)?.number)?;
            count += 1;
        }
    }
    Ok(count)
}

pub(super) fn number_is(short: bool, number: u32) -> Result<(), String> {
    if short == (number == 1) { Ok(()) } else { Err(format!("short memory {short}, number {number}")) }
}
