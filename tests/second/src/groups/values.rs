//! Every value that a put may have, as its put prints it and as a take that gets it does.

use super::Bench;
use crate::generate::{Draft, put, take};
use crate::watch::Row;

/// Puts of one job, and as many takes.
const PUTS: usize = 128;
/// Steps of a queue's put or take that nobody disturbs.
const STEPS: usize = 4;

pub fn every(bench: &mut Bench) -> Result<usize, String> {
    let values: Vec<i16> = (i16::MIN..=i16::MAX).collect();
    for part in values.chunks(PUTS) {
        let puts = part.iter().map(|&value| put(0, value));
        let records: Vec<_> = puts.chain([take(0); PUTS]).collect();
        let schedule = vec![0; STEPS * records.len()];
        let seen = bench.compare.job(&Draft { kind: 1, processes: 1, records, schedule }.stream())?;
        // a T5 that moved Head ends a take of the next value
        let taken = seen.rows[Row::T5 as usize][1];
        if taken != part.len() {
            return Err(format!("{taken} of the values from {} on were taken", part[0]));
        }
        bench.seen.add(&seen);
    }
    Ok(values.len())
}
