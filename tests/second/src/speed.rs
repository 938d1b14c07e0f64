//! Both sides on the same calls, in turns in one run, two ways: one input repeated, and all inputs in rotation. A processor learns
//! the branches of a call that is repeated, so only the rotation tells of inputs that it has not just seen.

pub mod booked;
pub mod shapes;

use crate::calls::{Calls, REPORT, SECOND};
use crate::file::{FILE_LIMIT, WORK};
use crate::library::LIBRARY;
use std::hint::black_box;
use std::time::Instant;

/// Nanoseconds of a call on each side, by its best round.
pub struct Pair {
    pub second: f64,
    pub library: f64,
}

impl Pair {
    pub fn ratio(&self) -> f64 {
        self.library / self.second
    }
}

/// The same call measured both ways.
pub struct Measured {
    pub repeated: Pair,
    pub rotated: Pair,
}

/// The memories of a side. They are not cleared between calls.
struct Memories {
    work: Vec<u8>,
    out: Vec<u8>,
}

/// A round is one call for each input, on one side, then on the other; repeated, it is as many calls for the first input.
fn measured(inputs: &[Vec<u8>], rounds: usize, call: impl Fn(&Calls, &[u8], &mut Memories) -> u64) -> Measured {
    let repeated = vec![&inputs[0]; inputs.len()];
    let rotated: Vec<&Vec<u8>> = inputs.iter().collect();
    Measured { repeated: best(&repeated, rounds, &call), rotated: best(&rotated, rounds, &call) }
}

fn best(inputs: &[&Vec<u8>], rounds: usize, call: &impl Fn(&Calls, &[u8], &mut Memories) -> u64) -> Pair {
    let sides = [SECOND, LIBRARY];
    let mut memories = sides.map(|_| Memories { work: vec![0; WORK], out: vec![0; REPORT.max(FILE_LIMIT)] });
    let mut best = [f64::INFINITY; 2];
    for _ in 0..rounds {
        for (side, calls) in sides.iter().enumerate() {
            let began = Instant::now();
            for input in inputs {
                black_box(call(black_box(calls), input, &mut memories[side]));
            }
            let nanoseconds = began.elapsed().as_nanos() as f64 / inputs.len() as f64;
            best[side] = best[side].min(nanoseconds);
        }
    }
    let [second, library] = best;
    Pair { second, library }
}

/// All of them within the same windows; empty ones are none.
pub fn replay(files: &[Vec<u8>], windows: &[u8], rounds: usize) -> Measured {
    measured(files, rounds, |calls, file, memories| (calls.replay)(file, windows, &mut memories.work, &mut memories.out))
}

pub fn read(files: &[Vec<u8>], rounds: usize) -> Measured {
    measured(files, rounds, |calls, file, memories| (calls.read)(file, &mut memories.work))
}

pub fn salvage(files: &[Vec<u8>], rounds: usize) -> Measured {
    measured(files, rounds, |calls, file, memories| (calls.salvage)(file, &mut memories.work, &mut memories.out))
}

pub fn write(streams: &[Vec<u8>], rounds: usize) -> Measured {
    measured(streams, rounds, |calls, stream, memories| (calls.write)(stream, &mut memories.out))
}
