//! Changed and random bytes.

use super::Bench;
use crate::failure::kept;
use crate::file::{BLOCK, BLOCKS, PAYLOAD, SUMMED, seal_sums, sealed};
use crate::generate::{self, Draft, STYLES, put, take};
use crate::random::Random;

fn small() -> Draft {
    Draft { kind: 2, processes: 2, records: vec![put(0, 1_234), take(1)], schedule: vec![0, 0, 1, 1, 1, 1] }
}

/// Every other value of every byte of a small file: a sum always differs.
pub fn single_changes(bench: &mut Bench) -> Result<usize, String> {
    let mut file = sealed(&small().stream());
    for at in 0..file.len() {
        for flip in 1..=255 {
            file[at] ^= flip;
            let number = bench.compare.file(&file).map_err(|why| kept("byte.job", &file, why))?.number;
            if number != 3 {
                return Err(kept("byte.job", &file, format!("byte {at}: {number} in place of 3")));
            }
            file[at] ^= flip;
        }
    }
    Ok(file.len() * 255)
}

/// Every other value of every summed byte of a small file, with right sums: the refusals behind the sums, and other jobs.
pub fn summed_changes(bench: &mut Bench) -> Result<usize, String> {
    let mut block: [u8; BLOCK] = sealed(&small().stream()).try_into().expect("one block");
    for at in 0..SUMMED {
        for flip in 1..=255 {
            block[at] ^= flip;
            seal_sums(&mut block);
            bench.compare.file(&block).map_err(|why| kept("byte.job", &block, why))?;
            block[at] ^= flip;
        }
    }
    Ok(SUMMED * 255)
}

/// Every other value of every byte of a small stream, written.
pub fn stream_changes(bench: &mut Bench) -> Result<usize, String> {
    let mut stream = small().stream();
    for at in 0..stream.len() {
        for flip in 1..=255 {
            stream[at] ^= flip;
            bench.compare.write(&stream, BLOCKS * BLOCK).map_err(|why| kept("byte.stream", &stream, why))?;
            stream[at] ^= flip;
        }
    }
    Ok(stream.len() * 255)
}

/// Random bytes: without sums, with sums and numbers, and with a header in range before them.
pub fn random(bench: &mut Bench) -> Result<usize, String> {
    const FILES: usize = 6_000;
    let mut random = Random::new(4);
    for i in 0..FILES {
        let blocks = random.between(1, if i % 4 == 0 { BLOCKS + 1 } else { 3 });
        let file = match i % 3 {
            0 => random.bytes(blocks * BLOCK),
            1 => sealed(&random.bytes(blocks * PAYLOAD)),
            _ => sealed(&near_job(&mut random)),
        };
        bench.compare.file(&file).map_err(|why| kept("random.job", &file, why))?;
        let stream = if i % 2 == 0 { near_job(&mut random) } else { random.bytes(blocks * 5) };
        bench.compare.write(&stream, BLOCKS * BLOCK).map_err(|why| kept("random.stream", &stream, why))?;
    }
    Ok(2 * FILES)
}

/// A job's stream with some of its bytes random.
fn near_job(random: &mut Random) -> Vec<u8> {
    let mut stream = generate::job(random.below(1_000 * STYLES.len()) as u64).stream();
    for _ in 0..random.below(4) {
        let at = random.below(stream.len());
        stream[at] = random.byte();
    }
    stream
}
