//! Files and streams of every length around the limits.

use super::Bench;
use crate::failure::kept;
use crate::file::{BLOCK, BLOCKS, FILE_LIMIT, PAYLOAD, sealed};
use crate::generate::{Draft, put};
use crate::job::{HEADER, RECORD, STEPS};
use crate::random::Random;

const SHORT: usize = 1_100;

/// A job with one operation and a stream of the given length.
fn of_length(length: usize) -> Draft {
    Draft { kind: 1, processes: 1, records: vec![put(0, 7)], schedule: vec![0; length - HEADER - RECORD] }
}

/// The largest job: a stream of 17,414 bytes in 35 blocks.
fn largest() -> Draft {
    Draft { kind: 2, processes: 8, records: vec![put(7, 7); 256], schedule: vec![7; STEPS] }
}

/// Files of every length from 0 to 1,100 and around 17,920: zeros, random bytes, and a job cut or lengthened.
pub fn files(bench: &mut Bench) -> Result<usize, String> {
    let mut random = Random::new(5);
    let mut job = sealed(&largest().stream());
    job.extend_from_within(..2 * BLOCK);
    let two_blocks = sealed(&of_length(2 * PAYLOAD).stream());
    let lengths: Vec<usize> = (0..=SHORT).chain(FILE_LIMIT - BLOCK - 2..=FILE_LIMIT + BLOCK + 2).collect();
    for &length in &lengths {
        let cut_small = &two_blocks[..length.min(two_blocks.len())];
        for file in [&vec![0; length], &random.bytes(length), &job[..length], cut_small] {
            let number = bench.compare.file(file).map_err(|why| kept("length.job", file, why))?.number;
            let whole = !file.is_empty() && file.len() <= FILE_LIMIT && file.len().is_multiple_of(BLOCK);
            if (number == 2) == whole {
                return Err(kept("length.job", file, format!("length {}: {number}", file.len())));
            }
        }
    }
    Ok(4 * lengths.len())
}

/// Streams of every length from 0 to 1,100, around every block's end and around the longest: exact, then with another length.
pub fn streams(bench: &mut Bench) -> Result<usize, String> {
    let shortest = HEADER + RECORD;
    let ends = (3..BLOCKS).flat_map(|blocks| blocks * PAYLOAD - 2..=blocks * PAYLOAD + 2);
    let lengths: Vec<usize> = (shortest..=SHORT).chain(ends).filter(|&length| length <= shortest + STEPS).collect();
    for &length in &lengths {
        let stream = of_length(length).stream();
        bench.compare.job(&stream).map_err(|why| kept("length.stream", &stream, why))?;
        for other in [length - 1, length + 1, length + BLOCK] {
            let mut stream = stream.clone();
            stream.resize(other, 0);
            expect(bench, &stream, 9)?;
        }
    }
    for length in 0..HEADER {
        expect(bench, &of_length(SHORT).stream()[..length], 2)?;
    }
    let mut stream = largest().stream();
    bench.compare.job(&stream).map_err(|why| kept("length.stream", &stream, why))?;
    stream.push(0);
    expect(bench, &stream, 9)?;
    Ok(4 * lengths.len() + HEADER + 2)
}

fn expect(bench: &mut Bench, stream: &[u8], number: u32) -> Result<(), String> {
    let answered = bench.compare.write(stream, FILE_LIMIT).map_err(|why| kept("length.stream", stream, why))?.number;
    if answered == number { Ok(()) } else { Err(kept("length.stream", stream, format!("{answered} in place of {number}"))) }
}
