//! The limits of the papers: kinds 1 to 3 taken, 0 and 4 are 5; P 8 taken, 9 is 6; N 256 taken, 257 is 7; S 16,384 taken, 16,385 is 8; an
//! entry P - 1 taken, P is 11, with and without the 128 of a drop; work 17,709 is 1.

use super::Bench;
use crate::compare::{ENOUGH, Lent};
use crate::file::{FILE_LIMIT, PAYLOAD, WORK, sealed};
use crate::generate::{Draft, put, take};
use crate::job::{DROP, HEADER, PROCESSES, RECORD};

fn draft(processes: u8, operations: usize, steps: usize) -> Draft {
    let record = |i: usize| if i.is_multiple_of(2) { put(0, i as i16) } else { take(0) };
    Draft { kind: 1, processes, records: (0..operations).map(record).collect(), schedule: vec![0; steps] }
}

fn full(kind: u8) -> Draft {
    Draft { kind, ..draft(8, 256, 16_384) }
}

/// A full-size schedule of nothing but this entry.
fn all_entries(entry: u8) -> Draft {
    Draft { schedule: vec![entry; 16_384], ..full(1) }
}

pub fn paper(bench: &mut Bench) -> Result<usize, String> {
    let rows = [
        (draft(8, 1, 1), 0),
        (draft(9, 1, 1), 6),
        (draft(0, 1, 1), 6),
        (draft(1, 256, 1), 0),
        (draft(1, 257, 1), 7),
        (draft(1, 0, 1), 7),
        (draft(1, 1, 16_384), 0),
        (draft(1, 1, 16_385), 8),
        (full(1), 0),
        (draft(8, 257, 16_385), 7),
        (full(2), 0),
        (full(3), 0),
        (all_entries(DROP), 0),
        (all_entries(DROP + 7), 0),
        (all_entries(DROP + 8), 11),
        (all_entries(DROP - 1), 11),
        (all_entries(255), 11),
        (full(0), 5),
        (full(4), 5),
        (full(255), 5),
        (Draft { kind: 4, ..draft(9, 257, 16_385) }, 5),
        (Draft { kind: 3, ..draft(9, 257, 16_385) }, 6),
    ];
    for (i, (draft, number)) in rows.iter().enumerate() {
        let stream = draft.stream();
        expect(*number, bench.compare.file(&sealed(&stream))?.number, i)?;
        expect(*number, bench.compare.write(&stream, FILE_LIMIT)?.number, i)?;
    }
    let file = sealed(&full(1).stream());
    expect(1, bench.compare.replay(&file, &[], Lent { work: WORK - 1, ..ENOUGH })?.number, rows.len())?;
    expect(0, bench.compare.replay(&file, &[], ENOUGH)?.number, rows.len())?;
    Ok(rows.len() + 2)
}

/// The steps of a job whose schedule begins in one block and ends in the next: the first, those at the block's end, and the last.
const STEPS: usize = 600;
const PLACES: [usize; 4] = [0, PAYLOAD - HEADER - 2 * RECORD - 1, PAYLOAD - HEADER - 2 * RECORD, STEPS - 1];

/// Every byte as an entry of the schedule, for every P: replay, read and write take it exactly if without 128 it is under P.
pub fn entries(bench: &mut Bench) -> Result<usize, String> {
    let mut count = 0;
    for processes in 1..=PROCESSES as u8 {
        for entry in 0..=255 {
            for place in PLACES {
                entry_is(bench, processes, entry, place)
                    .map_err(|why| format!("entry {entry} for step {}, P {processes}: {why}", place + 1))?;
                count += 1;
            }
        }
    }
    Ok(count)
}

fn entry_is(bench: &mut Bench, processes: u8, entry: u8, place: usize) -> Result<(), String> {
    let mut schedule = vec![0; STEPS];
    schedule[place] = entry;
    let stream = Draft { kind: 1 + entry % 3, processes, records: vec![put(0, 15), take(processes - 1)], schedule }.stream();
    let file = sealed(&stream);
    let number = if entry % 128 < processes { 0 } else { 11 };
    expect(number, bench.compare.file(&file)?.number, place)?;
    expect(number, bench.compare.write(&stream, FILE_LIMIT)?.number, place)?;
    if number == 0 {
        bench.seen.add(&bench.compare.run(&stream, &file, &[])?);
    }
    Ok(())
}

fn expect(number: u32, answered: u32, row: usize) -> Result<(), String> {
    if number == answered { Ok(()) } else { Err(format!("row {row}: {answered} in place of {number}")) }
}
