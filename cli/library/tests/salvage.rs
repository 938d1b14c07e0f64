//! Salvage through the library: files cut at every byte and damaged in every block, the order of the numbers, what is not looked at, and the
//! answers that stay.

use pigwazet::block::sums;
use pigwazet::limits::{BLOCK, FILE, HEADER, PAYLOAD, RECORD, STEPS, SUMMED};
use pigwazet::report::Ending;
use pigwazet::{Action, Job, Kind, Operation, Salvaged};

/// Three processes in turn, one in three operations a take.
fn job(kind: Kind, operations: usize, steps: usize) -> Job {
    let action = |i: usize| if i % 3 == 2 { Action::Take } else { Action::Put(i as i16) };
    let operations = (0..operations).map(|i| Operation { process: (i % 3) as u8, action: action(i) }).collect();
    Job { kind, processes: 3, operations, schedule: (0..steps).map(|step| (step * step % 3) as u8).collect() }
}

fn file(operations: usize, steps: usize) -> Vec<u8> {
    pigwazet::write(&job(Kind::Queue, operations, steps)).unwrap()
}

fn seal(file: &mut [u8], block: usize) {
    let block = &mut file.as_chunks_mut::<BLOCK>().0[block];
    let (a, b) = sums(block);
    block[SUMMED..].copy_from_slice([a, b].map(u16::to_be_bytes).as_flattened());
}

/// With a byte of the stream changed, and right sums.
fn changed(mut file: Vec<u8>, byte: usize, value: u8) -> Vec<u8> {
    file[byte / PAYLOAD * BLOCK + 2 + byte % PAYLOAD] = value;
    seal(&mut file, byte / PAYLOAD);
    file
}

/// With a block that is refused 3, or 4.
fn spoiled(mut file: Vec<u8>, block: usize, number: u32) -> Vec<u8> {
    file[block * BLOCK + 1] ^= 64;
    if number == 4 {
        seal(&mut file, block);
    }
    file
}

fn refused(file: &[u8]) -> Option<u32> {
    pigwazet::salvage(file).err().map(|refusal| refusal.number())
}

/// What must remain of a file of which the first blocks are whole.
fn expected(job: &Job, blocks: usize) -> Option<Salvaged> {
    let entries = (blocks * PAYLOAD).checked_sub(HEADER + RECORD * job.operations.len())?;
    let kept = entries.min(job.schedule.len());
    let rest = Job { schedule: job.schedule[..kept].to_vec(), ..job.clone() };
    Some(Salvaged { file: pigwazet::write(&rest).unwrap(), kept: kept as u16, named: job.schedule.len() as u16 })
}

#[track_caller]
fn is(salvaged: Result<Salvaged, pigwazet::Refusal>, expected: Option<Salvaged>) {
    match expected {
        Some(expected) => assert_eq!(salvaged, Ok(expected)),
        None => assert_eq!(salvaged.unwrap_err().to_string(), "refused 14: the header or the records are not whole"),
    }
}

#[test]
fn an_undamaged_file_comes_out_the_same() {
    for (operations, steps) in [(1, 0), (1, 1), (1, PAYLOAD - 10), (1, PAYLOAD - 9), (125, 0), (126, 5), (256, STEPS)] {
        for kind in Kind::all() {
            let file = pigwazet::write(&job(kind, operations, steps)).unwrap();
            let Salvaged { file: out, kept, named } = pigwazet::salvage(&file).unwrap();
            assert!(out == file && (usize::from(kept), named) == (steps, kept), "{kind:?} {operations} {steps}");
        }
    }
}

#[test]
fn a_file_cut_at_any_byte_keeps_its_full_blocks() {
    // records that end within block 1, and with it
    for operations in [130, 251] {
        let whole = job(Kind::Stack, operations, 1_100);
        let file = pigwazet::write(&whole).unwrap();
        for length in 0..=file.len() {
            is(pigwazet::salvage(&file[..length]), expected(&whole, length / BLOCK));
        }
    }
    let salvaged = pigwazet::salvage(&file(251, 1_100)[..2 * BLOCK + 1]);
    assert_eq!(salvaged.map(|rest| (rest.kept, rest.lost(), rest.to_string())), Ok((2, 1_098, "kept 2 of 1100 entries".into())));
}

#[test]
fn a_file_is_kept_up_to_a_damaged_block() {
    let whole = job(Kind::Linked, 256, STEPS);
    let file = pigwazet::write(&whole).unwrap();
    for block in 0..FILE / BLOCK {
        for number in [3, 4] {
            let spoiled = spoiled(file.clone(), block, number);
            assert_eq!(pigwazet::read(&spoiled).unwrap_err().number(), number);
            is(pigwazet::salvage(&spoiled), expected(&whole, block));
        }
    }
}

#[test]
fn what_stands_behind_the_job_is_not_read() {
    let whole = job(Kind::Queue, 3, 600);
    let file = pigwazet::write(&whole).unwrap();
    for behind in [1, BLOCK - 1, BLOCK, 3 * BLOCK + 7, 3_000_000] {
        is(pigwazet::salvage(&[&file[..], &vec![0xff; behind]].concat()), expected(&whole, 2));
    }
    // not even blocks that go on in order, more than any file has
    let mut on = file.clone();
    for block in 2..60 {
        on.extend([7; BLOCK]);
        on[block * BLOCK..][..2].copy_from_slice(&(block as u16).to_be_bytes());
        seal(&mut on, block);
    }
    is(pigwazet::salvage(&on), expected(&whole, 2));
    // nor the padding, nor an entry that is lost
    is(pigwazet::salvage(&changed(file.clone(), 2 * PAYLOAD - 1, 1)), expected(&whole, 2));
    let wrong = changed(file.clone(), PAYLOAD, 3);
    assert_eq!(refused(&wrong), Some(11));
    is(pigwazet::salvage(&spoiled(wrong, 1, 4)), expected(&whole, 1));
}

enum Fault {
    /// Of a block's number.
    Block(usize),
    /// Of a byte of the stream.
    Byte(usize, u8),
}

#[test]
fn the_numbers_in_their_order() {
    use Fault::{Block, Byte};
    let faults = [
        (14, Block(0)),
        (5, Byte(0, 9)),
        (6, Byte(1, 9)),
        (7, Byte(2, 2)),
        (8, Byte(4, 255)),
        (14, Block(1)),
        (10, Byte(HEADER + 1, 9)),
        (11, Byte(HEADER + RECORD * 200 + 3, 200)),
    ];
    // four blocks, of which the second has the last records; from each fault on, all are there
    for (first, (number, _)) in faults.iter().enumerate() {
        let bad = faults[first..].iter().fold(file(200, 1_000), |file, (_, fault)| match *fault {
            Block(block) => spoiled(file, block, 4),
            Byte(byte, value) => changed(file, byte, value),
        });
        assert_eq!(refused(&bad), Some(*number), "fault {first}");
    }
    assert_eq!(refused(&[]), Some(14));
}

#[test]
fn what_ended_in_the_kept_steps_stays_as_it_was() {
    for kind in Kind::all() {
        let file = pigwazet::write(&job(kind, 200, 4_000)).unwrap();
        let report = pigwazet::replay(&file).unwrap();
        let whole = report.run();
        for blocks in 2..file.len() / BLOCK {
            let rest = pigwazet::salvage(&file[..blocks * BLOCK]).unwrap();
            let report = pigwazet::replay(&rest.file).unwrap();
            let mut ended = 0;
            for (before, after) in whole.operations.iter().zip(&report.run().operations) {
                if before.last.is_some_and(|last| last <= rest.kept) {
                    assert_eq!((before.first, before.last, before.ending), (after.first, after.last, after.ending));
                    ended += 1;
                } else {
                    assert!(matches!(after.ending, Ending::Open | Ending::Waiting));
                }
            }
            assert!(ended > 0 && ended <= whole.operations.len());
        }
    }
}
