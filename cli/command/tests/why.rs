//! Refusals in words: of every fault that can be put into a file, the place that is told is the one that decided. Mended there, the file is
//! refused no more, or for something that comes later.

mod shared;

use bench_command::why::place::{self, Place};
use pigwazet::limits::{BLOCK, PAYLOAD};
use second::damage::FILE_NUMBERS;
use second::file::{seal_sums, sealed};
use second::random::Random;
use second::samples::listing;
use shared::{Room, damaged, generated, mended};
use std::fs;

fn refused(file: &[u8]) -> Option<(u32, Place)> {
    let refusal = pigwazet::read(file).err()?;
    Some((refusal.number(), place::decided(file, refusal).place))
}

#[test]
fn mending_what_is_told_mends_the_file_or_finds_a_later_fault() {
    let mut random = Random::new(13);
    let mut met = [0; 13];
    for seed in 0..1_000 {
        let (draft, _) = generated(seed);
        for (faults, mut file) in damaged(&draft, &mut random) {
            let mut last = None;
            while let Some((number, place)) = refused(&file) {
                // blocks are looked at one after the other, each for 3 and then 4; all else goes by the number
                let order = if let Place::Block(block) = place {
                    (3, block, number)
                } else {
                    (number, place.in_stream().unwrap_or(0), 0)
                };
                assert!(
                    last.is_none_or(|last| last < order),
                    "seed {seed}, {faults:?}: told {place:?} of {number}, after {last:?}"
                );
                met[number as usize] += 1;
                last = Some(order);
                file = mended(&file, place, number, &draft);
            }
        }
    }
    for number in FILE_NUMBERS {
        assert!(met[number as usize] > 20, "{number}: {met:?}");
    }
}

/// The listing's file.
fn good() -> Vec<u8> {
    sealed(&listing().draft.stream())
}

/// The listing's file with some bytes of its stream changed, and right sums.
fn changed(changes: &[(usize, u8)]) -> Vec<u8> {
    let mut stream = listing().draft.stream();
    stream.resize(stream.len().div_ceil(PAYLOAD) * PAYLOAD, 0);
    for &(at, value) in changes {
        stream[at] = value;
    }
    sealed(&stream)
}

/// What is told of a file: number, the place that decided, what stands there, and how the advice begins.
#[track_caller]
fn told(room: &Room, file: Vec<u8>, number: u32, place: &str, found: &str, remedy: &str) {
    room.write("card.job", &file);
    let sentence = pigwazet::read(&file).unwrap_err().sentence();
    let sentence = sentence[..1].to_uppercase() + &sentence[1..];
    let expected =
        format!("card.job: refused {number}\n{sentence}.\nDecided by: {place}.\nThere stands: {found}.\nWhat to do: {remedy}");
    let ran = room.bench("why card.job");
    assert_eq!((ran.status, ran.said.as_str()), (1, ""));
    assert!(ran.out.starts_with(&expected) && ran.out.ends_with(".\n"), "expected:\n{expected}\nprinted:\n{}", ran.out);
}

#[test]
fn an_accepted_a_missing_and_an_empty_file() {
    let room = Room::new("why");
    // the same operations and steps make a job of each kind
    for kind in 1..=3 {
        room.write("card.job", changed(&[(0, kind)]));
        room.bench("why card.job").is(0, "card.job: accepted, nothing is wrong with it\n", "");
    }
    // a drop by the last process
    room.write("card.job", changed(&[(20, 130)]));
    room.bench("why card.job").is(0, "card.job: accepted, nothing is wrong with it\n", "");
    room.bench("why missing.job").fails("missing.job could not be read: ");
    room.bench_with("why -", b"").tells(1, "standard input: refused 2\n");
}

#[test]
fn lengths_and_counts_of_blocks() {
    let room = Room::new("why-lengths");
    let whole = "the file as a whole";
    let text = b"queue\nprocesses 1\nput 0 5\n".to_vec();
    let cut = "a job file is whole blocks of 512 bytes: copy the card again";
    told(&room, vec![], 2, whole, "nothing: the file is empty", "copy the card again.");
    told(&room, good()[..100].to_vec(), 2, whole, "100 bytes: 0 blocks and 100 bytes", cut);
    let remedy = "if it is a job written as text, make its job file with `bench make`.";
    told(&room, text.clone(), 2, whole, "26 bytes of plain text, which no job file is", remedy);
    let as_long_as_a_block = [text, b"#".repeat(BLOCK - 26)].concat();
    told(&room, as_long_as_a_block, 3, whole, "512 bytes of plain text, which no job file is", remedy);
    told(&room, vec![0; 18_432], 2, whole, "18,432 bytes", "a job file has at most 17,920 bytes");
    told(&room, vec![0; 100_000], 2, whole, "65,536 bytes or more", "a job file has at most 17,920 bytes");
    let mut longer = [good(), sealed(&[0; PAYLOAD])].concat();
    longer[BLOCK + 1] = 1;
    seal_sums(&mut longer.as_chunks_mut().0[1]);
    let found = "2 blocks in the file; the header's 3 operations and 12 steps need exactly 1";
    told(&room, longer, 9, whole, found, "take off what stands behind the job, or mend the header.");
    let found = "1 block in the file; the header's 3 operations and 524 steps need exactly 2";
    told(&room, changed(&[(4, 2)]), 9, whole, found, "find the missing end of the file, or mend the header.");
}

#[test]
fn blocks() {
    let room = Room::new("why-blocks");
    let place = "block 0 of 1, counted from 0: bytes 0 to 511 of the file";
    let mut damaged = good();
    damaged[511] ^= 1;
    let (a, b) = second::file::sums(&good().as_chunks().0[0]);
    let found = format!("the sums {a:04x} and {:04x}; the block's bytes give {a:04x} and {b:04x}", b ^ 1);
    told(&room, damaged, 3, place, &found, "read the card again");
    let mut misplaced = good();
    misplaced[1] = 5;
    seal_sums(&mut misplaced.as_chunks_mut().0[0]);
    told(&room, misplaced, 4, place, "the number 5, where 0 belongs", "put the blocks into the order of their numbers");
    let mut hour = fs::read(shared::top().join("examples/flood-hour.job")).unwrap();
    hour[2 * BLOCK + 100] += 1;
    let place = "block 2 of 35, counted from 0: bytes 1,024 to 1,535 of the file";
    room.write("card.job", hour);
    room.bench("why card.job").tells(1, &format!("Decided by: {place}.\n"));
}

#[test]
fn fields_of_the_header() {
    let room = Room::new("why-header");
    let field = |name: &str, byte: usize| format!("the header's {name}, at byte {byte} of the file (block 0, byte {byte})");
    for kind in [0, 4, 9] {
        let remedy = "the kind is 1 for a queue, 2 for a stack, 3 for a linked stack.";
        told(&room, changed(&[(0, kind)]), 5, &field("kind", 2), &kind.to_string(), remedy);
    }
    told(&room, changed(&[(1, 0)]), 6, &field("number of processes", 3), "0", "a job has 1 to 8 processes.");
    told(&room, changed(&[(2, 2), (3, 0)]), 7, &field("number of operations", 4), "512", "a job has 1 to 256 operations");
    told(&room, changed(&[(4, 255), (5, 255)]), 8, &field("number of steps", 6), "65,535", "a job has at most 16,384 steps");
}

#[test]
fn records_entries_and_padding() {
    let room = Room::new("why-records");
    let at = |what: &str, byte: usize| format!("{what} byte {byte} of the file (block 0, byte {byte})");
    let processes = "the job's processes are 0 to 2";
    told(&room, changed(&[(10, 9)]), 10, &at("operation 2, its process, at", 12), "process 9", processes);
    told(
        &room,
        changed(&[(11, 3)]),
        10,
        &at("operation 2, its action, at", 13),
        "action 3",
        "an action is 1, a put, or 2, a take.",
    );
    let (place, value) = (at("operation 2, its value, at", 14), "a take with the value ");
    told(&room, changed(&[(13, 1)]), 10, &place, &format!("{value}1"), "a take has the value 0.");
    told(&room, changed(&[(12, 255), (13, 255)]), 10, &place, &format!("{value}-1"), "a take has the value 0.");
    let place = at("the schedule's entry for step 3, at", 22);
    for (entry, found) in
        [(3, "process 3"), (127, "process 127"), (131, "131, a drop by process 3"), (255, "255, a drop by process 127")]
    {
        told(&room, changed(&[(20, entry)]), 11, &place, found, processes);
    }
    let place = at("the first byte behind the stream that is not zero,", 42);
    told(&room, changed(&[(40, 4)]), 12, &place, "4; the stream ended 11 bytes before", "fill the last block with zeros");
}
