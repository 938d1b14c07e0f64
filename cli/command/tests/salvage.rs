//! `bench salvage`: what it writes and what it says of spoiled files, of whole ones and of those that it refuses; and that what came out is a job
//! file like any other.

mod shared;

use bench_command::why::blocks::first_wrong;
use bench_command::why::place::{self, Place};
use pigwazet::limits::{BLOCK, HEADER, PAYLOAD, RECORD};
use second::file::{seal_sums, sealed};
use second::generate::Draft;
use second::random::Random;
use shared::{Room, damaged, full_size, generated, mended};
use std::fs;
use std::os::unix::fs::symlink;
use std::process::{Command, Stdio};

/// The flood hour: its 256 operations end in block 2 of 35.
const HOUR: &[u8] = include_bytes!("../../../examples/flood-hour.job");
const LISTING: &[u8] = include_bytes!("../../../examples/listing.job");

/// What is said of the flood hour of which the first nine blocks are kept, but for why the next one is not.
const NINE: [&str; 2] = [
    "kept 3524 of 16384 entries\ncard.salvaged.job: queue, 8 processes, 256 operations, 3,524 steps\nBlocks 0 to 8 of 35 are kept. Block 9 is not: ",
    "Lost: 12,860 entries of the schedule, steps 3,525 to 16,384. The header and the operations are whole.\n\
     An operation that ended by step 3,524 has the answer, first and last step of the undamaged job; one that ended later is open or waiting. \
     A reading may have fewer takers.\n",
];

/// The flood hour with a byte of a block changed, and the block's sums made anew or not.
fn changed(block: usize, byte: usize, value: u8, sealed_anew: bool) -> Vec<u8> {
    let mut file = HOUR.to_vec();
    let block = &mut file.as_chunks_mut::<BLOCK>().0[block];
    block[byte] = value;
    if sealed_anew {
        seal_sums(block);
    }
    file
}

#[test]
fn why_the_next_block_is_not_kept() {
    let room = Room::new("salvage");
    let lost = [&HOUR[..9 * BLOCK], &HOUR[10 * BLOCK..]].concat();
    for (file, why) in [
        (HOUR[..5_000].to_vec(), "it is not whole, the file ends behind 392 of its 512 bytes"),
        (HOUR[..9 * BLOCK].to_vec(), "the file ends there"),
        (changed(9, 100, 99, false), "its sum differs, so it is damaged"),
        (changed(9, 0, 4, true), "its number is 1,033, not its position: blocks were lost or mixed up"),
        (lost, "its number is 10, not its position: blocks were lost or mixed up"),
    ] {
        room.write("card.job", &file);
        let said = format!("{}{why}.\n{}", NINE[0], NINE[1]);
        let ran = room.bench("salvage card.job");
        assert_eq!((ran.status, ran.out.as_str(), ran.said.as_str()), (0, "", said.as_str()));
        assert_eq!(pigwazet::salvage(&file).unwrap().file, room.read("card.salvaged.job"));
        assert!(room.read("card.job") == file);
    }
}

#[test]
fn little_that_is_kept() {
    let room = Room::new("salvage-little");
    let draft = full_size(1).0;
    // a stack's records that end with block 0
    let stack =
        sealed(&Draft { records: draft.records[..125].to_vec(), schedule: draft.schedule[..1_000].to_vec(), ..draft }.stream());
    room.write("card.001", &stack[..BLOCK]);
    let said = "kept 0 of 1000 entries\ncard.001.salvaged.job: stack, 8 processes, 125 operations, 0 steps\n\
                Block 0 of 3 is kept. Block 1 is not: the file ends there.\n\
                Lost: 1,000 entries of the schedule, steps 1 to 1,000. The header and the operations are whole.\n\
                No step is left: every operation is waiting.\n";
    let ran = room.bench("salvage card.001");
    assert_eq!((ran.status, ran.said.as_str()), (0, said));
    room.bench_with("salvage - -o rest.job", &stack[..2 * BLOCK]).is(
        0,
        "",
        "one that ended later is open or waiting. A reading may have fewer takers, and its line an earlier step.\n",
    );
    assert_eq!(pigwazet::read(&room.read("rest.job")).unwrap().schedule, draft.schedule[..506]);
}

#[test]
fn nothing_is_lost() {
    let room = Room::new("salvage-nothing-lost");
    for (name, file) in shared::samples() {
        room.write("card.job", &file);
        let ran = room.bench("salvage card.job -o rest.job");
        assert!(ran.status == 0 && room.read("rest.job") == file, "{name}");
        assert!(ran.said.ends_with("Nothing is lost: card.job is a proper job file, and comes out as it is.\n"), "{}", ran.said);
    }
    let all = "kept 12 of 12 entries\nrest.job: queue, 3 processes, 3 operations, 12 steps\nNothing is lost: all entries of the schedule are kept.";
    let zeros = " Bytes behind the schedule that were not zero are zero now.";
    let behind = |bytes: &str| format!(" What stood behind the job, {bytes}, is left off.");
    let mut padded = LISTING.to_vec();
    padded[507] = 1;
    seal_sums(&mut padded.as_chunks_mut().0[0]);
    for (file, words) in [
        (padded.clone(), zeros.to_string()),
        ([LISTING, &[0]].concat(), behind("1 byte")),
        ([LISTING, HOUR].concat(), behind("17,920 bytes")),
        ([LISTING, &vec![9; 100_000]].concat(), behind("65,024 bytes or more")),
        ([&padded[..], LISTING].concat(), zeros.to_string() + &behind("512 bytes")),
    ] {
        room.write("card.job", file);
        let ran = room.bench("salvage card.job -o rest.job");
        assert_eq!((ran.status, ran.out.as_str(), ran.said), (0, "", format!("{all}{words}\n")));
        assert!(room.read("rest.job") == LISTING);
    }
}

#[test]
fn the_file_goes_to_standard_output_and_the_words_never() {
    let room = Room::new("salvage-out");
    room.write("card.job", &HOUR[..5_000]);
    for words in ["salvage card.job -o -", "salvage - -o -", "salvage -"] {
        let mut command = Command::new(env!("CARGO_BIN_EXE_bench"));
        let card = fs::File::open(room.0.join("card.job")).unwrap();
        let output = command.args(words.split(' ')).current_dir(&room.0).stdin(Stdio::from(card)).output().unwrap();
        assert_eq!(output.stdout, pigwazet::salvage(&HOUR[..5_000]).unwrap().file, "{words}");
        let said = String::from_utf8(output.stderr).unwrap();
        assert!(said.starts_with("kept 3524 of 16384 entries\nstandard output: queue, 8 processes, "), "{said}");
    }
    assert_eq!(fs::read_dir(&room.0).unwrap().count(), 1);
}

#[test]
fn the_spoiled_file_and_another_one_stay_as_they_are() {
    let room = Room::new("salvage-stays");
    room.write("card.job", &HOUR[..5_000]);
    symlink("card.job", room.0.join("link.job")).unwrap();
    let stays = "card.job is the spoiled file and stays as it is: name another file with --out.\n";
    room.bench("salvage card.job -o card.job").fails(stays);
    room.bench("salvage link.job -o ./card.job").fails(stays);
    room.bench("salvage card.job -o link.job").fails("link.job is the spoiled file and stays as it is");
    let card = fs::File::open(room.0.join("card.job")).unwrap();
    let mut command = Command::new(env!("CARGO_BIN_EXE_bench"));
    command.args(["salvage", "-", "-o", "card.job"]).current_dir(&room.0).stdin(Stdio::from(card));
    assert_eq!(command.stderr(Stdio::null()).status().unwrap().code(), Some(2));
    assert!(room.read("card.job") == HOUR[..5_000]);
    // what was not named is not replaced
    room.write("card.salvaged.job", LISTING);
    let ran = room.bench("salvage card.job");
    ran.fails(
        "card.salvaged.job is there already, is something else and stays as it is: name the file with --out to replace it.",
    );
    assert!(!ran.said.contains("kept") && room.read("card.salvaged.job") == LISTING);
    room.bench("salvage card.job -o card.salvaged.job").is(0, "", "kept 3524 of 16384 entries\n");
    // the same again is no other file
    room.bench("salvage card.job").is(0, "", "kept 3524 of 16384 entries\n");
}

/// What is said of a file that is refused: number, the place that decided, what stands there, and what to do.
#[track_caller]
fn refused(room: &Room, file: &[u8], number: u32, [place, found, remedy]: [&str; 3]) {
    room.write("card.job", file);
    let sentence = pigwazet::salvage(file).unwrap_err().sentence();
    let said =
        format!("refused {number}\ncard.job: {sentence}.\nDecided by: {place}.\nThere stands: {found}.\nWhat to do: {remedy}.\n");
    let ran = room.bench("salvage card.job");
    assert_eq!((ran.status, ran.out.as_str(), ran.said.as_str()), (1, "", said.as_str()));
    assert_eq!(fs::read_dir(&room.0).unwrap().count(), 1);
}

#[test]
fn header_or_records_that_are_not_whole() {
    let room = Room::new("salvage-refused");
    let whole = "the file as a whole";
    let header = "read the card again: without block 0, which has the header, nothing of it can be salvaged";
    let records = "read the card again: without blocks 0 to 2, which have the 256 operations, nothing of it can be salvaged";
    let ordered = |remedy: &str| format!("put the blocks into the order of their numbers, or {remedy}");
    let block = |n: usize| format!("block {n} of 35, counted from 0: bytes {} to {} of the file", n * BLOCK, n * BLOCK + 511);
    refused(&room, b"", 14, [whole, "nothing: the file is empty", header]);
    refused(&room, &HOUR[..511], 14, [whole, "0 blocks and 511 bytes, where the file ends", header]);
    refused(&room, &HOUR[..BLOCK], 14, [whole, "1 block, where the file ends", records]);
    refused(&room, &HOUR[..3 * BLOCK - 1], 14, [whole, "2 blocks and 511 bytes, where the file ends", records]);
    let damaged = changed(0, 507, 1, false);
    refused(&room, &damaged, 14, [&block(0), &place::sums_told(&damaged.as_chunks().0[0]), header]);
    refused(&room, &changed(0, 1, 7, true), 14, [&block(0), "the number 7, where 0 belongs", &ordered(header)]);
    refused(
        &room,
        &changed(2, 1, 7, true),
        14,
        ["block 2 of 35, counted from 0: bytes 1,024 to 1,535 of the file", "the number 7, where 2 belongs", &ordered(records)],
    );
    let text = [
        "the file as a whole",
        "6 bytes of plain text, which no job file is",
        "if it is a job written as text, make its job file with `bench make`",
    ];
    refused(&room, b"queue\n", 14, text);
}

#[test]
fn what_is_wrong_in_what_is_kept() {
    let room = Room::new("salvage-wrong");
    let at = |what: &str, byte: usize| format!("{what} byte {byte} of the file (block 0, byte {byte})");
    let kinds = "the kind is 1 for a queue, 2 for a stack, 3 for a linked stack";
    refused(&room, &changed(0, 2, 9, true)[..700], 5, [&at("the header's kind, at", 2), "9", kinds]);
    let processes = "the job's processes are 0 to 7";
    refused(&room, &changed(0, 8, 8, true)[..5_000], 10, [&at("operation 1, its process, at", 8), "process 8", processes]);
    let entry = changed(4, 100, 200, true);
    let place = "the schedule's entry for step 1,093, at byte 2,148 of the file (block 4, byte 100)";
    let remedy = format!("{processes}: the logger scheduled one that the job has not");
    refused(&room, &entry[..5_000], 11, [place, "200, a drop by process 72", &remedy]);
    // a wrong entry that is lost is not looked at
    room.write("card.job", &entry[..4 * BLOCK]);
    room.bench("salvage card.job").is(0, "", "kept 994 of 16384 entries\n");
}

/// Where a refusal stands in the order of the numbers: header, its fields, records, their fields, entries.
fn stage(file: &[u8], number: u32, place: Place) -> (u32, usize) {
    match first_wrong(file).0 {
        0 if number == 14 => (0, 0),
        right if number == 14 => (9, right),
        _ => (number, place.in_stream().unwrap()),
    }
}

#[test]
fn mending_what_is_told_leads_to_what_can_be_salvaged() {
    let mut random = Random::new(14);
    let mut met = [0; 15];
    for seed in 0..1_500u64 {
        let (draft, _) = if seed.is_multiple_of(50) { full_size(seed) } else { generated(seed) };
        for (faults, mut file) in damaged(&draft, &mut random) {
            let mut last = None;
            let salvaged = loop {
                let refusal = match pigwazet::salvage(&file) {
                    Ok(salvaged) => break salvaged,
                    Err(refusal) => refusal,
                };
                let place = place::decided(&file, refusal).place;
                let stage = stage(&file, refusal.number(), place);
                assert!(last.is_none_or(|last| last < stage), "seed {seed}, {faults:?}: told {place:?}, after {last:?}");
                met[refusal.number() as usize] += 1;
                last = Some(stage);
                file = mended(&file, place, refusal.number(), &draft);
            };
            // the words count the blocks that are kept as the library does
            let asked = (HEADER + RECORD * draft.records.len() + usize::from(salvaged.named)).div_ceil(PAYLOAD);
            assert_eq!(salvaged.file.len() / BLOCK, first_wrong(&file).0.min(asked), "seed {seed}, {faults:?}");
            assert!(pigwazet::read(&salvaged.file).is_ok());
        }
    }
    for number in [5, 6, 7, 8, 10, 11, 14] {
        assert!(met[number] > 20, "{number}: {met:?}");
    }
}

#[test]
fn what_came_out_is_a_job_file_like_any_other() {
    let room = Room::new("salvage-like-any");
    room.write("card.job", changed(20, 300, 255, false));
    room.bench("salvage card.job -o rest.job").is(0, "", "kept 9090 of 16384 entries\n");
    room.bench("why rest.job").is(0, "rest.job: accepted, nothing is wrong with it\n", "");
    room.write("rest.txt", room.bench("text rest.job").out);
    room.bench("make rest.txt -o again.job").is(0, "", "again.job: queue, 8 processes, 256 operations, 9,090 steps");
    assert!(room.read("again.job") == room.read("rest.job"));
    let report = room.bench("replay rest.job").out;
    assert_eq!(report, pigwazet::replay(&room.read("rest.job")).unwrap().as_str());
    room.bench("reading rest.job 1").tells(0, "Reading 1");
    room.bench("reading rest.job --doubles").tells(0, "Reading");
    room.bench("steps rest.job --from 9085").tells(0, "\n 9086        4        117  Q2   reads node 107's next: none\n");
    room.bench("picture rest.job").is(0, "", "rest.html: open it in a browser\n");
    room.write("windows", "start 2026-03-01 06:00:00\nothers always\n");
    room.bench("windows windows -o rest.win").is(0, "", "all processes have a window");
    room.bench("replay rest.job --windows rest.win").is(0, &report, "");
    // what ended in the kept steps reads as in the whole hour
    let whole = fs::read_to_string(shared::top().join("examples/flood-hour.txt")).unwrap();
    let ended = report.lines().filter(|line| line.starts_with("op ") && !line.contains(" last - "));
    let lines: Vec<&str> = whole.lines().collect();
    assert!(ended.clone().count() > 50 && ended.clone().all(|line| lines.contains(&line)));
}

#[test]
fn why_tells_what_remains() {
    let room = Room::new("salvage-why");
    let why = |file: &[u8]| {
        room.write("card.job", file);
        let ran = room.bench("why card.job");
        assert_eq!((ran.status, ran.said.as_str()), (1, ""));
        let (_, remains) = ran.out.split_once("What to do: ").unwrap();
        remains.split_once(".\n").unwrap().1.to_string()
    };
    let keeps = |entries: &str| format!("What remains: `bench salvage card.job` keeps {entries} entries.\n");
    let nothing = |refusal: &str| format!("What remains: nothing that can be salvaged (refused {refusal}).\n");
    let not_whole = nothing("14: the header or the records are not whole");
    // 2, 9, 3, 4 and 12
    assert_eq!(why(&HOUR[..5_000]), keeps("3,524 of 16,384"));
    assert_eq!(why(&[HOUR, HOUR].concat()), keeps("16,384 of 16,384"));
    assert_eq!(why(&HOUR[..9 * BLOCK]), keeps("3,524 of 16,384"));
    assert_eq!(why(&changed(9, 100, 99, false)), keeps("3,524 of 16,384"));
    assert_eq!(why(&changed(9, 0, 4, true)), keeps("3,524 of 16,384"));
    assert_eq!(why(&changed(34, 507, 1, true)), keeps("16,384 of 16,384"));
    assert_eq!(why(b""), not_whole);
    assert_eq!(why(&HOUR[..2 * BLOCK]), not_whole);
    assert_eq!(why(&changed(1, 100, 99, false)), not_whole);
    let mut kind = changed(0, 2, 9, true);
    kind[BLOCK] = 1;
    assert_eq!(why(&kind), nothing("5: the kind is neither 1, a queue, nor 2, a stack, nor 3, a linked stack"));
    // what a salvage refuses alike, and what is no job file
    assert_eq!(why(&changed(0, 2, 9, true)), "");
    assert_eq!(why(&changed(4, 100, 200, true)), "");
    assert_eq!(why(b"queue\n"), "");
    room.bench_with("why -", &HOUR[..5_000]).tells(1, "What remains: `bench salvage -` keeps 3,524 of 16,384 entries.\n");
}
