//! Replays within windows: `replay`, `why`, `reading`, `steps` and `picture` with a window block, on the sample and on generated jobs; what comes of
//! them is the second replayer's.

mod shared;

use bench_command::turns::Turns;
use bench_command::{input, reading, steps};
use pigwazet::Turn;
use pigwazet::report::Ending;
use second::calls::{self, REPORT};
use second::file::WORK;
use second::generate::windows as generate;
use second::random::Random;
use second::windows::Windows;
use shared::{Room, generated, with_drops};
use std::fs;

const PLAIN: &str = include_str!("../../../examples/satellite.txt");
const WITHIN: &str = include_str!("../../../examples/satellite.win.txt");

/// A room with the sample: its job, its window block, and one that is cut.
fn room(name: &str) -> Room {
    let room = Room::new(name);
    for name in ["satellite.job", "satellite.win", "listing.job"] {
        room.sample(name);
    }
    room.write("cut.win", &room.read("satellite.win")[1..]);
    room.write("empty.win", "");
    room
}

/// A job of a seed, with drops or without, and windows for it.
fn booked(seed: u64) -> (Vec<u8>, Windows) {
    let (draft, file) = if seed.is_multiple_of(2) { generated(seed) } else { with_drops(seed) };
    (file, generate::windows(draft.schedule.len(), &mut Random::new(seed)))
}

#[test]
fn replay_within_windows() {
    let room = room("within");
    room.bench("replay satellite.job").is(0, PLAIN, "");
    room.bench("replay satellite.job --windows satellite.win").is(0, WITHIN, "");
    room.bench("replay --windows satellite.win satellite.job").is(0, WITHIN, "");
    room.bench("replay satellite.job --windows empty.win").is(0, PLAIN, "");
    room.bench_with("replay satellite.job --windows -", &room.read("satellite.win")).is(0, WITHIN, "");
    room.bench_with("replay - --windows satellite.win", &room.read("satellite.job")).is(0, WITHIN, "");
    room.bench("replay satellite.job --windows cut.win").is(
        1,
        "refused 13\n",
        "cut.win: refused 13: the window block is neither",
    );
    // the job's own number first
    room.write("cut.job", &room.read("satellite.job")[1..]);
    room.bench("replay cut.job --windows cut.win").is(1, "refused 2\n", "cut.job: refused 2: ");
    for name in ["satellite", "listing"] {
        let plain = fs::read_to_string(shared::top().join("examples").join(name).with_extension("txt")).unwrap();
        room.bench(&format!("replay {name}.job --windows /dev/null")).is(0, &plain, "");
    }
}

#[test]
fn a_block_that_cannot_be_read_is_told_by_every_command() {
    let room = room("unread-windows");
    for words in ["replay", "why", "reading --doubles", "steps", "picture"] {
        room.bench(&format!("{words} satellite.job --windows none")).fails("none could not be read: No such file");
        room.bench(&format!("{words} satellite.job --windows .")).fails(". could not be read: Is a directory");
        room.bench_with(&format!("{words} - --windows -"), b"").fails("Standard input can be read only once.");
    }
    room.bench_with("replay --files-from - --windows -", b"").fails("Standard input can be read only once.");
}

#[test]
fn a_block_that_cannot_be_read_fails_every_file() {
    let room = room("unread-many");
    room.write("list", "satellite.job\nlisting.job\n");
    let lines = "failed\tsatellite.job\nfailed\tlisting.job\n";
    let said = "none.win could not be read: No such file or directory (os error 2)\n2 files: 0 replayed, 0 refused, 2 not read or not written\n";
    for files in ["satellite.job listing.job", "--files-from list"] {
        let ran = room.bench(&format!("replay {files} --windows none.win --out reports"));
        ran.is(2, lines, said);
        assert_eq!(ran.said, said);
    }
    room.bench("replay satellite.job --windows none.win --out reports").is(2, "failed\tsatellite.job\n", "1 file: 0 replayed");
    assert!(!room.has("reports/satellite.txt"));
    // reports that would be printed are not
    room.bench("replay satellite.job listing.job --windows none.win").fails("none.win could not be read: ");
}

#[test]
fn a_refused_block_is_told_by_every_command() {
    let room = room("refused-windows");
    for words in ["replay", "reading --doubles", "steps", "picture"] {
        let out = |number: u32| if words == "replay" { format!("refused {number}\n") } else { String::new() };
        let ran = room.bench(&format!("{words} satellite.job --windows cut.win"));
        ran.is(1, &out(13), "cut.win: refused 13: the window block is neither empty nor 512 bytes long");
        assert!(ran.said.ends_with(" `bench why --windows` says more.\n"), "{}", ran.said);
        let ran = room.bench(&format!("{words} cut.win --windows cut.win"));
        ran.is(1, &out(2), "cut.win: refused 2: ");
        assert!(ran.said.ends_with(" `bench why` says more.\n"), "{}", ran.said);
    }
    assert!(!room.has("satellite.html"));
}

#[test]
fn many_files_within_one_block() {
    let room = room("many-within");
    room.write("cut.job", &room.read("satellite.job")[1..]);
    let lines = "replayed\tsatellite.job\nrefused 2\tcut.job\n";
    room.bench("replay satellite.job cut.job --windows satellite.win --out reports").is(
        1,
        lines,
        "2 files: 1 replayed, 1 refused",
    );
    assert_eq!(
        (room.text("reports/satellite.txt"), room.text("reports/cut.txt")),
        (WITHIN.to_string(), "refused 2\n".to_string())
    );
    let lines = "refused 13\tsatellite.job\nrefused 2\tcut.job\n";
    let said = "2 files: 0 replayed, 2 refused (1 with number 2 and 1 with number 13)\n";
    room.bench("replay satellite.job cut.job --windows cut.win --out reports").is(1, lines, said);
    assert_eq!(room.text("reports/satellite.txt"), "refused 13\n");
    room.write("cards/a.job", room.read("satellite.job"));
    room.bench("replay cards --windows satellite.win").is(0, &format!("==> cards/a.job <==\n{WITHIN}"), "1 file: 1 replayed");
}

#[test]
fn a_refused_block_is_told_once_for_many_files() {
    let room = room("many-refused");
    room.write("cards/a.job", room.read("satellite.job"));
    room.write("cut.job", &room.read("satellite.job")[1..]);
    let block = "cut.win: refused 13: the window block is neither empty";
    for files in ["satellite.job listing.job", "cards", "satellite.job listing.job --out reports", "cards --out reports"] {
        let said = room.bench(&format!("replay {files} --windows cut.win")).said;
        assert_eq!((said.matches(block).count(), said.matches("`bench why --windows` says more.\n").count()), (1, 1), "{said}");
    }
    // of a block that no job was held to, nothing is said
    let said = room.bench("replay cut.job cut.job --windows cut.win").said;
    assert_eq!(said, "2 files: 0 replayed, 2 refused (2 with number 2)\n");
}

#[test]
fn reports_within_windows_are_those_of_the_second_replayer() {
    let mut differ = 0;
    for seed in 0..2_000 {
        let (file, windows) = booked(seed);
        let (mut work, mut report) = (vec![0; WORK], vec![0; REPORT]);
        let length = calls::replay(&file, &windows.block(), &mut work, &mut report) as usize;
        let proved = pigwazet::replay_within(&file, &windows.block()).unwrap();
        assert!(proved.as_str().as_bytes() == &report[..length], "seed {seed}");
        differ += usize::from(pigwazet::replay(&file).unwrap() != proved);
    }
    assert!(differ > 500, "{differ}");
}

#[test]
fn what_the_library_has_shut_is_what_the_second_replayer_has() {
    let (mut shut, mut open) = (0, 0);
    for seed in 0..300 {
        let (file, windows) = booked(seed);
        let turns = Turns::of(&file, &windows.block()).unwrap();
        for step in 1..=turns.job.schedule.len() as u16 {
            for process in 0..8 {
                let is_open = windows.is_open(process, step);
                assert_eq!(turns.hours.is_open(process, step), is_open, "seed {seed}, process {process}, step {step}");
                *if is_open { &mut open } else { &mut shut } += 1;
            }
        }
    }
    assert!(shut > 10_000 && open > 10_000, "{shut} {open}");
}

#[test]
fn steps_of_the_sample_in_words() {
    let room = room("steps-within");
    let ran = room.bench("steps satellite.job --windows satellite.win --from 5 --to 13");
    let steps = " step  process  operation  row  what
    5        1          2  T1   reads Head: node 0
    6        2          -  /    shut: Thu 23:59:55 is outside Fri 00:00 to 00:30
    7        1          2  T2   reads Tail: node 1
    8        2          -  /    shut: Thu 23:59:57 is outside Fri 00:00 to 00:30
    9        1          2  T3   reads node 0's next: node 1
   10        2          -  /    shut: Thu 23:59:59 is outside Fri 00:00 to 00:30
   11        1          -  /    shut: Fri 00:00:00 is outside Thu 23:30 to 24:00
   12        2          3  T1   reads Head: node 0
   13        1          -  /    shut: Fri 00:00:02 is outside Thu 23:30 to 24:00, so nothing is dropped
";
    ran.is(0, steps, "");
    let only = room.bench("steps satellite.job --windows satellite.win --op 2").out;
    assert_eq!(only.lines().count(), 4);
    for (name, lines) in [("none", ""), ("edge", "others daily 24:00 to 00:00\n")] {
        room.write(&format!("{name}.windows"), format!("start 2024-02-29 23:59:50\n{lines}"));
        room.bench(&format!("windows {name}.windows")).is(0, "", "no process has a window");
        let out = room.bench(&format!("steps satellite.job --windows {name}.win")).out;
        assert_eq!(out.matches("  /    shut: its process has no window").count(), 16, "{out}");
    }
}

#[test]
fn steps_of_an_operation_that_was_shut_out() {
    let room = room("steps-shut-out");
    room.write("none.windows", "start 2024-02-29 23:59:50\n");
    room.bench("windows none.windows").is(0, "", "none.win: ");
    let op = |words: &str| room.bench(&format!("steps satellite.job {words}"));
    let half = op("--op 2 --windows satellite.win");
    assert_eq!(half.said, "Operation 2 did not end; it was shut out of 2 turns from step 11 to step 13.\n");
    let never = op("--op 2 --windows none.win");
    assert_eq!(
        never.said,
        "Operation 2 made no step there.\nOperation 2 did not end; it was shut out of 5 turns from step 5 to step 13.\n"
    );
    for (ran, lines) in [(half, 4), (never, 1)] {
        assert_eq!((ran.status, ran.out.lines().count()), (0, lines), "{}", ran.out);
    }
    // one that ended, one without windows, and all steps
    for words in ["--op 3 --windows satellite.win", "--op 2", "--windows satellite.win"] {
        assert_eq!(op(words).said, "", "{words}");
    }
}

#[test]
fn every_step_within_windows_has_a_line() {
    let (mut shut, mut shut_drops, mut dropped) = (0, 0, 0);
    for seed in 0..800 {
        let (file, windows) = booked(seed);
        let block = windows.block();
        let (turns, proved) = input::replayed(&file, &block).unwrap();
        let log = steps::agreed(steps::second(&file, &block), &turns, proved.as_str()).unwrap();
        let all = turns.job.schedule.len();
        let text = steps::told(&turns, &log, None, &(1..=all as u16));
        assert_eq!((text.lines().count(), text.matches("  /    shut: ").count()), (all + 1, log.shut.len()), "seed {seed}");
        let drops = turns.shut().filter(|(_, turn)| matches!(turn, Turn::Drops(_))).count();
        assert_eq!(text.matches(", so nothing is dropped\n").count(), drops);
        // the job and its windows tell of the report's drops what the second replayer saw
        let run = proved.run();
        let mut told: Vec<(u16, u16)> =
            run.operations.iter().filter_map(|own| Some((turns.dropped_at(own)?, own.number))).collect();
        told.sort();
        let seen: Vec<(u16, u16)> = log.drops.iter().map(|drop| (drop.step, drop.operation)).collect();
        assert_eq!((&told, run.operations.iter().filter(|own| own.ending == Ending::Dropped).count()), (&seen, seen.len()));
        (shut, shut_drops, dropped) = (shut + log.shut.len(), shut_drops + drops, dropped + seen.len());
    }
    assert!(shut > 10_000 && shut_drops > 500 && dropped > 200, "{shut} {shut_drops} {dropped}");
}

#[test]
fn why_operations_did_not_end() {
    let room = room("why-within");
    let accepted = "satellite.job: accepted, nothing is wrong with it\n";
    let both = format!("{accepted}satellite.win: accepted, nothing is wrong with it\n");
    let shut = "Process 1 (Thu 23:30 to 24:00) was shut out of 2 turns from step 11 to step 13, of 5 in all. Operation 2 is open.\n\
                Process 2 (Fri 00:00 to 00:30) was shut out of 3 turns from step 6 to step 10, of 7 in all.\n";
    room.bench("why satellite.job --windows satellite.win").is(0, &format!("{both}{shut}"), "");
    room.bench("why satellite.job").is(0, accepted, "");
    room.bench("why --windows satellite.win").is(0, "satellite.win: accepted, nothing is wrong with it\n", "");
    let empty = "empty.win: empty, which is no window block: nothing is shut\n";
    room.bench("why satellite.job --windows empty.win").is(0, &format!("{accepted}{empty}"), "");
    room.bench("why satellite.win").tells(
        1,
        "Decided by: the file as a whole.\nThere stands: a window block, which no job file is.\nWhat to do: name it behind --windows, beside a job file.\n",
    );
    room.write("some.windows", "start 2024-02-29 23:59:56\nothers always\nprocess 0 Fri 00:00 to 24:00\n");
    room.bench("windows some.windows").is(0, "", "some.win: ");
    room.bench("why satellite.job --windows some.win").tells(
        0,
        "Process 0 (Fri 00:00 to 24:00) was shut out of 4 turns from step 1 to step 4, of 4 in all. Operation 1 is not begun.\n",
    );
    room.write("all.windows", "start 2024-02-29 23:59:50\nothers always\n");
    room.bench("windows all.windows").is(0, "", "all.win: ");
    room.bench("why satellite.job --windows all.win").tells(0, "\nNo turn fell outside a window.\n");
}

#[test]
fn fates_within_windows() {
    let room = room("fates-within");
    let fate = "Reading 1: 120 cm, put by operation 1 of process 0 (steps 1 to 4).
The record has it coming into the queue at step 3.
The record has it going out at step 16, to operation 3 of process 2 (steps 12 to 16).
It was taken once: no double.
";
    room.bench("reading satellite.job 1 --windows satellite.win").is(0, fate, "");
    room.bench("reading satellite.job --doubles --windows satellite.win").is(
        0,
        "Of 1 reading none was taken more than once.\n",
        "",
    );
    // the hub is shut behind its second step, at midnight, or from the first on
    for (second, told) in [
        (
            "58",
            "put by operation 1 of process 0 (open since step 1; shut out of 2 turns from step 3 to step 4).\nIt is not in the record",
        ),
        ("57", "put by operation 1 of process 0 (open since step 1; shut out of 1 turn, step 4).\nThe record has it coming"),
    ] {
        room.write("hub.windows", format!("start 2024-02-29 23:59:{second}\nothers always\nprocess 0 Thu 00:00 to 24:00\n"));
        room.bench("windows hub.windows -o hub.win").is(0, "", "hub.win: ");
        room.bench("reading satellite.job 1 --windows hub.win").tells(0, told);
    }
    room.write("hub.windows", "start 2024-02-29 23:59:50\nothers always\nprocess 0 shut\n");
    room.bench("windows hub.windows -o hub.win").is(0, "", "hub.win: ");
    let told = "to be put by operation 1 of process 0 (not begun; shut out of 4 turns from step 1 to step 4).\n";
    room.bench("reading satellite.job 1 --windows hub.win").tells(0, told);
}

#[test]
fn numbers_are_grouped_in_all_sentences() {
    let room = room("grouped");
    // step 1,001 is the last of Thursday
    room.write("long.txt", "queue\nprocesses 2\nput 0 500\norder 1 x 1000 0 x 2001\n");
    room.write("long.windows", "start 2024-02-29 23:43:19\nothers always\nprocess 0 Thu 00:00 to 24:00\n");
    room.bench("make long.txt").is(0, "", "queue, 2 processes, 1 operation, 3,001 steps\n");
    room.bench("windows long.windows").is(0, "", "long.win: ");
    let told = "(open since step 1,001; shut out of 2,000 turns from step 1,002 to step 3,001).\n";
    room.bench("reading long.job 1 --windows long.win").tells(0, told);
    room.bench("why long.job --windows long.win").tells(0, "2,000 turns from step 1,002 to step 3,001, of 2,001 in all.");
    room.bench("reading long.job 1")
        .tells(0, "(steps 1,001 to 1,004).\nThe record has it coming into the queue at step 1,003.\n");
}

#[test]
fn turns_before_and_behind_an_open_time_are_told_apart() {
    let room = room("two-spans");
    // open from step 121 to step 180; the put's first turns are shut, one is open, the others are shut again
    room.write("hour.windows", "start 2024-02-29 12:00:00\nothers always\nprocess 0 Thu 12:02 to 12:03\n");
    room.bench("windows hour.windows").is(0, "", "hour.win: ");
    for (order, shut) in [
        ("0 x 3 1 x 126 0 1 x 1000 0 x 2", "5 turns in steps 1 to 3 and steps 1,131 to 1,132"),
        ("1 x 9 0 1 x 119 0 1 x 1000 0 x 2", "3 turns in step 10 and steps 1,131 to 1,132"),
        ("1 x 129 0 1 x 1000 0 x 2", "2 turns from step 1,131 to step 1,132"),
    ] {
        room.write("hour.txt", format!("queue\nprocesses 2\nput 0 500\norder {order}\n"));
        room.bench("make hour.txt -o hour.job").is(0, "", "hour.job: ");
        let why = format!("\nProcess 0 (Thu 12:02 to 12:03) was shut out of {shut}, of ");
        room.bench("why hour.job --windows hour.win").tells(0, &why);
        // of an operation those behind its first step are told
        let told = "(open since step 130; shut out of 2 turns from step 1,131 to step 1,132)";
        room.bench("reading hour.job 1 --windows hour.win").tells(0, told);
    }
}

#[test]
fn who_ended_was_not_shut_out() {
    for seed in 0..400 {
        let (file, windows) = booked(seed);
        let (turns, proved) = input::replayed(&file, &windows.block()).unwrap();
        let run = proved.run();
        for operation in &run.operations {
            let told = turns.shut_out(operation).is_some();
            let unended = matches!(operation.ending, Ending::Open | Ending::Waiting);
            let behind = operation.first.unwrap_or_default();
            let later = turns.shut().any(|(step, turn)| turn.process() == operation.process && step > behind);
            assert_eq!(told, unended && later, "seed {seed}, {}", operation.line);
        }
        for (item, _) in reading::readings(&run) {
            let fate = reading::fate(&turns, &run, item).unwrap().join("\n");
            assert!(!fate.contains("steps 0") && fate.starts_with(&format!("Reading {item}: ")), "{fate}");
        }
    }
}

#[test]
fn a_picture_has_the_windows_and_what_they_shut() {
    let room = room("picture-within");
    room.bench("picture satellite.job --windows satellite.win").is(0, "", "satellite.html: open it in a browser\n");
    let lanes = r#""windows":{"start":"Thursday 2024-02-29 23:59:50","lanes":[{"window":"always","shut":[]},{"window":"Thu 23:30 to 24:00","shut":[[11,16]]},{"window":"Fri 00:00 to 00:30","shut":[[1,10]]}]}}"#;
    let page = room.text("satellite.html");
    assert!(page.contains(lanes) && page.contains(r#""steps":16,"#), "{page}");
    room.bench("picture satellite.job -o plain.html").is(0, "", "plain.html");
    room.bench("picture satellite.job --windows empty.win -o empty.html").is(0, "", "empty.html");
    assert!(!room.text("plain.html").contains(r#""windows":{"#) && room.text("plain.html") == room.text("empty.html"));
}
