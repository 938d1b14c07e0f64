//! Window blocks that are none: what is told is what decided. Mended there, the block is refused no more.

mod shared;

use bench_command::why::block as why;
use pigwazet::limits::{BLOCK, SUMMED};
use second::damage::windows::{self as damage, Wrong};
use second::file::seal_sums;
use second::windows::Windows;
use shared::{Room, block};

/// Writes the good bytes at the place that is told, and makes the sums anew.
fn mended(bad: &[u8], good: &[u8; BLOCK]) -> Vec<u8> {
    let at = why::wrong(bad).at;
    let Ok(mut block) = <[u8; BLOCK]>::try_from(bad) else { return good.to_vec() };
    assert!(at.end <= BLOCK && !at.is_empty());
    block[at.clone()].copy_from_slice(&good[at.clone()]);
    if at.start != SUMMED {
        seal_sums(&mut block);
    }
    block.to_vec()
}

#[test]
fn mending_what_is_told_mends_the_block() {
    let mut windows = Windows::read(&block(1)).unwrap().unwrap();
    // which every month has
    windows.date.day = 1;
    let good = windows.block();
    let every = damage::every();
    assert!(every.len() > 2_000);
    for &wrong in &every {
        let bad = damage::spoiled(&windows, wrong);
        assert_eq!(pigwazet::read_windows(&bad).unwrap_err().number(), 13, "{wrong:?}");
        let mut block = mended(&bad, &good);
        if let Wrong::Date(..) = wrong {
            // more than one field of it may be wrong, and the others stay
            while pigwazet::read_windows(&block).is_err() {
                assert!(block != good);
                block = mended(&block, &good);
            }
        } else {
            assert!(block == good, "{wrong:?}: told {:?}", why::wrong(&bad).at);
        }
    }
}

/// What is told of a block: the place that decided, what stands there, and how the advice begins.
#[track_caller]
fn why_told(room: &Room, block: Vec<u8>, place: &str, found: &str, remedy: &str) {
    room.write("bad.win", &block);
    let expected = format!(
        "bad.win: refused 13\nThe window block is neither empty nor 512 bytes long, or has a wrong sum, number or field, no such date, or a byte behind its fields that is not zero.\n\
         Decided by: {place}.\nThere stands: {found}.\nWhat to do: {remedy}"
    );
    for words in ["why --windows bad.win", "why listing.job --windows bad.win"] {
        let ran = room.bench(words);
        assert_eq!((ran.status, ran.said.as_str()), (1, ""));
        assert!(ran.out.starts_with(&expected) && ran.out.ends_with(".\n"), "expected:\n{expected}\nprinted:\n{}", ran.out);
    }
}

/// A room with a job, and the sample's windows.
fn room(name: &str) -> (Room, Windows) {
    let room = Room::new(name);
    room.sample("listing.job");
    (room, second::samples::satellite::windows())
}

#[test]
fn why_a_whole_block_is_refused() {
    let (room, good) = room("why-windows");
    let whole = "the block as a whole";
    let text = b"start 2024-02-29 23:59:50\n".to_vec();
    let make = "if it is windows written as text, make their block with `bench windows`.";
    why_told(&room, text.clone(), whole, "26 bytes of plain text, which no window block is", make);
    let as_long_as_a_block = [text, b"#".repeat(BLOCK - 26)].concat();
    why_told(&room, as_long_as_a_block, whole, "512 bytes of plain text, which no window block is", make);
    why_told(
        &room,
        good.block()[1..].to_vec(),
        whole,
        "511 bytes",
        "a window block has 512 bytes: copy it again, or make it anew.",
    );
    why_told(&room, vec![0; 100_000], whole, "65,536 bytes or more", "a window block has 512 bytes");
    let found = "the sums 045d and 76cc; the block's bytes give 045d and 76cd";
    let bad = damage::spoiled(&good, Wrong::Sum(3, 1));
    why_told(&room, bad, "its sums, at bytes 508 to 511 of the block", found, "copy the block again, or make it anew.");
    for name in ["listing.job", "flood-hour.job"] {
        room.sample(name);
        why_told(&room, room.read(name), whole, "a job file, which no window block is", "name the job file first");
    }
}

#[test]
fn why_a_field_is_refused() {
    let (room, good) = room("why-fields");
    let (minutes, no_day) = ("minutes are 0 to 1,440.", "that month of that year has no such day.");
    for (wrong, place, found, remedy) in [
        (Wrong::Number(1), "its number, at bytes 0 to 1", "1", "a window block has the number 0."),
        (Wrong::Date(1999, 12, 31), "the year, at bytes 2 to 3", "1999", "a year is 2000 to 2099."),
        (Wrong::Date(2024, 13, 1), "the month, at byte 4", "13", "a month is 1 to 12."),
        (Wrong::Date(2023, 2, 29), "the day, at byte 5", "29, for the date 2023-02-29", no_day),
        (Wrong::Date(2024, 4, 0), "the day, at byte 5", "0, for the date 2024-04-00", no_day),
        (Wrong::Second(86_400), "the second of the day, at bytes 6 to 9", "86,400", "a day has the seconds 0 to 86,399."),
        (Wrong::Weekdays(2, 128), "process 2, its weekdays, at byte 20", "128, which has bit 7", "bit 0 is Monday"),
        (Wrong::Opening(7, 1_441), "process 7, its opening, at bytes 46 to 47", "1,441", minutes),
        (Wrong::Closing(0, 65_535), "process 0, its closing, at bytes 13 to 14", "65,535", minutes),
        (
            Wrong::Padding(50, 9),
            "the first byte behind the fields that is not zero, at byte 50",
            "9",
            "fill the block with zeros",
        ),
    ] {
        why_told(&room, damage::spoiled(&good, wrong), &format!("{place} of the block"), found, remedy);
    }
}
