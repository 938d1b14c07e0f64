//! Texts of windows: what is printed makes the very block, for every block; what is wrong in a text is told.

mod shared;

use bench_command::lines::Wrong;
use bench_command::windows::{parse, print};
use pigwazet::{Start, Window, Windows};
use shared::{Room, block};

#[test]
fn a_block_has_the_fields_that_the_second_replayer_reads() {
    for seed in 0..2_000 {
        let block = block(seed);
        let ours = pigwazet::read_windows(&block).unwrap().unwrap();
        let theirs = second::windows::Windows::read(&block).unwrap().unwrap();
        let Start { year, month, day, second } = ours.start;
        let date = second::calendar::Date { year, month, day };
        assert_eq!((date, second), (theirs.date, theirs.second));
        let entries = theirs.entries.map(|entry| Window { days: entry.weekdays, opening: entry.opening, closing: entry.closing });
        assert_eq!(ours.entries, entries);
        assert_eq!(ours.start.weekday().map(u32::from), Ok(date.weekday()));
        assert!(pigwazet::write_windows(&ours) == Ok(block));
    }
}

#[test]
fn what_is_printed_makes_the_very_block_and_is_printed_again() {
    for seed in 0..20_000 {
        let block = block(seed);
        let text = print::windows(&pigwazet::read_windows(&block).unwrap().unwrap());
        let windows = parse::windows(&text).unwrap();
        assert!(pigwazet::write_windows(&windows) == Ok(block), "seed {seed}:\n{text}");
        assert_eq!(print::windows(&windows), text);
    }
}

#[test]
fn a_line_whose_window_never_opens_says_so() {
    let shut = ["0 never 06:00 to 07:00", "2 Mon 06:00 to 06:00", "5 daily 24:00 to 00:00", "6 never 00:00 to 24:00"];
    let text = |mark: &str| {
        let lines = shut.map(|line| format!("process {line}{mark}\n")).concat();
        format!("start 2000-01-01 00:00:00  # a Saturday\n\n{lines}process 7 Mon 24:00 to 00:01\n# shut: processes 1, 3 and 4\n")
    };
    let windows = parse::windows(&text("")).unwrap();
    assert_eq!(print::windows(&windows), text("  # shut"));
    assert_eq!(parse::windows(&text("  # shut")), Ok(windows));
}

const START: Start = Start { year: 2024, month: 2, day: 29, second: 86_390 };

/// The entries of a text, behind a start.
fn entries(lines: &str) -> [Window; 8] {
    let Windows { start, entries } = parse::windows(&format!("start 2024-02-29 23:59:50\n{lines}\n")).unwrap();
    assert_eq!(start, START);
    entries
}

#[test]
fn days_and_times_in_many_forms() {
    let of = |days, opening, closing| Window { days, opening, closing };
    for (words, window) in [
        ("Mon-Fri 06:00 to 09:30", of(0b001_1111, 360, 570)),
        ("mon-FRI 06:00 to 09:30", of(0b001_1111, 360, 570)),
        ("Sat,Sun 23:59 to 24:00", of(0b110_0000, 1_439, 1_440)),
        ("Sat, Sun 00:00 to 00:01", of(0b110_0000, 0, 1)),
        ("Mon Wed Fri-Sun 00:00 to 00:00", of(0b111_0101, 0, 0)),
        ("Fri-Mon 22:00 to 02:00", of(0b111_0001, 1_320, 120)),
        ("Mon,Mon,Mon-Tue 24:00 to 24:00", of(0b000_0011, 1_440, 1_440)),
        ("daily 00:00 to 24:00", Window::ALWAYS),
        ("always", Window::ALWAYS),
        ("never 00:01 to 00:00", of(0, 1, 0)),
        ("shut", Window::SHUT),
    ] {
        assert_eq!(entries(&format!("process 2 {words}"))[2], window, "{words}");
        assert_eq!(entries(&format!("others {words}")), [window; 8], "{words}");
    }
    for start in
        ["start 2024-02-29 00:00", "start 2024-02-29 00:00:00 # a Thursday", "\u{feff}\r\n\tstart  2024-02-29\t00:00:00\r\n"]
    {
        assert_eq!(parse::windows(start).unwrap().start, Start { second: 0, ..START });
    }
}

#[test]
fn who_has_no_line_is_shut_or_as_others_are() {
    let one = Window { days: 1, opening: 0, closing: 1 };
    let mut expected = [Window::SHUT; 8];
    expected[2] = one;
    assert_eq!(entries("process 2 Mon 00:00 to 00:01"), expected);
    let mut expected = [Window::ALWAYS; 8];
    (expected[2], expected[7]) = (one, Window::SHUT);
    assert_eq!(entries("process 7 shut\nothers always\nprocess 2 Mon 00:00 to 00:01"), expected);
}

/// What is told of the second line of a text.
#[track_caller]
fn told(line: &str, found: &str, allowed: &str) {
    let faults = parse::windows(&format!("start 2024-02-29 23:59:50\n{line}\nothers always\n")).unwrap_err();
    let Wrong { found: told, allowed: instead } = &faults[0].wrong;
    assert_eq!((faults.len(), faults[0].line, told.as_str(), instead.as_str()), (1, 2, found, allowed), "{line}");
}

const END: &str = "the end of the line";

#[test]
fn what_was_found_and_what_is_allowed() {
    let days = "days, as Mon, Mon-Fri or Sat,Sun, or daily, never, always or shut";
    let (opening, closing) = ("the opening, 00:00 to 24:00", "the closing, 00:00 to 24:00");
    let more = "more days, or the opening, 00:00 to 24:00";
    let comment = "the end of the line, or # and a comment";
    for (line, found, allowed) in [
        ("window 2 Mon", "'window'", "a line that begins with start, process or others"),
        ("Process 2 always", "'Process'", "a line that begins with start, process or others"),
        ("process 8 always", "'8'", "a process, 0 to 7"),
        ("process -0 always", "'-0'", "a process, 0 to 7"),
        ("process 2", END, days),
        ("process 2 06:00 to 07:00", "'06:00'", days),
        ("process 2 Monday 06:00 to 07:00", "'Monday'", days),
        ("process 2 Mon-Mon 06:00 to 07:00", "'Mon-Mon'", days),
        ("process 2 Mon-Wed-Fri 06:00 to 07:00", "'Mon-Wed-Fri'", days),
        ("process 2 Mon\u{2013}Fri 06:00 to 07:00", "'Mon\u{2013}Fri', whose dash is not the - of a keyboard", days),
        ("process 2 Mon,,Tue 06:00 to 07:00", "'Mon,,Tue'", days),
        ("process 2 Mon from 06:00 to 07:00", "'from'", more),
        ("process 2 Mon", END, opening),
        ("process 2 Mon 6:00 to 07:00", "'6:00'", opening),
        ("process 2 Mon 24:01 to 07:00", "'24:01'", opening),
        ("process 2 Mon 06:60 to 07:00", "'06:60'", opening),
        ("process 2 Mon 06:00:00 to 07:00", "'06:00:00'", opening),
        ("process 2 Mon 06:00", END, "'to' and the closing"),
        ("process 2 Mon 06:00-07:00", "'06:00-07:00'", opening),
        ("process 2 Mon 06:00 07:00", "'07:00'", "'to' and the closing"),
        ("process 2 Mon 06:00 to", END, closing),
        ("process 2 Mon 06:00 to 25:00", "'25:00'", closing),
        ("process 2 Mon 06:00 to 07:00 08:00 to 09:00", "'08:00'", comment),
        ("process 2 always Mon", "'Mon'", comment),
        ("process 2 shut Mon", "'Mon'", comment),
        ("process 2 never Mon 06:00 to 07:00", "'Mon'", opening),
        ("process 2 daily Mon 06:00 to 07:00", "'Mon'", opening),
        ("process 2 never daily 06:00 to 07:00", "'daily'", opening),
        ("process 2 Mon never 06:00 to 07:00", "'never'", more),
        ("process 2 Mon daily 06:00 to 07:00", "'daily'", more),
        ("process 2 Mon always", "'always'", more),
        ("process 2 Mon,daily 06:00 to 07:00", "'Mon,daily'", days),
        ("process 2 never, 06:00 to 07:00", "'never,'", days),
        ("start 2024-02-29 00:00", "a second start", "one"),
    ] {
        told(line, found, allowed);
    }
    let twice = "start 2024-02-29 23:59:50\nothers shut\nprocess 1 shut\nothers always\nprocess 1 always\n";
    let again: Vec<String> =
        parse::windows(twice).unwrap_err().iter().map(|fault| format!("{} {}", fault.line, fault.wrong)).collect();
    assert_eq!(again, ["4 found a second line of others; allowed: one", "5 found a second line of process 1; allowed: one"]);
}

#[test]
fn what_is_wrong_in_a_start() {
    let (date, time) = ("a date that there is, 2000-01-01 to 2099-12-31", "a time of day, 00:00:00 to 23:59:59");
    for (words, found, allowed) in [
        ("", END, date),
        ("2023-02-29 00:00", "'2023-02-29'", date),
        ("2100-01-01 00:00", "'2100-01-01'", date),
        ("1999-12-31 00:00", "'1999-12-31'", date),
        ("2024-13-01 00:00", "'2024-13-01'", date),
        ("24-01-01 00:00", "'24-01-01'", date),
        ("2024-1-1 00:00", "'2024-1-1'", date),
        ("2024-02-29T23:59:00", "'2024-02-29T23:59:00'", date),
        ("29.02.2024 23:59", "'29.02.2024'", date),
        ("2024-02-29", END, time),
        ("2024-02-29 24:00:00", "'24:00:00'", time),
        ("2024-02-29 23:60", "'23:60'", time),
        ("2024-02-29 23:59:60", "'23:59:60'", time),
        ("2024-02-29 23", "'23'", time),
        ("2024-02-29 23:59:50 UTC", "'UTC'", "the end of the line, or # and a comment"),
    ] {
        let faults = parse::windows(&format!("start {words}\nothers always\n")).unwrap_err();
        let Wrong { found: told, allowed: instead } = &faults[0].wrong;
        assert_eq!((faults.len(), faults[0].line, told.as_str(), instead.as_str()), (1, 1, found, allowed), "{words}");
    }
    let missing = &parse::windows("others always\n").unwrap_err()[0].wrong;
    assert_eq!(missing.found, "the end of the text, and no start");
    assert_eq!(missing.allowed, "'start', a date and a time: start 2026-03-01 06:00:00");
}

#[test]
fn windows_are_made_beside_their_text_and_printed() {
    let room = Room::new("windows");
    for name in ["satellite.windows", "satellite.win"] {
        room.sample(name);
    }
    let made = "from Thursday 2024-02-29 23:59:50 on; processes 0, 1 and 2 have a window, 3, 4, 5, 6 and 7 are shut\n";
    room.bench("windows satellite.windows").is(0, "", &format!("satellite.win: {made}"));
    room.bench("windows satellite.windows -o other").is(0, "", &format!("other: {made}"));
    assert_eq!(room.read("other"), room.read("satellite.win"));
    let text = "start 2024-02-29 23:59:50  # a Thursday\n\nprocess 0 always\nprocess 1 Thu 23:30 to 24:00\nprocess 2 Fri 00:00 to 00:30\n# shut: processes 3, 4, 5, 6 and 7\n";
    room.bench("windows --text satellite.win").is(0, text, "");
    room.bench_with("windows --text -", &room.read("other")).is(0, text, "");
    room.write("again.windows", text);
    room.bench("windows again.windows").is(0, "", &format!("again.win: {made}"));
    assert_eq!(room.read("again.win"), room.read("satellite.win"));
    // another block that was not named stays
    room.write("again.windows", "start 2024-02-29 23:59:51\n");
    room.bench("windows again.windows")
        .fails("again.win is there already, is something else and stays as it is: name the file with --out to replace it.");
    assert_eq!(room.read("again.win"), room.read("satellite.win"));
    // standard output has the block alone
    let block = String::from_utf8_lossy(&room.read("satellite.win")).into_owned();
    for words in ["windows -", "windows - -o -", "windows satellite.windows -o -"] {
        room.bench_with(words, text.as_bytes()).is(0, &block, &format!("standard output: {made}"));
    }
    room.bench("windows satellite.win")
        .fails("satellite.win is no text. If it is a window block, it is made already: `bench windows --text` prints it.");
    room.bench("windows none").fails("none could not be read: ");
    room.write("sat.txt", text);
    room.bench("windows sat.txt").is(0, "", &format!("sat.txt.win: {made}"));
}

#[test]
fn who_has_a_window_is_said() {
    let room = Room::new("windows-said");
    for (lines, said) in [
        ("others always", "all processes have a window"),
        ("", "no process has a window, so all are shut"),
        ("process 2 never 06:00 to 07:00", "no process has a window, so all are shut"),
        ("process 2 Mon 06:00 to 06:00", "no process has a window, so all are shut"),
        ("process 2 daily 24:00 to 00:00", "no process has a window, so all are shut"),
        ("process 2 Mon 06:00 to 07:00", "process 2 has a window, 0, 1, 3, 4, 5, 6 and 7 are shut"),
        ("others always\nprocess 2 shut", "processes 0, 1, 3, 4, 5, 6 and 7 have a window, 2 is shut"),
    ] {
        room.write("some.windows", format!("start 2000-01-01 00:00:00\n{lines}\n"));
        room.bench("windows some.windows -o some.win").is(
            0,
            "",
            &format!("some.win: from Saturday 2000-01-01 00:00:00 on; {said}\n"),
        );
    }
}

#[test]
fn every_wrong_line_is_told_and_no_block_is_made() {
    let room = Room::new("wrong-windows");
    room.write("hour.windows", "start 2023-02-29 06:00:00\n\n# uplinks\nprocess 2 Mon-Fri 6:00 to 09:30\n");
    let said = "hour.windows:1: found '2023-02-29'; allowed: a date that there is, 2000-01-01 to 2099-12-31\n    start 2023-02-29 06:00:00\n\
                hour.windows:4: found '6:00'; allowed: the opening, 00:00 to 24:00\n    process 2 Mon-Fri 6:00 to 09:30\n";
    let ran = room.bench("windows hour.windows");
    ran.fails(said);
    assert_eq!(ran.said, said);
    assert!(!room.has("hour.win"));
}

#[test]
fn a_block_that_is_none_is_not_printed() {
    let room = Room::new("no-windows");
    room.sample("satellite.win");
    room.write("empty.win", "");
    room.bench("windows --text empty.win").fails("empty.win is empty: that is no window block, and shuts nothing.");
    room.write("cut.win", &room.read("satellite.win")[1..]);
    room.bench("windows --text cut.win").is(
        1,
        "",
        "cut.win: refused 13: the window block is neither empty nor 512 bytes long, or ",
    );
    room.bench("windows --text none.win").fails("none.win could not be read: ");
}
