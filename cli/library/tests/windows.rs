//! Window blocks through the library: every field at its limits and past them, and what is shut, by hand.

use pigwazet::limits::{BLOCK, DAY, MINUTE, MINUTES, YEARS};
use pigwazet::{Action, Hours, Job, Kind, Operation, Start, Window, Windows};

/// A Thursday, ten seconds before midnight; nobody may work.
const NIGHT: Windows = Windows { start: Start { year: 2024, month: 2, day: 29, second: DAY - 10 }, entries: [Window::SHUT; 8] };

/// With one window, of process 3.
fn with(days: u8, opening: u16, closing: u16) -> Windows {
    let mut windows = NIGHT;
    windows.entries[3] = Window { days, opening, closing };
    windows
}

/// On another date.
fn on(year: u16, month: u8, day: u8) -> Windows {
    Windows { start: Start { year, month, day, second: 0 }, ..NIGHT }
}

fn refused(windows: &Windows) -> Option<u32> {
    pigwazet::write_windows(windows).err().map(|refusal| refusal.number())
}

#[test]
fn a_block_at_every_limit_is_read_back() {
    let dates = [on(*YEARS.start(), 1, 1), on(*YEARS.end(), 12, 31), on(2000, 2, 29), on(2096, 2, 29), on(2023, 4, 30)];
    let windows = [with(0x7f, 0, MINUTES), with(0, MINUTES, 0), with(1, 5, 5), with(64, MINUTES, MINUTES), NIGHT];
    for windows in dates.into_iter().chain(windows) {
        let block = pigwazet::write_windows(&windows).unwrap();
        assert_eq!(block.len(), BLOCK);
        assert_eq!(pigwazet::read_windows(&block), Ok(Some(windows)));
    }
}

#[test]
fn a_field_past_its_limit_is_refused() {
    let dates =
        [(1999, 12, 31), (2100, 1, 1), (2023, 0, 1), (2023, 13, 1), (2023, 1, 0), (2023, 2, 29), (2024, 2, 30), (2023, 4, 31)];
    for (year, month, day) in dates {
        assert_eq!(refused(&on(year, month, day)), Some(13), "{year} {month} {day}");
    }
    let late = Windows { start: Start { second: DAY, ..NIGHT.start }, ..NIGHT };
    for windows in [late, with(0x80, 0, 1), with(0xff, 0, MINUTES), with(1, MINUTES + 1, 0), with(1, 0, MINUTES + 1)] {
        assert_eq!(refused(&windows), Some(13), "{windows:?}");
    }
}

/// A take by each of eight processes, a step of each, and a step of process 3 again.
fn file() -> Vec<u8> {
    let operations = (0..8).map(|process| Operation { process, action: Action::Take }).collect();
    let schedule = (0..8).chain([3]).collect();
    pigwazet::write(&Job { kind: Kind::Stack, processes: 8, operations, schedule }).unwrap()
}

#[test]
fn no_block_shuts_nothing_and_zeros_shut_everything() {
    let file = file();
    assert_eq!(pigwazet::read_windows(&[]), Ok(None));
    assert_eq!(pigwazet::replay_within(&file, &[]), pigwazet::replay(&file));
    let report = pigwazet::replay_within(&file, &pigwazet::write_windows(&NIGHT).unwrap()).unwrap();
    assert!(report.run().operations.iter().all(|take| take.first.is_none()));
    let open = pigwazet::write_windows(&with(0x7f, 0, MINUTES)).unwrap();
    let report = pigwazet::replay_within(&file, &open).unwrap();
    assert_eq!(report.run().operations[3].first, Some(4));
    assert_eq!(report.run().operations.iter().filter(|take| take.first.is_some()).count(), 1);
}

#[test]
fn a_job_is_refused_before_its_windows_and_these_by_their_own_number() {
    let good = pigwazet::write_windows(&NIGHT).unwrap();
    let file = file();
    for length in [1, BLOCK - 1, BLOCK + 1] {
        let block = [good, good].concat();
        let refusal = pigwazet::replay_within(&file, &block[..length]).unwrap_err();
        assert!(refusal.is_of_windows() && refusal.number() == 13);
        assert!(refusal.to_string().starts_with("refused 13: the window block is neither empty nor 512 bytes long, or has "));
    }
    for at in [0, 1, 2, 9, 10, 49, 50, 507, 508, 511] {
        let mut block = good;
        block[at] ^= 1;
        assert_eq!(pigwazet::replay_within(&file, &block).unwrap_err().number(), 13, "byte {at}");
        let refusal = pigwazet::replay_within(&file[1..], &block).unwrap_err();
        assert!(refusal.number() == 2 && !refusal.is_of_windows());
    }
}

#[test]
fn what_is_shut_around_midnight() {
    // step 1 is 23:59:50 on a Thursday, step 11 is Friday's 0:00:00, step 71 is 0:01:00
    let (thursday, friday, wednesday) = (8, 16, 4);
    for (windows, shut) in [
        (with(thursday, 1_439, MINUTES), vec![11..=200]),
        (with(thursday, 1_439, 0), vec![11..=200]),
        (with(thursday, 1_439, 1), vec![71..=200]),
        (with(thursday, MINUTES, 1), vec![1..=10, 71..=200]),
        (with(thursday, 0, MINUTES), vec![11..=200]),
        (with(friday, 0, 1), vec![1..=10, 71..=200]),
        (with(friday, 1, 2), vec![1..=70, 131..=200]),
        (with(thursday | friday, 0, MINUTES), vec![]),
        (with(wednesday, 1, 0), vec![1..=200]),
        (with(wednesday, MINUTES, 1_439), vec![1..=200]),
        (with(0x7f, 1_439, 1_439), vec![1..=200]),
        (with(0x7f, MINUTES, 0), vec![1..=200]),
        (with(0, 0, MINUTES), vec![1..=200]),
    ] {
        let hours = Hours::of(&pigwazet::write_windows(&windows).unwrap(), 200).unwrap();
        assert_eq!(hours.shut(3), shut, "{:?}", windows.entries[3]);
        assert_eq!((hours.shut(2), hours.is_open(2, 1)), (&[1..=200][..], false));
        assert!((1..=200).all(|step| hours.is_open(3, step) != shut.iter().any(|span| span.contains(&step))));
    }
}

#[test]
fn hours_without_windows_or_without_steps() {
    assert_eq!(Hours::of(&[], 16_384), Ok(Hours::default()));
    assert!(Hours::default().is_open(7, 16_384) && Hours::default().shut(0).is_empty());
    let block = pigwazet::write_windows(&NIGHT).unwrap();
    assert_eq!(Hours::of(&block, 0), Ok(Hours::default()));
    assert_eq!(Hours::of(&block, 16_384).unwrap().shut(7), [1..=16_384]);
    assert_eq!(Hours::of(&block[1..], 1).unwrap_err().number(), 13);
}

#[test]
fn weekdays_of_some_dates() {
    for (year, month, day, weekday) in [(2000, 1, 1, 5), (2000, 2, 29, 1), (2024, 2, 29, 3), (2023, 12, 31, 6), (2099, 12, 31, 3)]
    {
        assert_eq!(on(year, month, day).start.weekday(), Ok(weekday), "{year} {month} {day}");
    }
    assert_eq!(on(2023, 2, 29).start.weekday().unwrap_err().number(), 13);
}

#[test]
fn windows_that_never_open() {
    let is_shut = |days, opening, closing| Window { days, opening, closing }.is_shut();
    assert!(Window::SHUT.is_shut() && is_shut(0, 1, 2) && is_shut(1, 2, 2) && is_shut(0x7f, MINUTES, 0));
    assert!(!Window::ALWAYS.is_shut() && !is_shut(1, 2, 1) && !is_shut(1, MINUTES, 1) && !is_shut(1, 1_439, 0));
    // a daily window that opens is open in its opening second
    let edges = [0, 1, 720, MINUTES - 1, MINUTES];
    for (opening, closing) in edges.into_iter().flat_map(|opening| edges.map(|closing| (opening, closing))) {
        let Windows { start, entries } = with(0x7f, opening, closing);
        let second = u32::from(opening % MINUTES) * MINUTE;
        let block = pigwazet::write_windows(&Windows { start: Start { second, ..start }, entries }).unwrap();
        let is_open = Hours::of(&block, 1).unwrap().is_open(3, 1);
        assert_eq!(is_shut(0x7f, opening, closing), !is_open, "{opening} to {closing}");
    }
}
