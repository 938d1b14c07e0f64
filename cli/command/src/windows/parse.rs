//! A text of windows read: docs/TEXT.md.

use super::words::{ALWAYS, DAILY, DAYS, NEVER, SHUT, short};
use crate::lines::{self, Fault, Words, Wrong, quoted};
use pigwazet::limits::{DAY, MINUTE, MINUTES, PROCESSES};
use pigwazet::{Start, Window, Windows};

const DATE: &str = "a date that there is, 2000-01-01 to 2099-12-31";
const TIME: &str = "a time of day, 00:00:00 to 23:59:59";
const WHEN: &str = "days, as Mon, Mon-Fri or Sat,Sun, or daily, never, always or shut";

/// The windows of a text, or all its wrong lines.
pub fn windows(text: &str) -> Result<Windows, Vec<Fault>> {
    lines::read::<Draft>(text)
}

#[derive(Default)]
struct Draft {
    start: Option<Start>,
    windows: [Option<Window>; PROCESSES],
    others: Option<Window>,
}

impl lines::Draft for Draft {
    type Whole = Windows;

    fn take(&mut self, word: &str, words: &mut Words) -> Result<(), Wrong> {
        match word {
            "start" => once(&mut self.start, start(words)?, "a second start".to_string()),
            "process" => {
                let process = words.number("a process", 0..=PROCESSES as i64 - 1)? as usize;
                once(&mut self.windows[process], window(words)?, format!("a second line of process {process}"))
            }
            "others" => once(&mut self.others, window(words)?, "a second line of others".to_string()),
            _ => Err(Wrong::new(quoted(word), "a line that begins with start, process or others")),
        }
    }

    /// Who has no line is shut, unless there is one for others.
    fn whole(self) -> Result<Windows, Wrong> {
        let start = self.start.ok_or_else(|| Wrong::missing("start", "'start', a date and a time: start 2026-03-01 06:00:00"))?;
        let others = self.others.unwrap_or(Window::SHUT);
        Ok(Windows { start, entries: self.windows.map(|window| window.unwrap_or(others)) })
    }
}

fn once<T>(place: &mut Option<T>, value: T, again: String) -> Result<(), Wrong> {
    match place.replace(value) {
        None => Ok(()),
        Some(_) => Err(Wrong::new(again, "one")),
    }
}

fn start(words: &mut Words) -> Result<Start, Wrong> {
    let start = words.read(DATE, date)?;
    let second = words.read(TIME, |word| {
        let [hours, minutes, seconds] =
            numbers(word, ':', [2, 2, 2]).or_else(|| numbers(&format!("{word}:00"), ':', [2, 2, 2]))?;
        let second = (hours * 60 + minutes) * MINUTE + seconds;
        (minutes < 60 && seconds < MINUTE && second < DAY).then_some(second)
    })?;
    Ok(Start { second, ..start })
}

/// The midnight of a date; whether there is such a one, the library says.
fn date(word: &str) -> Option<Start> {
    let [year, month, day] = numbers(word, '-', [4, 2, 2])?;
    let start = Start { year: year as u16, month: month as u8, day: day as u8, second: 0 };
    pigwazet::write_windows(&Windows { start, entries: [Window::SHUT; PROCESSES] }).is_ok().then_some(start)
}

/// Numbers of so many digits each, with a mark between them.
fn numbers<const N: usize>(word: &str, mark: char, digits: [usize; N]) -> Option<[u32; N]> {
    let parts: Vec<&str> = word.split(mark).collect();
    let plain = |part: &str| part.bytes().all(|byte| byte.is_ascii_digit());
    let right = parts.len() == N && parts.iter().zip(digits).all(|(part, digits)| part.len() == digits && plain(part));
    right.then(|| std::array::from_fn(|i| parts[i].parse().unwrap_or_default()))
}

/// Days and two times, or a word for the whole window.
fn window(words: &mut Words) -> Result<Window, Wrong> {
    if words.next_is(ALWAYS) {
        return Ok(Window::ALWAYS);
    }
    if words.next_is(SHUT) {
        return Ok(Window::SHUT);
    }
    let days = days(words)?;
    let opening = minute(words, "the opening, 00:00 to 24:00")?;
    words.read("'to' and the closing", |word| (word == "to").then_some(()))?;
    Ok(Window { days, opening, closing: minute(words, "the closing, 00:00 to 24:00")? })
}

fn minute(words: &mut Words, allowed: &str) -> Result<u16, Wrong> {
    words.read(allowed, |word| {
        let [hours, minutes] = numbers(word, ':', [2, 2])?;
        let minute = (hours * 60 + minutes) as u16;
        (minutes < 60 && minute <= MINUTES).then_some(minute)
    })
}

/// Days as bits: a word for all or none, which stands alone, or words up to the opening, which begins with a digit.
fn days(words: &mut Words) -> Result<u8, Wrong> {
    if words.next_is(DAILY) {
        return Ok(Window::ALWAYS.days);
    }
    if words.next_is(NEVER) {
        return Ok(0);
    }
    let mut days = words.read(WHEN, ranges)?;
    while let Some(word) = words.next_if(|word| !word.starts_with(|char: char| char.is_ascii_digit())) {
        days |= ranges(word).ok_or_else(|| Wrong::new(quoted(word), "more days, or the opening, 00:00 to 24:00"))?;
    }
    Ok(days)
}

/// The days of a word. A comma may stand at its end, where a space follows.
fn ranges(word: &str) -> Option<u8> {
    word.strip_suffix(',').unwrap_or(word).split(',').map(range).try_fold(0, |days, range| Some(days | range?))
}

/// One day, or those from one to another, over a Sunday too.
fn range(words: &str) -> Option<u8> {
    let Some((from, to)) = words.split_once('-') else { return day(words).map(|day| 1 << day) };
    let (from, to) = (day(from)?, day(to)?);
    let later = (to + DAYS.len() - from) % DAYS.len();
    // a day to itself might be one, or a week
    (later > 0).then(|| (from..=from + later).fold(0, |days, day| days | 1 << (day % DAYS.len())))
}

fn day(word: &str) -> Option<usize> {
    (0..DAYS.len()).find(|&day| word.eq_ignore_ascii_case(short(day)))
}
