//! The tables of proved traces, read from the definitions' own files: each `job = stream KIND P (OPERATIONS) (SCHEDULE);` with the
//! `expected = "REPORT";` behind it, and between the two, in the table of windows, `windows = windows YEAR MONTH DAY SECOND (ENTRIES);`,
//! in that of jobs cut short, `kept = ENTRIES;`, and there at the end `remains = "REPORT";`.

use crate::calendar::Date;
use crate::generate::windows::SHUT;
use crate::generate::{Draft, put, take};
use crate::job::{PROCESSES, Record};
use crate::windows::{Window, Windows};
use std::fs;

/// The files, from the repository's root.
const TRACES: &str = "crates/wording/specs/Traces.antt";
const WINDOW_TRACES: &str = "crates/wording/specs/WindowTraces.antt";
const CUT_TRACES: &str = "crates/wording/specs/CutTraces.antt";

/// A job, its windows, and the report that is proved to be its own.
pub struct Proved {
    pub draft: Draft,
    /// A block, or nothing.
    pub windows: Vec<u8>,
    pub expected: String,
}

/// A job, how many of its entries are kept, its report, and that of what is kept.
pub struct ProvedCut {
    pub draft: Draft,
    pub kept: usize,
    pub expected: String,
    pub remains: String,
}

/// All traces of the table, in its order.
pub fn traces() -> Result<Vec<Proved>, String> {
    table(TRACES, trace)
}

/// All traces of the table of windows, in its order.
pub fn window_traces() -> Result<Vec<Proved>, String> {
    table(WINDOW_TRACES, trace)
}

/// All traces of the table of jobs cut short, in its order.
pub fn cut_traces() -> Result<Vec<ProvedCut>, String> {
    table(CUT_TRACES, cut_trace)
}

fn table<T>(path: &str, row: fn(&str) -> Option<T>) -> Result<Vec<T>, String> {
    let text = fs::read_to_string(path).map_err(|error| format!("{path}: {error}"))?;
    let read =
        |from: &str| row(from).ok_or_else(|| format!("{path}: cannot be read: job ={}", from.lines().next().unwrap_or("")));
    text.split("job =").skip(1).map(read).collect()
}

/// A trace from the text behind its `job =`.
fn trace(from: &str) -> Option<Proved> {
    let (job, behind) = from.split_once(';')?;
    let (windows, behind) = match behind.trim_start().strip_prefix("windows =") {
        Some(from) => from.split_once(';').and_then(|(text, behind)| Some((windows(text)?.block().to_vec(), behind)))?,
        None => (vec![], behind),
    };
    let (expected, _) = report(behind, "expected")?;
    Some(Proved { draft: draft(job)?, windows, expected })
}

/// A trace of a job cut short, from the text behind its `job =`.
fn cut_trace(from: &str) -> Option<ProvedCut> {
    let (job, behind) = from.split_once(';')?;
    let (kept, behind) = behind.trim_start().strip_prefix("kept = ")?.split_once(';')?;
    let (expected, behind) = report(behind, "expected")?;
    let (remains, _) = report(behind, "remains")?;
    Some(ProvedCut { draft: draft(job)?, kept: kept.parse().ok()?, expected, remains })
}

/// The report under a name, and the text behind it.
fn report<'a>(from: &'a str, name: &str) -> Option<(String, &'a str)> {
    let quoted = from.trim_start().strip_prefix(name)?.strip_prefix(" = \"")?;
    let (report, behind) = quoted.split_once("\";")?;
    Some((report.replace("\\n", "\n"), behind))
}

/// Both lists end in `[]`, so the brackets around them say nothing more.
fn draft(job: &str) -> Option<Draft> {
    let plain = job.replace(['(', ')'], "");
    let [front, schedule, ""] = plain.split("[]").map(str::trim).collect::<Vec<_>>()[..] else { return None };
    let ["stream", kind, processes, operations] = front.splitn(4, ' ').collect::<Vec<_>>()[..] else { return None };
    Some(Draft {
        kind: kind.parse().ok()?,
        processes: processes.parse().ok()?,
        records: list(operations).map(record).collect::<Option<_>>()?,
        schedule: list(schedule).map(|entry| entry.parse().ok()).collect::<Option<_>>()?,
    })
}

/// Processes behind those in the list are shut throughout.
fn windows(text: &str) -> Option<Windows> {
    let plain = text.replace(['(', ')'], "");
    let [front, ""] = plain.split("[]").map(str::trim).collect::<Vec<_>>()[..] else { return None };
    let words: Vec<&str> = front.splitn(6, ' ').collect();
    let ["windows", year, month, day, second, ..] = words[..] else { return None };
    let date = Date { year: year.parse().ok()?, month: month.parse().ok()?, day: day.parse().ok()? };
    let mut entries = list(words.get(5).unwrap_or(&"")).map(window).collect::<Option<Vec<_>>>()?;
    entries.resize(PROCESSES.max(entries.len()), SHUT);
    Some(Windows { date, second: second.parse().ok()?, entries: entries.try_into().ok()? })
}

/// `window WEEKDAYS OPENING CLOSING`.
fn window(text: &str) -> Option<Window> {
    let ["window", weekdays, opening, closing] = text.split(' ').collect::<Vec<_>>()[..] else { return None };
    Some(Window { weekdays: weekdays.parse().ok()?, opening: opening.parse().ok()?, closing: closing.parse().ok()? })
}

/// The members of a list, each with its `∷` behind it.
fn list(text: &str) -> impl Iterator<Item = &str> {
    text.split_terminator('∷').map(str::trim)
}

/// `put P FIELD`, `put P below MM` or `take P`.
fn record(text: &str) -> Option<Record> {
    match text.split(' ').collect::<Vec<_>>()[..] {
        ["put", process, field] => Some(put(process.parse().ok()?, field.parse::<u16>().ok()? as i16)),
        ["put", process, "below", depth] => Some(put(process.parse().ok()?, i16::try_from(-depth.parse::<i32>().ok()?).ok()?)),
        ["take", process] => Some(take(process.parse().ok()?)),
        _ => None,
    }
}
