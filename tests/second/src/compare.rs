//! Both sides on the same call: the same answer, and every byte of every lent memory, and of the margin behind it, the same.

mod salvage;

use crate::calls::{Calls, REPORT, SECOND};
use crate::check;
use crate::failure::guarded;
use crate::file::{self, FILE_LIMIT, WORK};
use crate::job::Job;
use crate::library::LIBRARY;
use crate::windows::Windows;
use std::fmt;

/// Memory behind the lent part, which nothing may touch.
const MARGIN: usize = 256;
/// The largest memory lent, beyond what any call needs.
const ROOM: usize = REPORT + MARGIN;

/// Number and length, as a call answers them.
#[derive(Clone, Copy, PartialEq, Eq, Debug)]
pub struct Answer {
    pub number: u32,
    pub length: usize,
}

impl fmt::Display for Answer {
    fn fmt(&self, out: &mut fmt::Formatter) -> fmt::Result {
        write!(out, "number {} length {}", self.number, self.length)
    }
}

impl Answer {
    fn of(answer: u64) -> Answer {
        Answer { number: (answer >> 32) as u32, length: answer as u32 as usize }
    }
}

/// How much memory is lent to a replay.
#[derive(Clone, Copy)]
pub struct Lent {
    pub work: usize,
    pub report: usize,
}

pub const ENOUGH: Lent = Lent { work: WORK, report: REPORT };

/// The memories of one side, each with its margin.
struct Side {
    calls: Calls,
    work: Vec<u8>,
    /// The report of a replay or the file of a write or a salvage.
    out: Vec<u8>,
}

impl Side {
    fn new(calls: Calls) -> Side {
        Side { calls, work: vec![0; ROOM + MARGIN], out: vec![0; ROOM + MARGIN] }
    }

    fn fill(&mut self, work: &[u8], out: &[u8]) {
        self.work.copy_from_slice(work);
        self.out.copy_from_slice(out);
    }
}

pub struct Compare {
    second: Side,
    library: Side,
    /// A pattern without zeros, from which both memories are filled before a call, at another place each time.
    pattern: Vec<u8>,
    pub calls: usize,
    /// By call (replay, read, write, salvage): how often each number was met.
    pub met: [[usize; NUMBERS]; CALLS],
}

/// 0, and the refusals of documents 01 and 02.
pub const NUMBERS: usize = 15;
const CALLS: usize = 4;

const SHIFTS: usize = 251;

/// What the memories hold before a call: work, then out.
fn patterns(pattern: &[u8], calls: usize) -> (&[u8], &[u8]) {
    let length = ROOM + MARGIN;
    (&pattern[calls % SHIFTS..][..length], &pattern[calls * 7 % SHIFTS..][..length])
}

fn ensure(holds: bool, otherwise: impl FnOnce() -> String) -> Result<(), String> {
    if holds { Ok(()) } else { Err(otherwise()) }
}

/// The first place where two memories differ.
fn difference(name: &str, second: &[u8], library: &[u8]) -> Result<(), String> {
    if second == library {
        return Ok(());
    }
    let at = second.iter().zip(library).position(|(one, other)| one != other).unwrap_or(0);
    Err(format!("{name} byte {at}: the second replayer has {}, the library {}", second[at], library[at]))
}

impl Compare {
    pub fn new() -> Compare {
        let pattern = (0..ROOM + MARGIN + SHIFTS).map(|i| (i * 167 % 255) as u8 + 1).collect();
        Compare { second: Side::new(SECOND), library: Side::new(LIBRARY), pattern, calls: 0, met: [[0; NUMBERS]; CALLS] }
    }

    /// Fills all memories, makes the call on both sides, compares the answers and every byte.
    fn both(&mut self, call: usize, make: impl Fn(&mut Side) -> u64) -> Result<Answer, String> {
        self.calls += 1;
        let (work, out) = patterns(&self.pattern, self.calls);
        self.second.fill(work, out);
        self.library.fill(work, out);
        let second = Answer::of(guarded(|| Ok(make(&mut self.second)))?);
        let library = Answer::of(make(&mut self.library));
        ensure(second == library, || format!("the second replayer answers {second}, the library {library}"))?;
        difference("work", &self.second.work, &self.library.work)?;
        difference("output", &self.second.out, &self.library.out)?;
        ensure((library.number as usize) < NUMBERS, || format!("number {}", library.number))?;
        self.met[call][library.number as usize] += 1;
        ensure(library.number == 0 || library.length == 0, || format!("a refusal with a length: {library}"))?;
        Ok(library)
    }

    /// "After number 1 nothing is touched"; otherwise work bytes past the first 17,710 never change.
    fn work_is(&self, answer: Answer, stream: &[u8]) -> Result<(), String> {
        let work = &self.library.work;
        let (pattern, _) = patterns(&self.pattern, self.calls);
        if answer.number == 1 {
            return difference("work", pattern, work);
        }
        difference("work past the stream's room", &pattern[WORK..], &work[WORK..])?;
        difference("stream", stream, &work[..stream.len()])?;
        ensure(work[stream.len()..WORK].iter().all(|&byte| byte == 0), || "work is not zero".to_string())
    }

    /// Output bytes past the length are as they were.
    fn out_is_kept(&self, answer: Answer) -> Result<(), String> {
        let (_, pattern) = patterns(&self.pattern, self.calls);
        difference("output past its length", &pattern[answer.length..], &self.library.out[answer.length..])
    }

    /// A replay within windows; empty ones are none.
    pub fn replay(&mut self, file: &[u8], windows: &[u8], lent: Lent) -> Result<Answer, String> {
        let Lent { work, report } = lent;
        let answer = self.both(0, |side| (side.calls.replay)(file, windows, &mut side.work[..work], &mut side.out[..report]))?;
        self.work_is(answer, &[])?;
        self.out_is_kept(answer)?;
        Ok(answer)
    }

    /// A read; where it is accepted, the stream it must give is taken from the file's payloads.
    pub fn read(&mut self, file: &[u8], lent: usize) -> Result<Answer, String> {
        let answer = self.both(1, |side| (side.calls.read)(file, &mut side.work[..lent]))?;
        let payloads: Vec<u8> =
            file.chunks(file::BLOCK).flat_map(|block| block.iter().skip(2).take(file::PAYLOAD).copied()).collect();
        self.work_is(answer, &payloads[..answer.length])?;
        self.out_is_kept(Answer { number: answer.number, length: 0 })?;
        Ok(answer)
    }

    pub fn write(&mut self, stream: &[u8], lent: usize) -> Result<Answer, String> {
        let answer = self.both(2, |side| (side.calls.write)(stream, &mut side.out[..lent]))?;
        self.out_is_kept(answer)?;
        Ok(answer)
    }

    /// The library's output up to the last byte that it changed.
    fn changed_output(&self) -> &[u8] {
        let (_, pattern) = patterns(&self.pattern, self.calls);
        let end = self.library.out.iter().zip(pattern).rposition(|(byte, was)| byte != was).map_or(0, |last| last + 1);
        &self.library.out[..end]
    }

    /// What the library's last call put out.
    pub fn output(&self, answer: Answer) -> &[u8] {
        &self.library.out[..answer.length]
    }

    /// A file that both replay and read must treat alike; gives the replay's answer.
    pub fn file(&mut self, file: &[u8]) -> Result<Answer, String> {
        let replayed = self.replay(file, &[], ENOUGH)?;
        let read = self.read(file, WORK)?;
        ensure(replayed.number == read.number, || format!("replay answers {replayed}, read {read}"))?;
        Ok(replayed)
    }

    /// An accepted job: write, read and replay it, go round, and check demand 3 on both sides' reports.
    pub fn job(&mut self, stream: &[u8]) -> Result<check::Seen, String> {
        let written = self.write(stream, FILE_LIMIT)?;
        ensure(written.number == 0, || format!("the writer refuses the job: {written}"))?;
        let file = self.output(written).to_vec();
        let read = self.read(&file, WORK)?;
        ensure(read == Answer { number: 0, length: stream.len() }, || format!("the written file reads as {read}"))?;
        difference("the stream that comes round", stream, &self.library.work[..stream.len()])?;
        self.run(stream, &file, &[])
    }

    /// The replay of an accepted job within accepted windows, or none. A difference is judged: whose report explains the steps?
    pub fn run(&mut self, stream: &[u8], file: &[u8], windows: &[u8]) -> Result<check::Seen, String> {
        let job = Job::of_stream(stream).map_err(|number| format!("no job: {number}"))?;
        let replayed = self.replay(file, windows, ENOUGH);
        let read = Windows::read(windows).map_err(|number| format!("{}no windows: {number}", said(&replayed)))?;
        let shut = check::windows::shut(&job, windows);
        let (log, report) = check::logged(&job, read.as_ref());
        let facts = check::Facts::of(&job, &shut, &log).map_err(|why| format!("{}{why}", said(&replayed)))?;
        let own = check::explained(&job, &log, &facts, &report);
        if replayed.is_err() {
            let library = check::explained(&job, &log, &facts, self.changed_output());
            let (second, library) = (verdict(&own), verdict(&library));
            return Err(format!("{}the second replayer's report {second}\n  the library's report {library}", said(&replayed)));
        }
        let answer = replayed?;
        ensure(answer.number == 0, || format!("the replay refuses the job: {answer}"))?;
        let seen = own.map_err(|why| format!("both sides agree, but the report does not explain the run: {why}"))?;
        if !windows.is_empty() {
            self.cut_out(stream, &shut, &report)?;
        }
        Ok(seen)
    }

    /// Whether a report within windows is what the job without its shut entries gives, with the step numbers of the whole one.
    fn cut_out(&mut self, stream: &[u8], shut: &[bool], report: &[u8]) -> Result<(), String> {
        let cut = check::cut::stream(stream, shut);
        let answer = self.replay(&file::sealed(&cut), &[], ENOUGH).map_err(|why| format!("without the shut entries: {why}"))?;
        let same = check::cut::numbered_back(self.output(answer), shut) == report;
        ensure(same, || "both sides agree, but the job without its shut entries gives another report".to_string())
    }
}

impl Default for Compare {
    fn default() -> Compare {
        Compare::new()
    }
}

/// The difference that a comparison found, as the head of a message.
fn said(replayed: &Result<Answer, String>) -> String {
    replayed.as_ref().err().map_or(String::new(), |difference| format!("{difference}\n  "))
}

fn verdict<T>(result: &Result<T, String>) -> String {
    match result {
        Ok(_) => "explains the run".to_string(),
        Err(why) => format!("does not explain the run: {why}"),
    }
}
