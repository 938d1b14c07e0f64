//! The four calls of the second replayer, with the signatures of the library's.

use crate::file::{self, FILE_LIMIT, WORK};
use crate::job::{HEADER, Header, Job, Refusal};
use crate::windows::Windows;
use crate::{report, salvage};

/// The report memory that a replay needs.
pub const REPORT: usize = 32_768;

/// A job's file, the window block or nothing, work and report memory.
type Replay = fn(&[u8], &[u8], &mut [u8], &mut [u8]) -> u64;

/// A job's file, or what a spoiled card has of one, work memory, and the output that the file goes to.
type Salvage = fn(&[u8], &mut [u8], &mut [u8]) -> u64;

/// The four calls of one side; each answers number × 2^32 + length.
#[derive(Clone, Copy)]
pub struct Calls {
    pub replay: Replay,
    pub read: fn(&[u8], &mut [u8]) -> u64,
    pub write: fn(&[u8], &mut [u8]) -> u64,
    pub salvage: Salvage,
}

pub const SECOND: Calls = Calls { replay, read, write, salvage };

fn answer(result: Result<usize, Refusal>) -> u64 {
    match result {
        Ok(length) => length as u64,
        Err(number) => u64::from(number) << 32,
    }
}

pub fn replay(file: &[u8], windows: &[u8], work: &mut [u8], report: &mut [u8]) -> u64 {
    if report.len() < REPORT || work.len() < WORK {
        return answer(Err(1));
    }
    let work = &mut work[..WORK];
    let result = try_replay(file, windows, work, report);
    work.fill(0);
    answer(result)
}

/// Conditions 2 to 12 of the file, then 13 of the windows.
fn try_replay(file: &[u8], windows: &[u8], work: &mut [u8], report: &mut [u8]) -> Result<usize, Refusal> {
    let (job, _) = file::open(file, work)?;
    let windows = Windows::read(windows)?;
    Ok(report::replay(&job, windows.as_ref(), report))
}

pub fn read(file: &[u8], work: &mut [u8]) -> u64 {
    if work.len() < WORK {
        return answer(Err(1));
    }
    let work = &mut work[..WORK];
    let result = file::open(file, work).map(|(_, length)| length);
    work[result.unwrap_or(0)..].fill(0);
    answer(result)
}

pub fn write(stream: &[u8], out: &mut [u8]) -> u64 {
    answer(try_write(stream, out))
}

fn try_write(stream: &[u8], out: &mut [u8]) -> Result<usize, Refusal> {
    if out.len() < FILE_LIMIT {
        return Err(1);
    }
    if stream.len() < HEADER {
        return Err(2);
    }
    let header = Header::of(stream)?;
    if stream.len() != header.length() {
        return Err(9);
    }
    Job::of(header, stream)?;
    Ok(file::seal(stream, out))
}

pub fn salvage(file: &[u8], work: &mut [u8], out: &mut [u8]) -> u64 {
    if work.len() < WORK || out.len() < FILE_LIMIT {
        return answer(Err(1));
    }
    let work = &mut work[..WORK];
    let result = salvage::remains(file, work).map(|stream| file::seal(stream, out));
    work.fill(0);
    answer(result)
}
