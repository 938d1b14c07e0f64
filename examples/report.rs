//! Replays the job file on standard input through the library and prints the report, or the refusal. An argument names the file of a window
//! block. Exit status: 0 a report; 1 a refusal; 2 something could not be read or written.

use std::io::{self, Read, Write};
use std::process::ExitCode;
use std::{env, fs};

// a slice is passed as a pointer and its length; include/bench.h says what else a caller must know
unsafe extern "C" {
    fn bench_replay(
        file: *const u8,
        file_length: usize,
        windows: *const u8,
        windows_length: usize,
        work: *mut u8,
        work_length: usize,
        report: *mut u8,
        report_length: usize,
    ) -> u64;
}

const WORK: usize = 17_710;
const REPORT: usize = 32_768;

/// The report of a job file within the windows of a block, or of none, which is empty; or the number of its refusal.
fn replay(file: &[u8], windows: &[u8]) -> Result<Vec<u8>, u32> {
    let mut work = vec![0; WORK];
    let mut report = vec![0; REPORT];
    // SAFETY: each pointer and length is one slice's, and the two that are written belong to this call alone.
    let answer = unsafe {
        bench_replay(
            file.as_ptr(),
            file.len(),
            windows.as_ptr(),
            windows.len(),
            work.as_mut_ptr(),
            work.len(),
            report.as_mut_ptr(),
            report.len(),
        )
    };
    let (number, length) = ((answer >> 32) as u32, answer as u32 as usize);
    report.truncate(length);
    if number == 0 { Ok(report) } else { Err(number) }
}

/// The report, or the refusal, printed.
fn printed() -> io::Result<ExitCode> {
    let mut file = vec![];
    io::stdin().read_to_end(&mut file)?;
    let windows = env::args_os().nth(1).map_or(Ok(vec![]), fs::read)?;
    match replay(&file, &windows) {
        Ok(report) => io::stdout().write_all(&report).map(|()| ExitCode::SUCCESS),
        Err(number) => writeln!(io::stdout(), "refused {number}").map(|()| ExitCode::FAILURE),
    }
}

fn main() -> ExitCode {
    printed().unwrap_or_else(|why| {
        eprintln!("{why}");
        ExitCode::from(2)
    })
}
