//! The library under test, as its static archive exports it. A slice passes as a pointer and then a length.

use crate::calls::Calls;

unsafe extern "C" {
    fn bench_replay(
        file: *const u8,
        file_length: usize,
        windows: *const u8,
        windows_length: usize,
        work: *mut u8,
        work_length: usize,
        report: *mut u8,
        report_length: usize,
    ) -> u64;
    fn bench_read(file: *const u8, file_length: usize, work: *mut u8, work_length: usize) -> u64;
    fn bench_write(stream: *const u8, stream_length: usize, out: *mut u8, out_length: usize) -> u64;
    fn bench_salvage(
        file: *const u8,
        file_length: usize,
        work: *mut u8,
        work_length: usize,
        out: *mut u8,
        out_length: usize,
    ) -> u64;
}

pub const LIBRARY: Calls = Calls { replay, read, write, salvage };

pub fn replay(file: &[u8], windows: &[u8], work: &mut [u8], report: &mut [u8]) -> u64 {
    let (file, file_length) = (file.as_ptr(), file.len());
    let (windows, windows_length) = (windows.as_ptr(), windows.len());
    let (work, work_length) = (work.as_mut_ptr(), work.len());
    let (report, report_length) = (report.as_mut_ptr(), report.len());
    // SAFETY: each pointer and length is one slice's; the contracts ask nothing else of a caller.
    unsafe { bench_replay(file, file_length, windows, windows_length, work, work_length, report, report_length) }
}

pub fn read(file: &[u8], work: &mut [u8]) -> u64 {
    // SAFETY: as above.
    unsafe { bench_read(file.as_ptr(), file.len(), work.as_mut_ptr(), work.len()) }
}

pub fn write(stream: &[u8], out: &mut [u8]) -> u64 {
    // SAFETY: as above.
    unsafe { bench_write(stream.as_ptr(), stream.len(), out.as_mut_ptr(), out.len()) }
}

pub fn salvage(file: &[u8], work: &mut [u8], out: &mut [u8]) -> u64 {
    // SAFETY: as above.
    unsafe { bench_salvage(file.as_ptr(), file.len(), work.as_mut_ptr(), work.len(), out.as_mut_ptr(), out.len()) }
}
