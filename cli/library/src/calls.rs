//! The four calls as the proved library exports them, each over slices of our own.

use crate::limits::{FILE, WORK};
use crate::refusal::Refusal;

// a slice is passed as a pointer and its length; include/bench.h says what else a caller must know
unsafe extern "C" {
    fn bench_replay(
        file: *const u8,
        file_length: usize,
        windows: *const u8,
        windows_length: usize,
        work: *mut u8,
        work_length: usize,
        report: *mut u8,
        report_length: usize,
    ) -> u64;
    fn bench_read(file: *const u8, file_length: usize, work: *mut u8, work_length: usize) -> u64;
    fn bench_write(stream: *const u8, stream_length: usize, out: *mut u8, out_length: usize) -> u64;
    fn bench_salvage(
        file: *const u8,
        file_length: usize,
        work: *mut u8,
        work_length: usize,
        out: *mut u8,
        out_length: usize,
    ) -> u64;
}

/// A call answers number × 2^32 + length.
fn answer(answer: u64) -> Result<usize, Refusal> {
    match (answer >> 32) as u32 {
        0 => Ok(answer as u32 as usize),
        number => Err(Refusal::of(number)),
    }
}

/// The length of the report, which then stands in `report`. `windows` is a block, or empty.
pub fn replay(file: &[u8], windows: &[u8], work: &mut [u8], report: &mut [u8]) -> Result<usize, Refusal> {
    // SAFETY: each pointer and length is one slice's, and the two that are written are lent to this call alone.
    answer(unsafe {
        bench_replay(
            file.as_ptr(),
            file.len(),
            windows.as_ptr(),
            windows.len(),
            work.as_mut_ptr(),
            work.len(),
            report.as_mut_ptr(),
            report.len(),
        )
    })
}

/// The stream in a file.
pub fn read(file: &[u8]) -> Result<Vec<u8>, Refusal> {
    let mut work = vec![0; WORK];
    // SAFETY: as above.
    let length = answer(unsafe { bench_read(file.as_ptr(), file.len(), work.as_mut_ptr(), work.len()) })?;
    work.truncate(length);
    Ok(work)
}

/// The file of a stream.
pub fn write(stream: &[u8]) -> Result<Vec<u8>, Refusal> {
    let mut out = vec![0; FILE];
    // SAFETY: as above.
    let length = answer(unsafe { bench_write(stream.as_ptr(), stream.len(), out.as_mut_ptr(), out.len()) })?;
    out.truncate(length);
    Ok(out)
}

/// The proper file of what remains of a spoiled one.
pub fn salvage(file: &[u8]) -> Result<Vec<u8>, Refusal> {
    let (mut work, mut out) = (vec![0; WORK], vec![0; FILE]);
    // SAFETY: as above.
    let answered =
        unsafe { bench_salvage(file.as_ptr(), file.len(), work.as_mut_ptr(), work.len(), out.as_mut_ptr(), out.len()) };
    out.truncate(answer(answered)?);
    Ok(out)
}
