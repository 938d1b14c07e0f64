//! What remains of a cut file: the leading blocks up to the first that is spoiled, as a job whose schedule is cut to the entries kept.

use crate::file::{PAYLOAD, exact_count, payload};
use crate::job::{HEADER, Header, Job, Refusal};

/// The stream of the job that remains, made in `work`, which has WORK bytes; or condition 14 for the header, 5 to 8, 14 for the records, 10
/// and 11.
pub fn remains<'a>(file: &[u8], work: &'a mut [u8]) -> Result<&'a [u8], Refusal> {
    if join(file, 1, work) < HEADER {
        return Err(14);
    }
    let header = Header::of(work)?;
    let joined = join(file, exact_count(&header), work);
    let front = header.length() - header.steps;
    if joined < front {
        return Err(14);
    }
    let steps = header.steps.min(joined - front);
    let shortened = Header { steps, ..header };
    // S is the last of the header
    work[HEADER - 2..HEADER].copy_from_slice(&(steps as u16).to_be_bytes());
    let stream = &work[..shortened.length()];
    Job::of(shortened, stream)?;
    Ok(stream)
}

/// Joins the payloads of a file's leading full blocks, at most so many and up to the first that would be refused 3 or 4; gives their length.
fn join(file: &[u8], most: usize, work: &mut [u8]) -> usize {
    let (blocks, _) = file.as_chunks();
    let mut joined = 0;
    for (position, block) in blocks.iter().take(most).enumerate() {
        let Ok(payload) = payload(block, position) else { break };
        work[joined..joined + PAYLOAD].copy_from_slice(payload);
        joined += PAYLOAD;
    }
    joined
}
