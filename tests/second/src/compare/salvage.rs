//! Both sides on a salvage: its answer is held against the sentences of request 7, and what comes out is read, written back and replayed.

use super::{Answer, Compare, ENOUGH, difference, ensure};
use crate::calls::{Calls, SECOND};
use crate::check;
use crate::failure::guarded;
use crate::file::{FILE_LIMIT, WORK};
use crate::library::LIBRARY;

impl Compare {
    /// A salvage with so much work and output memory lent: "after any other call work is as after a replay, and output is unchanged past the
    /// file, or wholly if refused."
    pub fn salvage_within(&mut self, input: &[u8], work: usize, out: usize) -> Result<Answer, String> {
        let answer = self.both(3, |side| (side.calls.salvage)(input, &mut side.work[..work], &mut side.out[..out]))?;
        self.work_is(answer, &[])?;
        self.out_is_kept(answer)?;
        Ok(answer)
    }

    /// A salvage with enough memory. A difference is judged: whose answer is right?
    pub fn salvage(&mut self, input: &[u8]) -> Result<Answer, String> {
        let answer = self.salvage_within(input, WORK, FILE_LIMIT).map_err(|difference| {
            let (second, library) = (judged(input, &SECOND), judged(input, &LIBRARY));
            format!("{difference}\n  the second replayer's answer {second}\n  the library's answer {library}")
        })?;
        check::salvage::answers(input, answer.number, self.output(answer))
            .map_err(|why| format!("both sides agree, but {why}"))?;
        Ok(answer)
    }

    /// A file that is accepted: it is read and written back as it is. Gives its stream and its report.
    pub fn accepted(&mut self, file: &[u8]) -> Result<(Vec<u8>, Vec<u8>), String> {
        let read = self.read(file, WORK)?;
        ensure(read.number == 0, || format!("what comes out is read as {read}"))?;
        let stream = self.library.work[..read.length].to_vec();
        let written = self.write(&stream, FILE_LIMIT)?;
        ensure(written.number == 0 && written.length == file.len(), || format!("what comes out is written back as {written}"))?;
        difference("the file written back", file, self.output(written))?;
        let replayed = self.replay(file, &[], ENOUGH)?;
        ensure(replayed.number == 0, || format!("what comes out is replayed as {replayed}"))?;
        Ok((stream, self.output(replayed).to_vec()))
    }
}

/// What the sentences of the request say of one side's answer.
fn judged(input: &[u8], calls: &Calls) -> String {
    let (mut work, mut out) = (vec![1; WORK], vec![1; FILE_LIMIT]);
    let right = guarded(|| {
        let answer = Answer::of((calls.salvage)(input, &mut work, &mut out));
        check::salvage::answers(input, answer.number, &out[..answer.length.min(FILE_LIMIT)])
    });
    right.err().map_or("is right".to_string(), |why| format!("is wrong: {why}"))
}
