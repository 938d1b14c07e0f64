//! What came of one file, and of all.

use super::inputs::{Input, Source};
use crate::input::{self, MOST};
use crate::output;
use crate::status::{Failure, Status};
use crate::words::{counted, grouped, list};
use pigwazet::{Memory, Refusal};
use std::collections::BTreeMap;
use std::fmt;
use std::path::Path;

pub enum Answer {
    /// The report; empty where it was written to a file.
    Replayed(String),
    Refused(Refusal),
    /// Not read, or not written, and why.
    Failed(String),
}

/// The memory of one core.
#[derive(Default)]
pub struct Worker {
    memory: Memory,
    file: Vec<u8>,
}

impl Worker {
    /// Replays one file within the windows of a block, if there is one. What bin/replay would print goes below `out`, where that is given.
    pub fn answer(&mut self, input: &Input, block: &[u8], out: Option<&Path>) -> Answer {
        let read = match &input.source {
            Source::Standard => input::fill_standard(MOST, &mut self.file),
            Source::File(path) => input::fill(path, MOST, &mut self.file),
            Source::Missing(why) => return Answer::Failed(why.clone()),
        };
        if let Err(why) = read {
            return Answer::Failed(format!("{} could not be read: {why}", input.name));
        }
        match (self.memory.replay_within(&self.file, block), out) {
            (Ok(report), None) => Answer::Replayed(report.to_string()),
            (Err(refusal), None) => Answer::Refused(refusal),
            (Ok(report), Some(out)) => kept(out, input, report).map_or_else(Answer::Failed, |()| Answer::Replayed(String::new())),
            (Err(refusal), Some(out)) => {
                let text = format!("refused {}\n", refusal.number());
                kept(out, input, &text).map_or_else(Answer::Failed, |()| Answer::Refused(refusal))
            }
        }
    }
}

/// Writes an answer to its file; an answer that stands there is replaced, anything else is not.
fn kept(out: &Path, input: &Input, text: &str) -> Result<(), String> {
    let answer = |there: &[u8]| there.is_empty() || there.starts_with(b"object ") || there.starts_with(b"refused ");
    let target = input.target.as_deref().unwrap_or(Path::new(""));
    let kept = output::unnamed(&out.join(target), text.as_bytes(), answer, "reports go to another folder, or it is moved");
    kept.map_err(|Failure(why)| why)
}

impl Answer {
    pub fn is_replayed(&self) -> bool {
        matches!(self, Answer::Replayed(_))
    }

    /// What is said beside the answers.
    pub fn failure(&self) -> Option<&String> {
        if let Answer::Failed(why) = self { Some(why) } else { None }
    }

    fn word(&self) -> String {
        match self {
            Answer::Replayed(_) => "replayed".to_string(),
            Answer::Refused(refusal) => format!("refused {}", refusal.number()),
            Answer::Failed(_) => "failed".to_string(),
        }
    }

    /// One line of a summary: what came of it, a tab, its name.
    pub fn line(&self, name: &str) -> String {
        format!("{}\t{name}\n", self.word())
    }

    /// The answer under its name, as head(1) puts files under theirs.
    pub fn titled(&self, name: &str, first: bool) -> String {
        let gap = if first { "" } else { "\n" };
        match self {
            Answer::Replayed(report) => format!("{gap}==> {name} <==\n{report}"),
            other => format!("{gap}==> {name} <==\n{}\n", other.word()),
        }
    }
}

/// What came of all files.
#[derive(Default)]
pub struct Tally {
    replayed: usize,
    /// By number.
    refused: BTreeMap<Refusal, usize>,
    failed: usize,
}

impl Tally {
    pub fn add(&mut self, answer: &Answer) {
        match answer {
            Answer::Replayed(_) => self.replayed += 1,
            Answer::Refused(refusal) => *self.refused.entry(*refusal).or_default() += 1,
            Answer::Failed(_) => self.failed += 1,
        }
    }

    pub fn files(&self) -> usize {
        self.replayed + self.refused.values().sum::<usize>() + self.failed
    }

    /// The refusal of the window block, where a job met it.
    pub fn of_windows(&self) -> Option<Refusal> {
        self.refused.keys().copied().find(|refusal| refusal.is_of_windows())
    }

    pub fn status(&self) -> Status {
        match (self.failed, self.refused.is_empty()) {
            (0, true) => Status::Fine,
            (0, false) => Status::Refused,
            _ => Status::Failed,
        }
    }
}

/// `12 files: 9 replayed, 3 refused (2 with number 3, 1 with number 9)`
impl fmt::Display for Tally {
    fn fmt(&self, f: &mut fmt::Formatter) -> fmt::Result {
        let refused = self.refused.values().sum::<usize>();
        write!(
            f,
            "{}: {} replayed, {} refused",
            counted(self.files(), "file", "files"),
            grouped(self.replayed),
            grouped(refused)
        )?;
        if refused > 0 {
            let numbers: Vec<String> = self
                .refused
                .iter()
                .map(|(refusal, count)| format!("{} with number {}", grouped(*count), refusal.number()))
                .collect();
            write!(f, " ({})", list(&numbers))?;
        }
        if self.failed > 0 {
            write!(f, ", {} not read or not written", grouped(self.failed))?;
        }
        Ok(())
    }
}
