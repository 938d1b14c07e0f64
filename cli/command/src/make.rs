//! `bench make`: a job written as text becomes its job file.

use crate::names::shown;
use crate::status::{Failure, Status, say};
use crate::text::parse;
use crate::words::counted;
use crate::{input, lines, output};
use pigwazet::{Job, Turn};
use std::path::Path;

/// What to do where the file that is to be made is there already.
pub const REMEDY: &str = "name the file with --out to replace it";

pub fn run(text: &Path, out: Option<&Path>) -> Result<Status, Failure> {
    let name = input::name(text);
    let source = input::text(text, "a job file, it is made already: `bench text` prints it")?;
    let job = parse::job(&source).map_err(|faults| lines::told(&name, &source, &faults))?;
    let file = pigwazet::write(&job).map_err(|refusal| Failure(format!("{name}: {refusal}")))?;
    if let Some(made) = output::made((text, out), ["txt", "job"], &file, <[u8]>::is_empty, REMEDY)? {
        say(&format!("{}: {}", shown(&made), told(&job)));
    }
    Ok(Status::Fine)
}

/// What was made.
pub fn told(job: &Job) -> String {
    let processes = counted(usize::from(job.processes), "process", "processes");
    let operations = counted(job.operations.len(), "operation", "operations");
    let steps = counted(job.schedule.len(), "step", "steps");
    let drops = match job.schedule.iter().filter(|&&entry| matches!(Turn::of(entry), Turn::Drops(_))).count() {
        0 => String::new(),
        some => format!(" with {}", counted(some, "drop", "drops")),
    };
    format!("{}, {processes}, {operations}, {steps}{drops}", job.kind.noun())
}
