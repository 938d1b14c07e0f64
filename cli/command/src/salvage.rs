//! `bench salvage`: what remains of a spoiled file, as a proper one. What was kept is the library's; the words beside it say why no more was.

use crate::make::{self, REMEDY};
use crate::names::shown;
use crate::status::{Failure, Status, say};
use crate::why::blocks::{Wrong, wrong};
use crate::why::of_job;
use crate::words::{counted, grouped, step, steps};
use crate::{input, output};
use pigwazet::limits::{BLOCK, HEADER, PAYLOAD, RECORD};
use pigwazet::{Job, Kind, Salvaged};
use std::fs;
use std::os::unix::fs::MetadataExt;
use std::path::Path;

pub fn run(path: &Path, out: Option<&Path>) -> Result<Status, Failure> {
    apart(path, out)?;
    let (name, file) = (input::name(path), input::job(path)?);
    match pigwazet::salvage(&file) {
        Ok(salvaged) => {
            let made = output::made((path, out), ["job", "salvaged.job"], &salvaged.file, <[u8]>::is_empty, REMEDY)?;
            let made = made.map_or("standard output".to_string(), |made| shown(&made));
            say(&format!("{salvaged}\n{}", told(&name, &made, &file, &salvaged)?));
            Ok(Status::Fine)
        }
        Err(refusal) => {
            let (number, sentence) = (refusal.number(), refusal.sentence());
            say(&format!("refused {number}\n{name}: {sentence}.\n{}", of_job(&file, refusal).trim_end()));
            Ok(Status::Refused)
        }
    }
}

/// A spoiled card may be the only one: it is not written over, by whatever name it is called.
fn apart(path: &Path, out: Option<&Path>) -> Result<(), Failure> {
    let Some(out) = out else { return Ok(()) };
    let path = if input::is_standard(path) { Path::new("/dev/stdin") } else { path };
    let place = |path: &Path| fs::metadata(path).ok().filter(|there| there.is_file()).map(|there| (there.dev(), there.ino()));
    if place(out).is_some_and(|there| place(path) == Some(there)) {
        return Err(Failure(format!("{} is the spoiled file and stays as it is: name another file with --out.", shown(out))));
    }
    Ok(())
}

/// What was made, and what that means.
fn told(name: &str, made: &str, file: &[u8], salvaged: &Salvaged) -> Result<String, Failure> {
    let job = pigwazet::read(&salvaged.file).map_err(|refusal| Failure(format!("{made}: {refusal}")))?;
    let rest = if salvaged.lost() == 0 { unlost(name, file, salvaged) } else { lost(&job, file, salvaged) };
    Ok(format!("{made}: {}\n{rest}", make::told(&job)))
}

/// Of a file whose entries are all there, what else was mended.
fn unlost(name: &str, file: &[u8], salvaged: &Salvaged) -> String {
    let (kept, behind) = file.split_at(salvaged.file.len());
    if file == salvaged.file {
        return format!("Nothing is lost: {name} is a proper job file, and comes out as it is.");
    }
    let mut text = "Nothing is lost: all entries of the schedule are kept.".to_string();
    if kept != salvaged.file {
        text += " Bytes behind the schedule that were not zero are zero now.";
    }
    if !behind.is_empty() {
        let most = if file.len() as u64 == input::MOST { " or more" } else { "" };
        text += &format!(" What stood behind the job, {}{most}, is left off.", counted(behind.len(), "byte", "bytes"));
    }
    text
}

/// Which blocks are kept and why the next one is not, what is lost, and what can be relied on.
fn lost(job: &Job, file: &[u8], salvaged: &Salvaged) -> String {
    let Salvaged { kept, named, .. } = *salvaged;
    let next = salvaged.file.len() / BLOCK;
    let asked = (HEADER + RECORD * job.operations.len() + usize::from(named)).div_ceil(PAYLOAD);
    let blocks = match next {
        1 => format!("Block 0 of {asked} is kept"),
        _ => format!("Blocks 0 to {} of {asked} are kept", next - 1),
    };
    let entries = counted(usize::from(salvaged.lost()), "entry", "entries");
    let why = because(wrong(file, next));
    format!(
        "{blocks}. Block {next} is not: {why}.\nLost: {entries} of the schedule, {}. The header and the operations are whole.\n{}",
        steps(kept + 1, named),
        relied(job.kind, kept)
    )
}

fn because(wrong: Option<Wrong>) -> String {
    match wrong {
        Some(Wrong::Part(bytes)) => format!("it is not whole, the file ends behind {bytes} of its {BLOCK} bytes"),
        Some(Wrong::Sum) => "its sum differs, so it is damaged".to_string(),
        Some(Wrong::Number(number)) => {
            format!("its number is {}, not its position: blocks were lost or mixed up", grouped(usize::from(number)))
        }
        Some(Wrong::Missing) | None => "the file ends there".to_string(),
    }
}

/// What holds of the run up to the last step that is kept.
fn relied(kind: Kind, kept: u16) -> String {
    if kept == 0 {
        return "No step is left: every operation is waiting.".to_string();
    }
    let line = if kind == Kind::Stack { ", and its line an earlier step" } else { "" };
    format!(
        "An operation that ended by {} has the answer, first and last step of the undamaged job; one that ended later is open or waiting. A reading may have fewer takers{line}.",
        step(kept)
    )
}
