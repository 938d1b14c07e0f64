//! `bench why`: a refusal in words. The number is the library's; what is here looks for the place that decided it. Of a job and a window block
//! that are both accepted, it tells what was shut; of a spoiled file, what can be salvaged.

pub mod block;
pub mod blocks;
pub mod place;
mod shut;

use crate::names::shown;
use crate::status::{Failure, Status};
use crate::words::{counted, grouped, sentence};
use crate::{input, output};
use pigwazet::Refusal;
use std::path::Path;

pub fn run(path: Option<&Path>, windows: Option<&Path>) -> Result<Status, Failure> {
    input::apart(path.into_iter().chain(windows))?;
    let file = path.map(input::job).transpose()?;
    let block = input::block(windows)?;
    let mut text = String::new();
    if let (Some(path), Some(file)) = (path, &file) {
        let name = input::name(path);
        if let Err(refusal) = pigwazet::read(file) {
            return refused(&name, refusal, &(of_job(file, refusal) + &remains(path, file, refusal)));
        }
        text += &accepted(&name);
    }
    if let Some(windows) = windows {
        let name = input::name(windows);
        if let Err(refusal) = pigwazet::read_windows(&block) {
            return refused(&name, refusal, &block::told(&block));
        }
        let empty = || format!("{name}: empty, which is no window block: nothing is shut\n");
        text += &if block.is_empty() { empty() } else { accepted(&name) };
    }
    if let (Some(file), Some(_)) = (&file, windows) {
        text += &shut::told(file, &block)?;
    }
    output::print(text).map(|()| Status::Fine)
}

fn accepted(name: &str) -> String {
    format!("{name}: accepted, nothing is wrong with it\n")
}

fn refused(name: &str, refusal: Refusal, decided: &str) -> Result<Status, Failure> {
    output::print(format!("{name}: refused {}\n{}.\n{decided}", refusal.number(), sentence(refusal.sentence())))?;
    Ok(Status::Refused)
}

/// The place that decided, what stands there, what to do.
fn decided(place: &str, found: &str, remedy: &str) -> String {
    format!("Decided by: {place}.\nThere stands: {found}.\nWhat to do: {remedy}.\n")
}

/// What decided that a job file is refused, by whichever call.
pub fn of_job(file: &[u8], refusal: Refusal) -> String {
    let place::Decided { place, found, remedy } = place::decided(file, refusal);
    decided(&place.told(file), &found, &remedy)
}

/// What a salvage makes of a file that is refused. One that is no job file, or is refused alike, has nothing to tell.
fn remains(path: &Path, file: &[u8], refusal: Refusal) -> String {
    match pigwazet::salvage(file) {
        Err(_) if place::is_text(file) => String::new(),
        Err(same) if same == refusal => String::new(),
        Err(other) => format!("What remains: nothing that can be salvaged ({other}).\n"),
        Ok(salvaged) => {
            let (kept, named) = (grouped(usize::from(salvaged.kept)), counted(usize::from(salvaged.named), "entry", "entries"));
            format!("What remains: `bench salvage {}` keeps {kept} of {named}.\n", shown(path))
        }
    }
}
