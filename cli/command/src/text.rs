//! `bench text`: a job file as text. docs/TEXT.md has the form; `parse` reads it, `print` writes the one form that is printed.

pub mod parse;
pub mod print;

use crate::status::{Failure, Status};
use crate::{input, output};
use std::path::Path;

pub fn run(path: &Path) -> Result<Status, Failure> {
    let Some(job) = input::accepted(path, None, |file, _| pigwazet::read(file))? else { return Ok(Status::Refused) };
    output::print(print::job(&job)).map(|()| Status::Fine)
}
