//! `bench replay`: the reports of one job file or of many, on all cores.

pub mod answer;
pub mod inputs;

use crate::arguments::ReplayArguments;
use crate::names::shown;
use crate::status::{Failure, Status, say};
use crate::{input, output};
use answer::{Answer, Tally, Worker};
use indicatif::{ProgressBar, ProgressStyle};
use inputs::Input;
use pigwazet::Refusal;
use rayon::prelude::*;
use std::collections::BTreeSet;
use std::fs;
use std::io::{self, IsTerminal};
use std::path::{Path, PathBuf};

/// So many files are replayed before what came of them is printed, in their order: reports, or only a line each.
const REPORTS_AT_ONCE: usize = 1_024;
const LINES_AT_ONCE: usize = 65_536;

pub fn run(arguments: &ReplayArguments) -> Result<Status, Failure> {
    let (list, windows) = (arguments.files_from.as_deref(), arguments.within.windows.as_deref());
    input::apart(arguments.files.iter().map(PathBuf::as_path).chain(list).chain(windows))?;
    let inputs = inputs::all(&arguments.files, list)?;
    let out = arguments.out.as_deref();
    let block = match input::block(windows) {
        Err(Failure(why)) if out.is_some() => return unread(&inputs, why),
        block => block?,
    };
    match (out, &arguments.files[..], list) {
        (None, [file], None) if !file.is_dir() => single(&inputs[0], &block, |refusal| input::refused(file, windows, refusal)),
        _ => {
            let tally = several(&inputs, &block, out)?;
            // the lines of the files do not say whose number 13 is
            if let Some((windows, refusal)) = windows.zip(tally.of_windows()) {
                input::refused_block(windows, refusal);
            }
            say(&tally);
            Ok(tally.status())
        }
    }
}

/// One job: its report or its refusal, as document 01 has it, and nothing else on standard output.
fn single(input: &Input, block: &[u8], told: impl FnOnce(Refusal)) -> Result<Status, Failure> {
    match Worker::default().answer(input, block, None) {
        Answer::Replayed(report) => output::print(report).map(|()| Status::Fine),
        Answer::Refused(refusal) => {
            output::print(format!("refused {}\n", refusal.number()))?;
            told(refusal);
            Ok(Status::Refused)
        }
        Answer::Failed(why) => Err(Failure(why)),
    }
}

/// Many jobs, and what came of all.
fn several(inputs: &[Input], block: &[u8], out: Option<&Path>) -> Result<Tally, Failure> {
    out.map_or(Ok(()), |folder| folders(folder, inputs))?;
    // the lines of files that went well are for programs
    let attended = io::stdout().is_terminal();
    let bar = if attended && out.is_none() { ProgressBar::hidden() } else { bar(inputs.len()) };
    let mut tally = Tally::default();
    for some in inputs.chunks(if out.is_some() { LINES_AT_ONCE } else { REPORTS_AT_ONCE }) {
        let answer = |worker: &mut Worker, input: &Input| {
            let answer = worker.answer(input, block, out);
            bar.inc(1);
            answer
        };
        let answers: Vec<Answer> = some.par_iter().map_init(Worker::default, answer).collect();
        let mut text = String::new();
        for (input, answer) in some.iter().zip(&answers) {
            match out {
                None => text += &answer.titled(&input.name, tally.files() == 0),
                Some(_) if attended && answer.is_replayed() => {}
                Some(_) => text += &answer.line(&input.name),
            }
            tally.add(answer);
        }
        bar.suspend(|| {
            answers.iter().filter_map(Answer::failure).for_each(|why| say(&why));
            output::print(text)
        })?;
    }
    bar.finish_and_clear();
    Ok(tally)
}

/// Nothing is replayed, since the block could not be read: each file has its line all the same.
fn unread(inputs: &[Input], why: String) -> Result<Status, Failure> {
    say(&why);
    let failed = Answer::Failed(why);
    let mut tally = Tally::default();
    inputs.iter().for_each(|_| tally.add(&failed));
    output::print(inputs.iter().map(|input| failed.line(&input.name)).collect::<String>())?;
    say(&tally);
    Ok(tally.status())
}

/// Makes the folder for the reports, and those that they need in it.
fn folders(folder: &Path, inputs: &[Input]) -> Result<(), Failure> {
    inputs::apart(inputs)?;
    let within: BTreeSet<&Path> = inputs.iter().filter_map(|input| input.target.as_deref()?.parent()).collect();
    for path in within {
        let path: PathBuf = folder.join(path).components().collect();
        fs::create_dir_all(&path).map_err(|why| Failure(format!("The folder {} cannot be made: {why}", shown(&path))))?;
    }
    Ok(())
}

/// A bar on standard error, where that is a terminal.
fn bar(files: usize) -> ProgressBar {
    let style = ProgressStyle::with_template("{bar:40} {human_pos} of {human_len} files, {eta} left").expect("a template");
    ProgressBar::new(files as u64).with_style(style)
}
