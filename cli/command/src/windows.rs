//! `bench windows`: windows written as text become their block, or a block is printed as text. docs/TEXT.md has the form; `parse` reads it,
//! `print` writes the one form that is printed.

pub mod parse;
pub mod print;
pub mod words;

use crate::make::REMEDY;
use crate::names::shown;
use crate::status::{Failure, Status, say};
use crate::words::list;
use crate::{input, lines, output};
use pigwazet::Windows;
use pigwazet::limits::PROCESSES;
use std::path::Path;

/// Makes the block of a text.
pub fn run(text: &Path, out: Option<&Path>) -> Result<Status, Failure> {
    let name = input::name(text);
    let source = input::text(text, "a window block, it is made already: `bench windows --text` prints it")?;
    let windows = parse::windows(&source).map_err(|faults| lines::told(&name, &source, &faults))?;
    let block = pigwazet::write_windows(&windows).map_err(|refusal| Failure(format!("{name}: {refusal}")))?;
    let made = output::made((text, out), ["windows", "win"], &block, <[u8]>::is_empty, REMEDY)?;
    // who forgot a line wants to hear it, wherever the block goes
    let made = made.map_or("standard output".to_string(), |made| shown(&made));
    say(&format!("{made}: {}", told(&windows)));
    Ok(Status::Fine)
}

/// Prints a block as text.
pub fn text(path: &Path) -> Result<Status, Failure> {
    match pigwazet::read_windows(&input::block(Some(path))?) {
        Ok(Some(windows)) => output::print(print::windows(&windows)).map(|()| Status::Fine),
        Ok(None) => Err(Failure(format!("{} is empty: that is no window block, and shuts nothing.", input::name(path)))),
        Err(refusal) => {
            input::refused_block(path, refusal);
            Ok(Status::Refused)
        }
    }
}

/// What was made: the start, who may work at times, and who at none.
fn told(windows: &Windows) -> String {
    let (shut, open): (Vec<usize>, Vec<usize>) = (0..PROCESSES).partition(|&process| windows.entries[process].is_shut());
    let [open, shut] = [open, shut].map(|processes| processes.iter().map(usize::to_string).collect::<Vec<_>>());
    let may = match (&open[..], &shut[..]) {
        (_, []) => "all processes have a window".to_string(),
        ([], _) => "no process has a window, so all are shut".to_string(),
        ([_], [_, ..]) => format!("process {} has a window, {} are shut", list(&open), list(&shut)),
        (_, [_]) => format!("processes {} have a window, {} is shut", list(&open), list(&shut)),
        _ => format!("processes {} have a window, {} are shut", list(&open), list(&shut)),
    };
    format!("from {} {} on; {may}", words::weekday(&windows.start), words::start(&windows.start))
}
