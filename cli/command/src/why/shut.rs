//! What windows shut, where a job and its window block are both accepted: why an operation did not end, or did not begin.

use crate::input;
use crate::status::Failure;
use crate::turns::Turns;
use crate::windows::words::window;
use crate::words::{grouped, list};
use pigwazet::report::{Ending, Run};

/// A line for each process that was shut out of a turn.
pub fn told(file: &[u8], block: &[u8]) -> Result<String, Failure> {
    let (turns, report) = input::replayed(file, block).map_err(|refusal| Failure(refusal.to_string()))?;
    let run = report.run();
    let lines: Vec<String> = (0..turns.job.processes).filter_map(|process| of_process(&turns, &run, process)).collect();
    Ok(if lines.is_empty() && turns.windows.is_some() { "No turn fell outside a window.\n".to_string() } else { lines.concat() })
}

fn of_process(turns: &Turns, run: &Run, process: u8) -> Option<String> {
    let shut = turns.shut_behind(process, 0)?;
    let all = turns.all().filter(|(_, turn)| turn.process() == process).count();
    let own = window(turns.windows?.entries[usize::from(process)]);
    let those = |ending: Ending| -> Vec<String> {
        let own = run.operations.iter().filter(|operation| operation.process == process && operation.ending == ending);
        own.map(|operation| operation.number.to_string()).collect()
    };
    let [open, waiting] =
        [(Ending::Open, "open"), (Ending::Waiting, "not begun")].map(|(ending, word)| left(&those(ending), word));
    Some(format!("Process {process} ({own}) was {shut}, of {} in all.{open}{waiting}\n", grouped(all)))
}

/// Which operations were left so.
fn left(operations: &[String], word: &str) -> String {
    match operations {
        [] => String::new(),
        [one] => format!(" Operation {one} is {word}."),
        all => format!(" Operations {} are {word}.", list(all)),
    }
}
