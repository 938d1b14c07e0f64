//! Writes the sample jobs and their reports into the folder given, the window blocks that some have beside them, with the reports within, and the
//! spoiled cards.

use second::calls::REPORT;
use second::file::sealed;
use second::generate::Draft;
use second::job::Job;
use second::windows::Windows;
use second::{report, samples};
use std::path::{Path, PathBuf};
use std::{env, fs, io};

fn main() -> io::Result<()> {
    let folder = PathBuf::from(env::args().nth(1).unwrap_or_else(|| "examples".to_string()));
    fs::create_dir_all(&folder)?;
    samples::all().iter().try_for_each(|(name, draft)| write(&folder, name, draft))?;
    samples::cards().iter().try_for_each(|(name, card, _)| fs::write(folder.join(format!("{name}.card")), card))
}

fn write(folder: &Path, name: &str, draft: &Draft) -> io::Result<()> {
    let write = |ending: &str, bytes: &[u8]| fs::write(folder.join(format!("{name}.{ending}")), bytes);
    write("job", &sealed(&draft.stream()))?;
    write("txt", &report(name, draft, None)?)?;
    for (_, windows, _) in samples::within().iter().filter(|(own, ..)| *own == name) {
        write("win", &windows.block())?;
        write("win.txt", &report(name, draft, Some(windows))?)?;
    }
    Ok(())
}

fn report(name: &str, draft: &Draft, windows: Option<&Windows>) -> io::Result<Vec<u8>> {
    let stream = draft.stream();
    let job = Job::of_stream(&stream).map_err(|number| io::Error::other(format!("{name} is refused with {number}")))?;
    let mut memory = vec![0; REPORT];
    let length = report::replay(&job, windows, &mut memory);
    memory.truncate(length);
    Ok(memory)
}
