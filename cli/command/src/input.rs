//! Reading what a command is given. `-` is standard input.

use crate::names::shown;
use crate::status::{Failure, say};
use crate::turns::Turns;
use pigwazet::{Refusal, Report};
use std::fs::File;
use std::io::{self, Read};
use std::path::Path;

/// An endless job is cut far past the longest one, and is refused for its length all the same.
pub const MOST: u64 = 65_536;

pub fn is_standard(path: &Path) -> bool {
    path.as_os_str() == "-"
}

/// How messages name an input.
pub fn name(path: &Path) -> String {
    if is_standard(path) { "standard input".to_string() } else { shown(path) }
}

/// Fills `bytes` from a file, up to a limit.
pub fn fill(path: &Path, most: u64, bytes: &mut Vec<u8>) -> io::Result<()> {
    bytes.clear();
    File::open(path)?.take(most).read_to_end(bytes).map(drop)
}

/// The same from standard input.
pub fn fill_standard(most: u64, bytes: &mut Vec<u8>) -> io::Result<()> {
    bytes.clear();
    io::stdin().lock().take(most).read_to_end(bytes).map(drop)
}

/// A file or standard input, up to a limit.
fn whole(path: &Path, most: u64) -> Result<Vec<u8>, Failure> {
    let mut bytes = vec![];
    let read = if is_standard(path) { fill_standard(most, &mut bytes) } else { fill(path, most, &mut bytes) };
    read.map_err(|why| Failure(format!("{} could not be read: {why}", name(path))))?;
    Ok(bytes)
}

/// A job file, whatever it holds.
pub fn job(path: &Path) -> Result<Vec<u8>, Failure> {
    whole(path, MOST)
}

/// A window block, whatever it holds; empty, which is none, where none is named.
pub fn block(path: Option<&Path>) -> Result<Vec<u8>, Failure> {
    path.map_or(Ok(vec![]), |path| whole(path, MOST))
}

/// Of all that a command is to read, one at most is standard input.
pub fn apart<'a>(paths: impl IntoIterator<Item = &'a Path>) -> Result<(), Failure> {
    let standard = paths.into_iter().filter(|path| is_standard(path)).count();
    if standard > 1 { Err(Failure("Standard input can be read only once.".to_string())) } else { Ok(()) }
}

/// A file that must be read to its end: one that is longer than `most` MiB is an error.
pub fn all(path: &Path, most: u64) -> Result<Vec<u8>, Failure> {
    let bytes = whole(path, (most << 20) + 1)?;
    if bytes.len() as u64 > most << 20 {
        return Err(Failure(format!("{} is longer than {most} MiB.", name(path))));
    }
    Ok(bytes)
}

/// A text; `otherwise` is what it may be if it is none, and what to do then.
pub fn text(path: &Path, otherwise: &str) -> Result<String, Failure> {
    let bytes = all(path, 16)?;
    let other = || Failure(format!("{} is no text. If it is {otherwise}.", name(path)));
    if looks_like_text(&bytes) { String::from_utf8(bytes).map_err(|_| other()) } else { Err(other()) }
}

/// A job file or a window block may be valid as text, but has zeros.
pub fn looks_like_text(bytes: &[u8]) -> bool {
    std::str::from_utf8(bytes).is_ok() && !bytes.contains(&0)
}

/// What a call makes of a job file and the window block beside it; none where it refuses one of them, which is then said.
pub fn accepted<T>(
    path: &Path,
    windows: Option<&Path>,
    call: impl FnOnce(&[u8], &[u8]) -> Result<T, Refusal>,
) -> Result<Option<T>, Failure> {
    apart([path].into_iter().chain(windows))?;
    let (file, block) = (job(path)?, block(windows)?);
    Ok(call(&file, &block).map_err(|refusal| refused(path, windows, refusal)).ok())
}

/// The turns of the job in a file, and its report.
pub fn replayed(file: &[u8], block: &[u8]) -> Result<(Turns, Report), Refusal> {
    Ok((Turns::of(file, block)?, pigwazet::replay_within(file, block)?))
}

/// Says that a job file or a window block is refused, where a command needed accepted ones.
pub fn refused(path: &Path, windows: Option<&Path>, refusal: Refusal) {
    match windows {
        Some(block) if refusal.is_of_windows() => refused_block(block, refusal),
        _ => say(&format!("{}: {refusal}. `bench why` says more.", name(path))),
    }
}

/// The same of a window block alone.
pub fn refused_block(path: &Path, refusal: Refusal) {
    say(&format!("{}: {refusal}. `bench why --windows` says more.", name(path)));
}
