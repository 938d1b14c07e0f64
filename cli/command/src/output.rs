//! Writing what a command makes, whole or not at all.

use crate::input::is_standard;
use crate::names::{shown, with_ending};
use crate::status::Failure;
use std::collections::hash_map::RandomState;
use std::fs;
use std::hash::BuildHasher;
use std::io::{self, ErrorKind, Write};
use std::path::{Path, PathBuf};
use std::sync::OnceLock;
use std::sync::atomic::{AtomicUsize, Ordering};

/// To standard output. That nobody reads it any more is no news to whoever stopped reading.
pub fn print(bytes: impl AsRef<[u8]>) -> Result<(), Failure> {
    let mut out = io::stdout().lock();
    let written = out.write_all(bytes.as_ref()).and_then(|()| out.flush());
    written.map_err(|why| match why.kind() {
        ErrorKind::BrokenPipe => Failure(String::new()),
        _ => Failure(format!("Standard output could not be written: {why}.")),
    })
}

/// What is made of an input: to the file that the user named, or beside the input, with another ending, where `replaceable` says what may be
/// replaced there; to standard output, if it is named or the input is standard input. Gives the file's name, if it is in one.
pub fn made(
    (input, out): (&Path, Option<&Path>),
    [old, new]: [&str; 2],
    bytes: &[u8],
    replaceable: impl FnOnce(&[u8]) -> bool,
    remedy: &str,
) -> Result<Option<PathBuf>, Failure> {
    match out {
        Some(out) if is_standard(out) => print(bytes).map(|()| None),
        None if is_standard(input) => print(bytes).map(|()| None),
        Some(out) => named(out, bytes).map(|()| Some(out.to_path_buf())),
        None => {
            let out = with_ending(input, old, new);
            unnamed(&out, bytes, replaceable, remedy).map(|()| Some(out))
        }
    }
}

/// To a file that the user named. A link is followed; what is no plain file, as a pipe or a device, is written as it stands.
pub fn named(path: &Path, bytes: &[u8]) -> Result<(), Failure> {
    let target = fs::canonicalize(path).unwrap_or_else(|_| path.to_path_buf());
    let written = match fs::metadata(&target) {
        Ok(there) if !there.is_file() => {
            fs::OpenOptions::new().write(true).open(&target).and_then(|mut file| file.write_all(bytes))
        }
        _ => file(&target, bytes),
    };
    written.map_err(|why| unwritten(path, &why))
}

fn unwritten(path: &Path, why: &io::Error) -> Failure {
    Failure(format!("{} could not be written: {why}", shown(path)))
}

/// To a file whose name was not given by the user: what stands there is replaced only if it may be.
pub fn unnamed(path: &Path, bytes: &[u8], replaceable: impl FnOnce(&[u8]) -> bool, remedy: &str) -> Result<(), Failure> {
    let there = match fs::symlink_metadata(path) {
        Err(why) if why.kind() == ErrorKind::NotFound => return file(path, bytes).map_err(|why| unwritten(path, &why)),
        Err(why) => Err(why),
        Ok(there) if there.is_file() => fs::read(path),
        Ok(_) => Err(io::Error::other("it is no plain file")),
    };
    match there {
        Ok(there) if there == bytes => Ok(()),
        Ok(there) if replaceable(&there) => named(path, bytes),
        Ok(_) => Err(Failure(format!("{} is there already, is something else and stays as it is: {remedy}.", shown(path)))),
        Err(why) => Err(Failure(format!("{} is there already and stays as it is ({why}): {remedy}.", shown(path)))),
    }
}

/// Under another name until all is written, so that no reader meets half of it.
fn file(path: &Path, bytes: &[u8]) -> io::Result<()> {
    let part = path.with_file_name(unfinished());
    let written = fs::write(&part, bytes).and_then(|()| fs::rename(&part, path));
    if written.is_err() {
        let _ = fs::remove_file(&part);
    }
    written
}

/// The name of an unfinished file: a word of this process's own, since another one, perhaps on another host, may be writing the same file, and a number.
fn unfinished() -> String {
    static WORD: OnceLock<u64> = OnceLock::new();
    static NUMBER: AtomicUsize = AtomicUsize::new(0);
    let word = WORD.get_or_init(|| RandomState::new().hash_one(std::process::id()));
    format!(".bench-{word:016x}-{}.part", NUMBER.fetch_add(1, Ordering::Relaxed))
}
