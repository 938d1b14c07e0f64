//! The files to replay, each with the name that messages give it and with that of its report below the folder of reports.

use crate::input::{self, is_standard};
use crate::names::{has_ending, shown, with_ending};
use crate::status::Failure;
use std::collections::HashMap;
use std::ffi::OsStr;
use std::fs::{self, DirEntry};
use std::os::unix::ffi::OsStrExt;
use std::path::{Component, Path, PathBuf};

pub struct Input {
    pub name: String,
    pub source: Source,
    /// Its report's name; none where there is no report, or where its path would lead out of the folder of reports.
    pub target: Option<PathBuf>,
}

pub enum Source {
    Standard,
    File(PathBuf),
    /// Not to be had, and why.
    Missing(String),
}

/// All files that are named, found in a folder or listed.
pub fn all(files: &[PathBuf], list: Option<&Path>) -> Result<Vec<Input>, Failure> {
    let mut inputs = vec![];
    for path in files {
        if is_standard(path) {
            inputs.push(Input { name: "-".to_string(), source: Source::Standard, target: Some("standard-input.txt".into()) });
        } else if path.is_dir() {
            folder(path, &mut inputs);
        } else {
            // a named file's report has the file's own name
            inputs.push(file(path, Path::new(path.file_name().unwrap_or(path.as_os_str()))));
        }
    }
    if let Some(list) = list {
        listed(list, &mut inputs)?;
    }
    Ok(inputs)
}

fn file(path: &Path, target: &Path) -> Input {
    Input { name: shown(path), source: Source::File(path.to_path_buf()), target: Some(with_ending(target, "job", "txt")) }
}

fn missing(path: &Path, why: String) -> Input {
    Input { name: shown(path), source: Source::Missing(why), target: None }
}

/// The job files in a folder and below it, in the order of their names; their reports stand in the same folders.
fn folder(top: &Path, inputs: &mut Vec<Input>) {
    let before = inputs.len();
    let mut waiting = vec![top.to_path_buf()];
    while let Some(folder) = waiting.pop() {
        match fs::read_dir(&folder).and_then(Iterator::collect::<Result<Vec<_>, _>>) {
            Ok(entries) => entries.iter().for_each(|entry| found(entry, top, &mut waiting, inputs)),
            Err(why) => inputs.push(missing(&folder, format!("The folder {} could not be read: {why}", shown(&folder)))),
        }
    }
    inputs[before..].sort_by(|one, other| one.name.cmp(&other.name));
    if inputs.len() == before {
        inputs.push(missing(top, format!("In the folder {} there is no file whose name ends in .job.", shown(top))));
    }
}

/// An entry of a folder: another folder, a job file, or nothing of ours. A link is followed to a file, not to a folder, which may lie above.
fn found(entry: &DirEntry, top: &Path, waiting: &mut Vec<PathBuf>, inputs: &mut Vec<Input>) {
    let path = entry.path();
    let kind = entry.file_type();
    if kind.as_ref().is_ok_and(fs::FileType::is_dir) {
        return waiting.push(path);
    }
    let linked = || fs::metadata(&path).map(|there| there.file_type());
    let kind = kind.and_then(|kind| if kind.is_symlink() { linked() } else { Ok(kind) });
    match kind {
        _ if !has_ending(&path, "job") => {}
        Ok(kind) if kind.is_file() => inputs.push(file(&path, path.strip_prefix(top).unwrap_or(&path))),
        Ok(kind) if kind.is_dir() => {}
        Ok(_) => inputs.push(missing(&path, format!("{} could not be read: it is no plain file", shown(&path)))),
        Err(why) => inputs.push(missing(&path, format!("{} could not be read: {why}", shown(&path)))),
    }
}

/// The files of a list, one a line. A report's name is the file's path, so that lists can be cut anyhow and their reports put together.
fn listed(list: &Path, inputs: &mut Vec<Input>) -> Result<(), Failure> {
    let bytes = input::all(list, 1_024)?;
    if bytes.contains(&0) {
        return Err(Failure(format!("{} is no list of files: it has a byte that no name has.", input::name(list))));
    }
    for line in bytes.split(|&byte| byte == b'\n') {
        let line = line.strip_suffix(b"\r").unwrap_or(line);
        if !line.is_empty() {
            inputs.push(listed_file(Path::new(OsStr::from_bytes(line))));
        }
    }
    Ok(())
}

fn listed_file(path: &Path) -> Input {
    let within: PathBuf = path.components().filter(|part| matches!(part, Component::Normal(_))).collect();
    let leads_out = path.components().any(|part| part == Component::ParentDir);
    let input = file(path, &within);
    Input { target: input.target.filter(|_| !leads_out), ..input }
}

/// Where there is a folder of reports: each file has a report in it, and no two have the same.
pub fn apart(inputs: &[Input]) -> Result<(), Failure> {
    let mut seen = HashMap::new();
    for Input { name, source, target } in inputs {
        match target {
            None if matches!(source, Source::Missing(_)) => {}
            None => {
                return Err(Failure(format!("{name} has a '..': with --out a listed file is named from here down, or in full.")));
            }
            Some(target) => {
                if let Some(other) = seen.insert(target, name) {
                    let remedy = "name a file once, and files of one name in a list, with --files-from";
                    return Err(Failure(format!("{other} and {name} would have one report, {}: {remedy}.", shown(target))));
                }
            }
        }
    }
    Ok(())
}
