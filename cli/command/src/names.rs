//! Names of files: as messages and summaries have them, and with another ending.

use std::os::unix::ffi::OsStrExt;
use std::path::{Path, PathBuf};

/// A name in one line, whatever a file is called, and another one for each other name: what a terminal would not print, and `\`, is escaped.
pub fn shown(path: &Path) -> String {
    let mut text = String::new();
    for chunk in path.as_os_str().as_bytes().utf8_chunks() {
        chunk.valid().chars().for_each(|char| text += &printed(char, true));
        chunk.invalid().iter().for_each(|byte| text += &format!("\\x{byte:02x}"));
    }
    text
}

/// Words of a text as messages have them: in one line, and not longer than a line.
pub fn excerpt(text: &str) -> String {
    const MOST: usize = 60;
    let mut chars = text.chars();
    let start: String = chars.by_ref().take(MOST).map(|char| printed(char, false)).collect();
    if chars.next().is_some() { start + " …" } else { start }
}

fn printed(char: char, exact: bool) -> String {
    if char.is_control() || (exact && char == '\\') { char.escape_default().to_string() } else { char.to_string() }
}

/// `hour.job` with the ending `txt` in place of `job` is `hour.txt`; a name with another ending keeps it, so `hour.001` is `hour.001.txt`.
pub fn with_ending(path: &Path, old: &str, new: &str) -> PathBuf {
    if has_ending(path, old) {
        return path.with_extension(new);
    }
    let mut name = path.as_os_str().to_owned();
    name.push(".");
    name.push(new);
    PathBuf::from(name)
}

/// Cards have names in capitals too.
pub fn has_ending(path: &Path, ending: &str) -> bool {
    path.extension().is_some_and(|extension| extension.eq_ignore_ascii_case(ending))
}

#[cfg(test)]
mod tests {
    use super::*;
    use std::ffi::OsStr;

    #[test]
    fn names_are_shown_in_one_line_and_apart() {
        let names: [&[u8]; 5] = [b"a b.job", "caf\u{e9}.job".as_bytes(), b"caf\xe9.job", b"x\ny", b"x\\ny"];
        let shown = names.map(|name| shown(Path::new(OsStr::from_bytes(name))));
        assert_eq!(shown, ["a b.job", "caf\u{e9}.job", "caf\\xe9.job", "x\\ny", "x\\\\ny"]);
    }

    #[test]
    fn only_a_known_ending_is_replaced() {
        let ending = |name: &str| with_ending(Path::new(name), "job", "txt").display().to_string();
        assert_eq!(
            ["hour.job", "HOUR.JOB", "hour.001", "hour"].map(ending),
            ["hour.txt", "HOUR.txt", "hour.001.txt", "hour.txt"]
        );
    }

    #[test]
    fn long_words_are_cut() {
        assert_eq!(excerpt("put\t0"), "put\\t0");
        assert_eq!(excerpt(&"a".repeat(61)), "a".repeat(60) + " …");
    }
}
