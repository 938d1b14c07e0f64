//! The one form in which windows are printed as text.

use super::words::{start, weekday, window};
use crate::lines::commented;
use crate::words::list;
use pigwazet::{Window, Windows};

pub fn windows(windows: &Windows) -> String {
    let mut text = commented(&format!("start {}", start(&windows.start)), &format!("a {}", weekday(&windows.start)));
    text.push('\n');
    let mut shut = vec![];
    for (process, own) in windows.entries.iter().enumerate() {
        let line = format!("process {process} {}", window(*own));
        match own {
            &Window::SHUT => shut.push(process.to_string()),
            own if own.is_shut() => text += &commented(&line, "shut"),
            _ => text += &format!("{line}\n"),
        }
    }
    match &shut[..] {
        [] => {}
        [one] => text += &format!("# shut: process {one}\n"),
        all => text += &format!("# shut: processes {}\n", list(all)),
    }
    text
}
