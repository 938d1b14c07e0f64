//! `bench picture`: the run as one page, made from the report; when an operation was dropped, the job tells, and what was shut, the windows.

pub mod model;

use crate::names::shown;
use crate::status::{Failure, Status, say};
use crate::turns::Turns;
use crate::{input, output};
use pigwazet::report::Run;
use std::path::Path;

const PAGE: &str = include_str!("picture/page.html");
const STYLE: &str = include_str!("picture/style.css");
const SCRIPT: [&str; 8] = [
    include_str!("picture/script/page.js"),
    include_str!("picture/script/run.js"),
    include_str!("picture/script/shapes.js"),
    include_str!("picture/script/zoom.js"),
    include_str!("picture/script/pick.js"),
    include_str!("picture/script/pointer.js"),
    include_str!("picture/script/words.js"),
    include_str!("picture/script/start.js"),
];

pub fn run(path: &Path, windows: Option<&Path>, out: Option<&Path>) -> Result<Status, Failure> {
    let Some((turns, report)) = input::accepted(path, windows, input::replayed)? else { return Ok(Status::Refused) };
    let name = path.file_name().map_or("-".into(), |name| name.to_string_lossy());
    let page = page(&name, &turns, &report.run());
    let remedy = "name the page with --out to replace it";
    if let Some(made) = output::made((path, out), ["job", "html"], page.as_bytes(), is_picture, remedy)? {
        say(&format!("{}: open it in a browser", shown(&made)));
    }
    Ok(Status::Fine)
}

/// A page begins with the first line of the template, which names the bench.
fn is_picture(bytes: &[u8]) -> bool {
    bytes.is_empty() || bytes.starts_with(PAGE.lines().next().unwrap_or_default().as_bytes())
}

/// The whole page of a run: the template with its holes filled. What is filled in is not looked through again.
pub fn page(name: &str, turns: &Turns, run: &Run) -> String {
    let mut page = String::new();
    for part in PAGE.split("{{") {
        let (hole, rest) = part.split_once("}}").unwrap_or(("", part));
        page += &filling(hole, name, turns, run);
        page += rest;
    }
    page
}

fn filling(hole: &str, name: &str, turns: &Turns, run: &Run) -> String {
    match hole {
        "title" => escaped(name),
        "style" => STYLE.to_string(),
        "script" => SCRIPT.concat(),
        "run" => model::json(name, turns, run),
        _ => String::new(),
    }
}

fn escaped(text: &str) -> String {
    text.replace('&', "&amp;").replace('<', "&lt;").replace('>', "&gt;").replace('"', "&quot;")
}
