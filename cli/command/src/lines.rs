//! A text of lines, each one statement: what a job's text and a text of windows have in common. Every wrong line is told, with what was found
//! and what is allowed.

use crate::names::excerpt;
use crate::status::Failure;
use crate::words::{counted, grouped};
use std::fmt;
use std::iter::Peekable;
use std::ops::RangeInclusive;

/// How many wrong lines are told.
const TOLD: usize = 20;
/// In a printed text, comments stand behind this column.
const COLUMN: usize = 16;

/// What is wrong in a line.
#[derive(Clone, PartialEq, Eq, Debug)]
pub struct Fault {
    /// From 1; the last line where the text ends too soon.
    pub line: usize,
    pub wrong: Wrong,
}

#[derive(Clone, PartialEq, Eq, Debug)]
pub struct Wrong {
    pub found: String,
    pub allowed: String,
}

impl Wrong {
    pub fn new(found: impl Into<String>, allowed: impl Into<String>) -> Wrong {
        Wrong { found: found.into(), allowed: allowed.into() }
    }

    /// Of a text that ends without something.
    pub fn missing(what: &str, allowed: impl Into<String>) -> Wrong {
        Wrong::new(format!("the end of the text, and no {what}"), allowed)
    }
}

impl fmt::Display for Wrong {
    fn fmt(&self, f: &mut fmt::Formatter) -> fmt::Result {
        write!(f, "found {}; allowed: {}", self.found, self.allowed)
    }
}

/// What the lines so far say.
pub trait Draft: Default {
    type Whole;

    /// Takes a statement: its first word, and the words behind it.
    fn take(&mut self, word: &str, words: &mut Words) -> Result<(), Wrong>;

    /// What all lines say together, or what is missing.
    fn whole(self) -> Result<Self::Whole, Wrong>;
}

/// What a text says, or all its wrong lines.
pub fn read<D: Draft>(text: &str) -> Result<D::Whole, Vec<Fault>> {
    let mut draft = D::default();
    let mut faults = vec![];
    let mut line = 1;
    // some editors begin a text with a mark
    for (statement, number) in text.strip_prefix('\u{feff}').unwrap_or(text).lines().zip(1..) {
        line = number;
        if let Err(wrong) = taken(&mut draft, statement) {
            faults.push(Fault { line, wrong });
        }
    }
    // what is missing is told only where nothing else is wrong
    match draft.whole() {
        Ok(whole) if faults.is_empty() => Ok(whole),
        Err(wrong) if faults.is_empty() => Err(vec![Fault { line, wrong }]),
        _ => Err(faults),
    }
}

fn taken(draft: &mut impl Draft, line: &str) -> Result<(), Wrong> {
    let statement = line.split('#').next().unwrap_or_default();
    let words: Vec<&str> = statement.split([' ', '\t']).filter(|word| !word.is_empty()).collect();
    let mut words = Words { rest: words.into_iter().peekable() };
    let Some(word) = words.rest.next() else { return Ok(()) };
    draft.take(word, &mut words)?;
    words.end()
}

/// The words of a statement, each taken for what must stand there.
pub struct Words<'a> {
    rest: Peekable<std::vec::IntoIter<&'a str>>,
}

impl<'a> Words<'a> {
    /// The next word, or what is wrong without one.
    pub fn word(&mut self, allowed: &str) -> Result<&'a str, Wrong> {
        self.rest.next().ok_or_else(|| Wrong::new("the end of the line", allowed))
    }

    /// The next word, as what it says; or what is wrong.
    pub fn read<T>(&mut self, allowed: &str, read: impl FnOnce(&str) -> Option<T>) -> Result<T, Wrong> {
        let word = self.word(allowed)?;
        read(word).ok_or_else(|| Wrong::new(quoted(word), allowed))
    }

    /// A number in decimal digits, with a sign only where it may be negative.
    pub fn number(&mut self, what: &str, range: RangeInclusive<i64>) -> Result<i64, Wrong> {
        let (least, most) = (signed(*range.start()), signed(*range.end()));
        let allowed = if least == most { format!("{what}, {least}") } else { format!("{what}, {least} to {most}") };
        self.read(&allowed, |word| {
            let digits = word.strip_prefix('-').filter(|_| *range.start() < 0).unwrap_or(word);
            let plain = digits.bytes().all(|byte| byte.is_ascii_digit());
            word.parse().ok().filter(|number| plain && range.contains(number))
        })
    }

    /// Whether this word comes next; if so, it is taken.
    pub fn next_is(&mut self, word: &str) -> bool {
        self.next_if(|next| next == word).is_some()
    }

    /// The next word, if it is such a one.
    pub fn next_if(&mut self, is: impl FnOnce(&str) -> bool) -> Option<&'a str> {
        self.rest.next_if(|next| is(next))
    }

    pub fn is_over(&mut self) -> bool {
        self.rest.peek().is_none()
    }

    fn end(&mut self) -> Result<(), Wrong> {
        self.rest.next().map_or(Ok(()), |word| Err(Wrong::new(quoted(word), "the end of the line, or # and a comment")))
    }
}

/// A word as messages have it; a dash that only looks like that of a keyboard is named.
pub fn quoted(word: &str) -> String {
    let dash = ['\u{2010}', '\u{2011}', '\u{2012}', '\u{2013}', '\u{2014}', '\u{2212}'];
    let quoted = format!("'{}'", excerpt(word));
    if word.starts_with(dash) {
        quoted + ", which does not begin with the - of a keyboard"
    } else if word.contains(dash) {
        quoted + ", whose dash is not the - of a keyboard"
    } else {
        quoted
    }
}

fn signed(number: i64) -> String {
    let sign = if number < 0 { "-" } else { "" };
    format!("{sign}{}", grouped(number.unsigned_abs() as usize))
}

/// The wrong lines, each with what was found, what is allowed, and the line.
pub fn told(name: &str, source: &str, faults: &[Fault]) -> Failure {
    let mut lines = vec![];
    for fault in faults.iter().take(TOLD) {
        lines.push(format!("{name}:{}: {}", fault.line, fault.wrong));
        if let Some(line) = source.lines().nth(fault.line - 1) {
            lines.push(format!("    {}", excerpt(line.trim())));
        }
    }
    if faults.len() > TOLD {
        lines.push(format!("and {} more", counted(faults.len() - TOLD, "line", "lines")));
    }
    Failure(lines.join("\n"))
}

/// A printed line with a comment.
pub fn commented(line: &str, comment: &str) -> String {
    format!("{line:COLUMN$}  # {comment}\n")
}
