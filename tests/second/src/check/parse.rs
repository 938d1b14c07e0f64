//! A report taken apart, line by line, as documents 01 and 02 lay it out.

use std::str::SplitWhitespace;

#[derive(PartialEq, Eq, Debug)]
pub enum Ending {
    Done,
    Item(u16, i32),
    Empty,
    Open,
    Dropped,
    Waiting,
}

#[derive(Debug)]
pub struct Operation {
    pub number: u16,
    pub process: u8,
    /// The centimetres of a put; none for a take.
    pub put: Option<i32>,
    pub first: Option<u16>,
    pub last: Option<u16>,
    pub ending: Ending,
}

#[derive(Debug)]
pub enum Effect {
    Put(u16),
    Take(u16, Vec<u16>),
    Empty(u16),
}

pub struct Line {
    pub at: u16,
    pub effect: Effect,
}

pub struct Report {
    pub object: String,
    pub operations: Vec<Operation>,
    pub lines: Vec<Line>,
    /// The count of the lost line, if there is one.
    pub lost: Option<u16>,
    pub left: Vec<u16>,
}

impl Report {
    pub fn of(bytes: &[u8]) -> Result<Report, String> {
        let text = std::str::from_utf8(bytes).map_err(|_| "the report is no text")?;
        let body = text.strip_suffix('\n').ok_or("the report does not end in a newline")?;
        let mut lines = body.split('\n');
        let object = lines.next().and_then(|line| line.strip_prefix("object ")).ok_or("no object line")?;
        let mut report = Report { object: object.to_string(), operations: vec![], lines: vec![], lost: None, left: vec![] };
        let mut ended = false;
        for line in lines {
            if ended {
                return Err(format!("a line after left: {line}"));
            }
            ended = report.add(line).ok_or_else(|| format!("cannot be read: {line}"))?;
        }
        if ended { Ok(report) } else { Err("no left line".to_string()) }
    }

    /// Adds one line; gives whether it is the last. Behind a lost line there is only the left line.
    fn add(&mut self, line: &str) -> Option<bool> {
        let mut words = line.split_whitespace();
        match words.next()? {
            "op" if self.lines.is_empty() && self.lost.is_none() => self.operations.push(operation(&mut words)?),
            "at" if self.lost.is_none() => self.lines.push(record_line(&mut words)?),
            "lost" if self.lost.is_none() => {
                self.lost = Some(lost_line(line)?);
                return Some(false);
            }
            "left" => {
                let count: usize = words.next()?.parse().ok()?;
                self.left = numbers(&mut words)?;
                return (self.left.len() == count).then_some(true);
            }
            _ => return None,
        }
        words.next().is_none().then_some(false)
    }
}

/// A count has but one lost line: no leading zero, no `+`, no more spaces.
fn lost_line(line: &str) -> Option<u16> {
    let count = line.strip_prefix("lost ")?.parse().ok()?;
    (line == format!("lost {count}")).then_some(count)
}

fn number(words: &mut SplitWhitespace) -> Option<u16> {
    words.next()?.parse().ok()
}

/// A value in whole cm: it must be the one text of its number, so no `-0`, no `+` and no leading zero.
fn value(words: &mut SplitWhitespace) -> Option<i32> {
    let word = words.next()?;
    let value: i32 = word.parse().ok()?;
    (value.to_string() == word).then_some(value)
}

fn numbers(words: &mut SplitWhitespace) -> Option<Vec<u16>> {
    words.map(|word| word.parse().ok()).collect()
}

fn expect(words: &mut SplitWhitespace, word: &str) -> Option<()> {
    (words.next()? == word).then_some(())
}

/// A step number, or none where a dash stands.
fn step(words: &mut SplitWhitespace) -> Option<Option<u16>> {
    match words.next()? {
        "-" => Some(None),
        word => word.parse().ok().map(Some),
    }
}

fn operation(words: &mut SplitWhitespace) -> Option<Operation> {
    let own = number(words)?;
    expect(words, "process")?;
    let process = number(words)? as u8;
    let put = match words.next()? {
        "put" => Some(value(words)?),
        "take" => None,
        _ => return None,
    };
    expect(words, "first")?;
    let first = step(words)?;
    expect(words, "last")?;
    let last = step(words)?;
    let ending = ending(words)?;
    Some(Operation { number: own, process, put, first, last, ending })
}

fn ending(words: &mut SplitWhitespace) -> Option<Ending> {
    Some(match words.next()? {
        "done" => Ending::Done,
        "empty" => Ending::Empty,
        "open" => Ending::Open,
        "dropped" => Ending::Dropped,
        "waiting" => Ending::Waiting,
        "item" => {
            let item = number(words)?;
            expect(words, "value")?;
            Ending::Item(item, value(words)?)
        }
        _ => return None,
    })
}

fn record_line(words: &mut SplitWhitespace) -> Option<Line> {
    let at = number(words)?;
    let effect = match words.next()? {
        "put" => Effect::Put(number(words)?),
        "empty" => {
            expect(words, "by")?;
            Effect::Empty(number(words)?)
        }
        "take" => {
            let item = number(words)?;
            expect(words, "by")?;
            Effect::Take(item, numbers(words)?)
        }
        _ => return None,
    };
    Some(Line { at, effect })
}
