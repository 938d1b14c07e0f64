//! A report's text taken apart, line by line. Whatever is not a line of docs/FORMAT.md, in its place, is none.

use super::{Action, Effect, Ending, Line, Operation, Run};
use crate::job::Kind;

impl<'a> Run<'a> {
    /// Takes a text apart; none if it is no report.
    pub fn of(text: &'a str) -> Option<Run<'a>> {
        let body = text.strip_suffix('\n')?;
        let mut lines = body.split('\n').peekable();
        let kind = Kind::named(lines.next()?.strip_prefix("object ")?)?;
        let mut run = Run { kind, operations: vec![], record: vec![], lost: None, lost_line: None, left: vec![], left_line: "" };
        while let Some(line) = lines.next_if(|line| line.starts_with("op ")) {
            run.operations.push(Operation::of(line)?);
        }
        while let Some(line) = lines.next_if(|line| line.starts_with("at ")) {
            run.record.push(Line::of(line)?);
        }
        if kind == Kind::Queue {
            let line = lines.next()?;
            (run.lost, run.lost_line) = (Some(lost(line)?), Some(line));
        }
        run.left_line = lines.next()?;
        run.left = left(run.left_line)?;
        lines.next().is_none().then_some(run)
    }
}

/// The words of a line, each taken for what must stand there.
struct Words<'a>(std::str::Split<'a, char>);

impl<'a> Words<'a> {
    fn of(line: &'a str) -> Words<'a> {
        Words(line.split(' '))
    }

    fn next(&mut self) -> Option<&'a str> {
        self.0.next()
    }

    fn is(&mut self, word: &str) -> Option<()> {
        (self.next()? == word).then_some(())
    }

    fn number<T: std::str::FromStr>(&mut self) -> Option<T> {
        self.next()?.parse().ok()
    }

    /// A step, or none where a dash stands.
    fn step(&mut self) -> Option<Option<u16>> {
        match self.next()? {
            "-" => Some(None),
            word => word.parse().ok().map(Some),
        }
    }

    /// All that is left, as numbers.
    fn numbers(self) -> Option<Vec<u16>> {
        self.0.map(|word| word.parse().ok()).collect()
    }

    fn ended(mut self) -> Option<()> {
        self.next().is_none().then_some(())
    }
}

impl<'a> Operation<'a> {
    fn of(line: &'a str) -> Option<Operation<'a>> {
        let mut words = Words::of(line);
        words.is("op")?;
        let number = words.number()?;
        words.is("process")?;
        let process = words.number()?;
        let action = match words.next()? {
            "put" => Action::Put(words.number()?),
            "take" => Action::Take,
            _ => return None,
        };
        words.is("first")?;
        let first = words.step()?;
        words.is("last")?;
        let last = words.step()?;
        let ending = ending(&mut words)?;
        words.ended()?;
        Some(Operation { number, process, action, first, last, ending, line })
    }
}

fn ending(words: &mut Words) -> Option<Ending> {
    Some(match words.next()? {
        "done" => Ending::Done,
        "empty" => Ending::Empty,
        "open" => Ending::Open,
        "dropped" => Ending::Dropped,
        "waiting" => Ending::Waiting,
        "item" => {
            let item = words.number()?;
            words.is("value")?;
            Ending::Item(item, words.number()?)
        }
        _ => return None,
    })
}

impl<'a> Line<'a> {
    fn of(line: &'a str) -> Option<Line<'a>> {
        let mut words = Words::of(line);
        words.is("at")?;
        let at = words.number()?;
        let effect = match words.next()? {
            "put" => {
                let item = words.number()?;
                words.ended()?;
                Effect::Put(item)
            }
            "empty" => {
                words.is("by")?;
                let own = words.number()?;
                words.ended()?;
                Effect::Empty(own)
            }
            "take" => {
                let item = words.number()?;
                words.is("by")?;
                Effect::Take(item, words.numbers()?)
            }
            _ => return None,
        };
        Some(Line { at, effect, line })
    }
}

fn lost(line: &str) -> Option<u16> {
    let mut words = Words::of(line);
    words.is("lost")?;
    let count = words.number()?;
    words.ended()?;
    Some(count)
}

fn left(line: &str) -> Option<Vec<u16>> {
    let mut words = Words::of(line);
    words.is("left")?;
    let count: usize = words.number()?;
    let items = words.numbers()?;
    (items.len() == count).then_some(items)
}
