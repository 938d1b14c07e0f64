//! A job's text read: docs/TEXT.md.

use crate::lines::{self, Fault, Words, Wrong, quoted};
use crate::words::{either, grouped};
use pigwazet::limits::{OPERATIONS, PROCESSES, STEPS};
use pigwazet::{Action, Job, Kind, Operation, Turn};

/// The job of a text, or all its wrong lines.
pub fn job(text: &str) -> Result<Job, Vec<Fault>> {
    lines::read::<Draft>(text)
}

#[derive(Default)]
struct Draft {
    kind: Option<Kind>,
    processes: Option<u8>,
    operations: Vec<Operation>,
    schedule: Vec<u8>,
}

impl lines::Draft for Draft {
    type Whole = Job;

    fn take(&mut self, word: &str, words: &mut Words) -> Result<(), Wrong> {
        match word {
            "processes" => self.take_processes(words),
            "put" | "take" => self.take_operation(word, words),
            "order" => self.take_order(words),
            _ => self.take_object(word),
        }
    }

    fn whole(self) -> Result<Job, Wrong> {
        let objects = || format!("a line {}", either(&kinds().collect::<Vec<_>>()));
        let kind = self.kind.ok_or_else(|| Wrong::missing("object", objects()))?;
        let processes = self.processes.ok_or_else(|| Wrong::missing("line of processes", "'processes' and how many"))?;
        if self.operations.is_empty() {
            return Err(Wrong::missing("operation", format!("1 to {OPERATIONS} lines that begin with put or take")));
        }
        Ok(Job { kind, processes, operations: self.operations, schedule: self.schedule })
    }
}

impl Draft {
    fn take_object(&mut self, word: &str) -> Result<(), Wrong> {
        let other = || {
            let words: Vec<String> = kinds().chain(["processes", "put", "take", "order"].map(String::from)).collect();
            Wrong::new(quoted(word), format!("a line that begins with {}", either(&words)))
        };
        let kind = Kind::named(word).ok_or_else(other)?;
        match self.kind.replace(kind) {
            None => Ok(()),
            Some(_) => Err(Wrong::new(format!("a second object, {}", quoted(word)), "one object")),
        }
    }

    fn take_processes(&mut self, words: &mut Words) -> Result<(), Wrong> {
        let again = self.processes.is_some();
        // lines behind a wrong number are not wrong for it
        self.processes = Some(PROCESSES as u8);
        if again {
            return Err(Wrong::new("a second line of processes", "one"));
        }
        self.processes = Some(words.number("how many processes", 1..=PROCESSES as i64)? as u8);
        Ok(())
    }

    fn take_operation(&mut self, word: &str, words: &mut Words) -> Result<(), Wrong> {
        let process = self.process(words, "")?;
        let action = if word == "put" {
            Action::Put(words.number("a stage in mm", i64::from(i16::MIN)..=i64::from(i16::MAX))? as i16)
        } else {
            Action::Take
        };
        if self.operations.len() == OPERATIONS {
            return Err(Wrong::new("one operation more", format!("at most {OPERATIONS} operations")));
        }
        self.operations.push(Operation { process, action });
        Ok(())
    }

    /// Turns, each alone or with `x` and how often.
    fn take_order(&mut self, words: &mut Words) -> Result<(), Wrong> {
        let mut alone = false;
        loop {
            let turn = self.turn(words, if alone { ", or drop and one, or x and how often" } else { ", or drop and one" })?;
            alone = !words.next_is("x");
            let count = if alone { 1 } else { words.number("how often", 1..=STEPS as i64)? as usize };
            if self.schedule.len() + count > STEPS {
                let found = format!("step {}", grouped(self.schedule.len() + count));
                return Err(Wrong::new(found, format!("at most {} steps in all orders together", grouped(STEPS))));
            }
            self.schedule.extend(std::iter::repeat_n(turn.entry(), count));
            if words.is_over() {
                return Ok(());
            }
        }
    }

    /// A process, or `drop` and one.
    fn turn(&mut self, words: &mut Words, more: &str) -> Result<Turn, Wrong> {
        if words.next_is("drop") { self.process(words, "").map(Turn::Drops) } else { self.process(words, more).map(Turn::Acts) }
    }

    /// A process of the job; `more` is what else may stand there.
    fn process(&mut self, words: &mut Words, more: &str) -> Result<u8, Wrong> {
        let Some(processes) = self.processes else {
            self.processes = Some(PROCESSES as u8);
            return Err(Wrong::new("no line of processes yet", "'processes' and how many, before the operations and orders"));
        };
        let process = words.number("a process", 0..=i64::from(processes) - 1);
        process.map(|process| process as u8).map_err(|Wrong { found, allowed }| Wrong { found, allowed: allowed + more })
    }
}

fn kinds() -> impl Iterator<Item = String> {
    Kind::all().map(|kind| kind.name().to_string())
}
