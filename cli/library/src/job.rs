//! A job under names, and its stream: document 01's "Job files".

use crate::limits::{DROP, HEADER, RECORD};

/// The shared object that a job runs on.
#[derive(Clone, Copy, PartialEq, Eq, Hash, Debug)]
pub enum Kind {
    Queue,
    Stack,
    /// The two-way linked stack.
    Linked,
}

struct Entry {
    kind: Kind,
    number: u8,
    name: &'static str,
    noun: &'static str,
}

const KINDS: [Entry; 3] = [
    Entry { kind: Kind::Queue, number: 1, name: "queue", noun: "queue" },
    Entry { kind: Kind::Stack, number: 2, name: "stack", noun: "stack" },
    Entry { kind: Kind::Linked, number: 3, name: "linked", noun: "linked stack" },
];

impl Kind {
    pub fn all() -> impl Iterator<Item = Kind> {
        KINDS.iter().map(|entry| entry.kind)
    }

    /// Its name in reports and texts.
    pub fn name(self) -> &'static str {
        self.entry().name
    }

    /// Its name in sentences.
    pub fn noun(self) -> &'static str {
        self.entry().noun
    }

    pub fn named(name: &str) -> Option<Kind> {
        Kind::all().find(|kind| kind.name() == name)
    }

    /// Its number in a file.
    pub fn number(self) -> u8 {
        self.entry().number
    }

    pub fn numbered(number: u8) -> Option<Kind> {
        Kind::all().find(|kind| kind.number() == number)
    }

    fn entry(self) -> &'static Entry {
        KINDS.iter().find(|entry| entry.kind == self).expect("every kind has an entry")
    }
}

/// What an operation does: a put of a stage in mm, signed, or a take.
#[derive(Clone, Copy, PartialEq, Eq, Hash, Debug)]
pub enum Action {
    Put(i16),
    Take,
}

#[derive(Clone, Copy, PartialEq, Eq, Hash, Debug)]
pub struct Operation {
    pub process: u8,
    pub action: Action,
}

/// Whose turn a step is: the process makes the next step of its operations, or it drops the operation that it has begun.
#[derive(Clone, Copy, PartialEq, Eq, Hash, Debug)]
pub enum Turn {
    Acts(u8),
    Drops(u8),
}

impl Turn {
    /// What a schedule entry says.
    pub fn of(entry: u8) -> Turn {
        if entry < DROP { Turn::Acts(entry) } else { Turn::Drops(entry - DROP) }
    }

    /// As a schedule entry. A process past all that an entry can name becomes the last of them, which no job has.
    pub fn entry(self) -> u8 {
        match self {
            Turn::Acts(process) => process.min(DROP - 1),
            Turn::Drops(process) => DROP.saturating_add(process),
        }
    }

    pub fn process(self) -> u8 {
        match self {
            Turn::Acts(process) | Turn::Drops(process) => process,
        }
    }
}

/// A job: operation 1 is the first of `operations`, step 1 the first of `schedule`. An entry there is a process, or a [`Turn`] as an entry.
#[derive(Clone, PartialEq, Eq, Hash, Debug)]
pub struct Job {
    pub kind: Kind,
    pub processes: u8,
    pub operations: Vec<Operation>,
    pub schedule: Vec<u8>,
}

impl Operation {
    fn record(&self) -> [u8; RECORD] {
        let (action, value) = match self.action {
            Action::Put(value) => (1, value),
            Action::Take => (2, 0),
        };
        let [high, low] = value.to_be_bytes();
        [self.process, action, high, low]
    }

    fn of_record(&[process, action, high, low]: &[u8; RECORD]) -> Operation {
        let action = if action == 1 { Action::Put(i16::from_be_bytes([high, low])) } else { Action::Take };
        Operation { process, action }
    }
}

impl Job {
    /// The stream of a job, without padding. A count that its field cannot hold is written as the largest, which is refused.
    pub(crate) fn stream(&self) -> Vec<u8> {
        let count = |length: usize| u16::try_from(length).unwrap_or(u16::MAX).to_be_bytes();
        let mut stream = vec![self.kind.number(), self.processes];
        stream.extend(count(self.operations.len()));
        stream.extend(count(self.schedule.len()));
        stream.extend(self.operations.iter().flat_map(Operation::record));
        stream.extend(&self.schedule);
        stream
    }

    /// The job of a stream that the library accepted.
    pub(crate) fn of_stream(stream: &[u8]) -> Job {
        let kind = Kind::numbered(stream[0]).expect("an accepted kind");
        let operations = usize::from(u16::from_be_bytes([stream[2], stream[3]]));
        let (records, schedule) = stream[HEADER..].split_at(RECORD * operations);
        let operations = records.as_chunks().0.iter().map(Operation::of_record).collect();
        Job { kind, processes: stream[1], operations, schedule: schedule.to_vec() }
    }
}
