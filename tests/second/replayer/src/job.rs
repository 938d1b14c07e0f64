//! A job as its stream holds it: header, records, schedule. Reading one here is also the check of conditions 5 to 8, 10 and 11.

pub const PROCESSES: usize = 8;
pub const OPERATIONS: usize = 256;
pub const STEPS: usize = 16_384;
pub const HEADER: usize = 6;
pub const RECORD: usize = 4;
/// What an entry of the schedule has on top of its process if it is a drop.
pub const DROP: u8 = 128;

/// The number of a refusal, as the table of document 01 gives it.
pub type Refusal = u32;

#[derive(Clone, Copy, PartialEq, Eq, Debug)]
pub enum Kind {
    Queue,
    Stack,
    Linked,
}

#[derive(Clone, Copy, PartialEq, Eq, Debug)]
pub enum Action {
    Put,
    Take,
}

/// One record of the stream: process, action, value (two bytes).
pub type Record = [u8; RECORD];

pub fn process(record: &Record) -> u8 {
    record[0]
}

pub fn action(record: &Record) -> Action {
    if record[1] == 1 { Action::Put } else { Action::Take }
}

/// In mm: signed, in two's complement.
pub fn value(record: &Record) -> i32 {
    i32::from(i16::from_be_bytes([record[2], record[3]]))
}

/// What an entry of the schedule has its process do: act, or drop the operation that it has begun.
#[derive(Clone, Copy, PartialEq, Eq, Debug)]
pub enum Slot {
    Acts(u8),
    Drops(u8),
}

pub fn slot(entry: u8) -> Slot {
    if entry < DROP { Slot::Acts(entry) } else { Slot::Drops(entry - DROP) }
}

impl Slot {
    pub fn process(self) -> u8 {
        match self {
            Slot::Acts(process) | Slot::Drops(process) => process,
        }
    }
}

/// The first six bytes, all in range.
#[derive(Clone, Copy)]
pub struct Header {
    pub kind: Kind,
    pub processes: u8,
    pub operations: usize,
    pub steps: usize,
}

impl Header {
    /// Conditions 5 to 8. `stream` has at least six bytes.
    pub fn of(stream: &[u8]) -> Result<Header, Refusal> {
        let kind = match stream[0] {
            1 => Kind::Queue,
            2 => Kind::Stack,
            3 => Kind::Linked,
            _ => return Err(5),
        };
        let processes = stream[1];
        if !(1..=PROCESSES).contains(&usize::from(processes)) {
            return Err(6);
        }
        let operations = usize::from(u16::from_be_bytes([stream[2], stream[3]]));
        if !(1..=OPERATIONS).contains(&operations) {
            return Err(7);
        }
        let steps = usize::from(u16::from_be_bytes([stream[4], stream[5]]));
        if steps > STEPS {
            return Err(8);
        }
        Ok(Header { kind, processes, operations, steps })
    }

    /// The stream's length without padding: L of document 01.
    pub fn length(&self) -> usize {
        HEADER + RECORD * self.operations + self.steps
    }
}

/// An accepted job, lent from its stream.
#[derive(Clone, Copy)]
pub struct Job<'a> {
    pub kind: Kind,
    pub processes: u8,
    pub records: &'a [Record],
    pub schedule: &'a [u8],
}

impl<'a> Job<'a> {
    /// Conditions 10 and 11. `stream` has at least the header's length.
    pub fn of(header: Header, stream: &'a [u8]) -> Result<Job<'a>, Refusal> {
        let (records, schedule) = stream[HEADER..header.length()].split_at(RECORD * header.operations);
        let (records, _) = records.as_chunks();
        if records.iter().any(|record| !in_range(record, header.processes)) {
            return Err(10);
        }
        if schedule.iter().any(|&entry| slot(entry).process() >= header.processes) {
            return Err(11);
        }
        Ok(Job { kind: header.kind, processes: header.processes, records, schedule })
    }

    /// The job that a whole stream without padding holds.
    pub fn of_stream(stream: &'a [u8]) -> Result<Job<'a>, Refusal> {
        Job::of(Header::of(stream)?, stream)
    }
}

fn in_range(record: &Record, processes: u8) -> bool {
    let value_fits = record[1] == 1 || (record[1] == 2 && value(record) == 0);
    process(record) < processes && value_fits
}
