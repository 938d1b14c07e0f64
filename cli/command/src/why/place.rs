//! Where a refusal was decided, what stands there, and what to do: for each number the first place that meets its condition.

use super::blocks::{Wrong, first_wrong};
use crate::input::{MOST, looks_like_text};
use crate::words::{counted, grouped};
use pigwazet::block::{held, sums};
use pigwazet::limits::{BLOCK, FILE, HEADER, OPERATIONS, PAYLOAD, PROCESSES, RECORD, STEPS};
use pigwazet::{Kind, Refusal, Turn};

/// The part of a job file that decided.
#[derive(Clone, Copy, PartialEq, Eq, PartialOrd, Ord, Debug)]
pub enum Place {
    /// The file as a whole.
    File,
    /// A block, from 0.
    Block(usize),
    /// A field of the header, by its byte in the stream.
    Header(usize),
    /// A field of an operation's record, by its byte in the record.
    Record { operation: usize, field: usize },
    /// The schedule's entry for a step.
    Entry { step: usize, byte: usize },
    /// A byte behind the stream, by its place in the payloads.
    Padding(usize),
}

/// The place, what stands there, what to do; each without a full stop.
pub struct Decided {
    pub place: Place,
    pub found: String,
    pub remedy: String,
}

impl Place {
    /// Its byte in the payloads, where it is one byte or field.
    pub fn in_stream(self) -> Option<usize> {
        match self {
            Place::File | Place::Block(_) => None,
            Place::Header(byte) | Place::Entry { byte, .. } | Place::Padding(byte) => Some(byte),
            Place::Record { operation, field } => Some(HEADER + RECORD * (operation - 1) + field),
        }
    }

    /// The place in words.
    pub fn told(self, file: &[u8]) -> String {
        let at = self.in_stream().map_or(String::new(), byte_told);
        match self {
            Place::File => "the file as a whole".to_string(),
            Place::Block(block) => {
                let (from, to) = (grouped(block * BLOCK), grouped((block + 1) * BLOCK - 1));
                format!("block {block} of {}, counted from 0: bytes {from} to {to} of the file", file.len() / BLOCK)
            }
            Place::Header(byte) => format!("the header's {}, at {at}", HEADER_FIELDS[byte]),
            Place::Record { operation, field } => format!("operation {operation}, its {}, at {at}", RECORD_FIELDS[field]),
            Place::Entry { step, .. } => format!("the schedule's entry for step {}, at {at}", grouped(step)),
            Place::Padding(_) => format!("the first byte behind the stream that is not zero, {at}"),
        }
    }
}

const HEADER_FIELDS: [&str; HEADER] =
    ["kind", "number of processes", "number of operations", "number of operations", "number of steps", "number of steps"];
const RECORD_FIELDS: [&str; RECORD] = ["process", "action", "value", "value"];

/// A byte of the payloads as a byte of the file.
fn byte_told(byte: usize) -> String {
    let (block, within) = (byte / PAYLOAD, 2 + byte % PAYLOAD);
    format!("byte {} of the file (block {block}, byte {within})", grouped(block * BLOCK + within))
}

pub fn word(bytes: &[u8], at: usize) -> u16 {
    u16::from_be_bytes([bytes[at], bytes[at + 1]])
}

/// What the payloads of a file's leading right blocks say, as far as the conditions before the one that decided let it be read.
struct Stream(Vec<u8>);

impl Stream {
    fn of(file: &[u8]) -> Stream {
        let blocks = file.as_chunks::<BLOCK>().0.iter().take(first_wrong(file).0);
        Stream(blocks.flat_map(|block| &block[2..2 + PAYLOAD]).copied().collect())
    }

    fn processes(&self) -> u8 {
        self.0[1]
    }

    fn operations(&self) -> usize {
        usize::from(word(&self.0, 2))
    }

    fn steps(&self) -> usize {
        usize::from(word(&self.0, 4))
    }

    fn schedule(&self) -> usize {
        HEADER + RECORD * self.operations()
    }

    fn length(&self) -> usize {
        self.schedule() + self.steps()
    }
}

/// What decided a refusal of this file.
pub fn decided(file: &[u8], refusal: Refusal) -> Decided {
    let found = match refusal.number() {
        2 | 3 | 14 if is_text(file) => Some(text(file)),
        2 => Some(length(file)),
        3 | 4 => block(file),
        5 if pigwazet::read_windows(file).is_ok() => Some(windows()),
        5..=8 => Some(header(&Stream::of(file), refusal.number())),
        9 => Some(count(file)),
        10 => record(&Stream::of(file)),
        11 => entry(&Stream::of(file)),
        12 => padding(&Stream::of(file)),
        14 => Some(not_whole(file)),
        _ => None,
    };
    found.unwrap_or_else(|| Decided {
        place: Place::File,
        found: "something that this command does not find".to_string(),
        remedy: "keep the file and tell the makers of the bench".to_string(),
    })
}

/// The length of a file, of which only so much is read.
pub fn bytes(file: &[u8]) -> String {
    let most = if file.len() as u64 == MOST { " or more" } else { "" };
    format!("{}{most}", counted(file.len(), "byte", "bytes"))
}

pub fn is_text(file: &[u8]) -> bool {
    !file.is_empty() && looks_like_text(file)
}

fn text(file: &[u8]) -> Decided {
    let remedy = "if it is a job written as text, make its job file with `bench make`".to_string();
    Decided { place: Place::File, found: format!("{} of plain text, which no job file is", bytes(file)), remedy }
}

fn windows() -> Decided {
    let remedy = "name it behind --windows, beside a job file".to_string();
    Decided { place: Place::File, found: "a window block, which no job file is".to_string(), remedy }
}

fn length(file: &[u8]) -> Decided {
    let bytes = bytes(file);
    let (blocks, rest) = (file.len() / BLOCK, file.len() % BLOCK);
    let (found, remedy) = if file.is_empty() {
        ("nothing: the file is empty".to_string(), "copy the card again".to_string())
    } else if file.len() > FILE {
        (bytes, format!("a job file has at most {} bytes: this is none, or several in one", grouped(FILE)))
    } else {
        let found = format!("{bytes}: {} and {}", counted(blocks, "block", "blocks"), counted(rest, "byte", "bytes"));
        (found, format!("a job file is whole blocks of {BLOCK} bytes: copy the card again, it was cut or is no job"))
    };
    Decided { place: Place::File, found, remedy }
}

/// The first block that is wrong within.
fn block(file: &[u8]) -> Option<Decided> {
    let (position, wrong) = first_wrong(file);
    let (found, remedy) = match wrong {
        Wrong::Sum => (sums_told(file.as_chunks().0.get(position)?), "read the card again; if it stays so, the block is lost"),
        Wrong::Number(number) => {
            let found = format!("the number {}, where {position} belongs", grouped(usize::from(number)));
            (found, "put the blocks into the order of their numbers; one that is not there is lost")
        }
        Wrong::Missing | Wrong::Part(_) => return None,
    };
    Some(Decided { place: Place::Block(position), found, remedy: remedy.to_string() })
}

/// Sums that are not those of their block.
pub fn sums_told(block: &[u8; BLOCK]) -> String {
    let ((a, b), (right_a, right_b)) = (held(block), sums(block));
    format!("the sums {a:04x} and {b:04x}; the block's bytes give {right_a:04x} and {right_b:04x}")
}

/// The block without which header and records are not whole.
fn not_whole(file: &[u8]) -> Decided {
    let (right, wrong) = first_wrong(file);
    let (place, found) = block(file).map_or_else(|| (Place::File, ended(file)), |decided| (decided.place, decided.found));
    let again = match wrong {
        Wrong::Number(_) => "put the blocks into the order of their numbers, or read the card again",
        _ => "read the card again",
    };
    let needed = if right == 0 {
        "block 0, which has the header".to_string()
    } else {
        let stream = Stream::of(file);
        let last = (stream.schedule() - 1) / PAYLOAD;
        format!("blocks 0 to {last}, which have the {}", counted(stream.operations(), "operation", "operations"))
    };
    Decided { place, found, remedy: format!("{again}: without {needed}, nothing of it can be salvaged") }
}

/// What a file has that ends too soon.
fn ended(file: &[u8]) -> String {
    let blocks = counted(file.len() / BLOCK, "block", "blocks");
    match file.len() % BLOCK {
        0 if file.is_empty() => "nothing: the file is empty".to_string(),
        0 => format!("{blocks}, where the file ends"),
        rest => format!("{blocks} and {}, where the file ends", counted(rest, "byte", "bytes")),
    }
}

fn header(stream: &Stream, number: u32) -> Decided {
    let kinds: Vec<String> = Kind::all().map(|kind| format!("{} for a {}", kind.number(), kind.noun())).collect();
    let (field, found, remedy) = match number {
        5 => (0, usize::from(stream.0[0]), format!("the kind is {}", kinds.join(", "))),
        6 => (1, usize::from(stream.processes()), format!("a job has 1 to {PROCESSES} processes")),
        7 => (2, stream.operations(), format!("a job has 1 to {OPERATIONS} operations: split a longer hour")),
        _ => (4, stream.steps(), format!("a job has at most {} steps: split the hour", grouped(STEPS))),
    };
    Decided { place: Place::Header(field), found: grouped(found), remedy }
}

fn count(file: &[u8]) -> Decided {
    let stream = Stream::of(file);
    let (has, needs) = (file.len() / BLOCK, stream.length().div_ceil(PAYLOAD));
    let asks =
        format!("{} and {}", counted(stream.operations(), "operation", "operations"), counted(stream.steps(), "step", "steps"));
    let found = format!("{} in the file; the header's {asks} need exactly {needs}", counted(has, "block", "blocks"));
    let remedy = if has < needs { "find the missing end of the file" } else { "take off what stands behind the job" };
    Decided { place: Place::File, found, remedy: format!("{remedy}, or mend the header") }
}

fn record(stream: &Stream) -> Option<Decided> {
    let processes = stream.processes();
    let records = stream.0[HEADER..stream.schedule()].as_chunks::<RECORD>().0;
    let faulty = |&[process, action, high, low]: &[u8; RECORD]| {
        if process >= processes {
            Some((0, format!("process {process}"), format!("the job's processes are 0 to {}", processes - 1)))
        } else if action != 1 && action != 2 {
            Some((1, format!("action {action}"), "an action is 1, a put, or 2, a take".to_string()))
        } else if action == 2 && (high, low) != (0, 0) {
            let value = i16::from_be_bytes([high, low]);
            Some((2, format!("a take with the value {value}"), "a take has the value 0".to_string()))
        } else {
            None
        }
    };
    let (operation, (field, found, remedy)) = (1..).zip(records).find_map(|(number, record)| Some((number, faulty(record)?)))?;
    Some(Decided { place: Place::Record { operation, field }, found, remedy })
}

fn entry(stream: &Stream) -> Option<Decided> {
    let processes = stream.processes();
    // of a salvage only the entries that are kept
    let schedule = stream.0.iter().take(stream.length()).skip(stream.schedule());
    let mut turns = schedule.map(|&entry| Turn::of(entry)).enumerate();
    let (index, turn) = turns.find(|(_, turn)| turn.process() >= processes)?;
    let place = Place::Entry { step: index + 1, byte: stream.schedule() + index };
    let found = match turn {
        Turn::Acts(process) => format!("process {process}"),
        Turn::Drops(process) => format!("{}, a drop by process {process}", turn.entry()),
    };
    let remedy = format!("the job's processes are 0 to {}: the logger scheduled one that the job has not", processes - 1);
    Some(Decided { place, found, remedy })
}

fn padding(stream: &Stream) -> Option<Decided> {
    let length = stream.length();
    let (byte, value) = stream.0.iter().enumerate().skip(length).find(|&(_, &byte)| byte != 0)?;
    let found = format!("{value}; the stream ended {} before", counted(byte - length + 1, "byte", "bytes"));
    let remedy = "fill the last block with zeros behind the stream, and make its sums anew".to_string();
    Some(Decided { place: Place::Padding(byte), found, remedy })
}
