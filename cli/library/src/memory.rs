//! The memory that a replay is lent, kept from call to call.

use crate::calls;
use crate::limits::{REPORT, WORK};
use crate::refusal::Refusal;

/// Memory for replays, for whoever makes many: one for each thread.
///
/// ```
/// let mut memory = pigwazet::Memory::new();
/// for file in [&include_bytes!("../../../examples/listing.job")[..], b"no job"] {
///     match memory.replay(file) {
///         Ok(report) => print!("{report}"),
///         Err(refusal) => println!("{refusal}"),
///     }
/// }
/// ```
pub struct Memory {
    work: Vec<u8>,
    report: Vec<u8>,
}

impl Memory {
    pub fn new() -> Memory {
        Memory { work: vec![0; WORK], report: vec![0; REPORT] }
    }

    /// As [`crate::replay`], but the report's text stands in this memory, until the next call.
    pub fn replay(&mut self, file: &[u8]) -> Result<&str, Refusal> {
        self.replay_within(file, &[])
    }

    /// As [`crate::replay_within`], likewise.
    pub fn replay_within(&mut self, file: &[u8], windows: &[u8]) -> Result<&str, Refusal> {
        let length = calls::replay(file, windows, &mut self.work, &mut self.report)?;
        Ok(std::str::from_utf8(&self.report[..length]).expect("a report is plain text"))
    }
}

impl Default for Memory {
    fn default() -> Memory {
        Memory::new()
    }
}
