//! What remains of a spoiled file: request 7 of document 02.

use std::fmt;

/// The two bytes of a file's first block that hold the schedule's length.
const ENTRIES: usize = 6;

/// A proper file made of a spoiled one, with the schedule cut to the entries kept.
#[derive(Clone, PartialEq, Eq, Hash, Debug)]
pub struct Salvaged {
    /// An accepted job file; the very file that was given, where nothing is wrong with that.
    pub file: Vec<u8>,
    /// How many entries of the schedule are kept.
    pub kept: u16,
    /// How many the spoiled file's header names.
    pub named: u16,
}

impl Salvaged {
    /// Both counts stand in the headers, of what came out and of what was given.
    pub(crate) fn of(spoiled: &[u8], file: Vec<u8>) -> Salvaged {
        let entries = |file: &[u8]| u16::from_be_bytes([file[ENTRIES], file[ENTRIES + 1]]);
        Salvaged { kept: entries(&file), named: entries(spoiled), file }
    }

    /// How many entries are lost.
    pub fn lost(&self) -> u16 {
        self.named - self.kept
    }
}

/// `kept 3524 of 16384 entries`
impl fmt::Display for Salvaged {
    fn fmt(&self, f: &mut fmt::Formatter) -> fmt::Result {
        write!(f, "kept {} of {} entries", self.kept, self.named)
    }
}
