//! Transmission windows under names, and their block: request 6 of document 02.

use crate::block;
use crate::limits::{BLOCK, ENTRY, FRONT, MINUTES, PROCESSES};

/// The second at which step 1 falls. Step k falls k − 1 seconds later, and no clock changes.
#[derive(Clone, Copy, PartialEq, Eq, Hash, Debug)]
pub struct Start {
    pub year: u16,
    pub month: u8,
    pub day: u8,
    /// Of the day.
    pub second: u32,
}

/// When a process may work.
#[derive(Clone, Copy, PartialEq, Eq, Hash, Debug)]
pub struct Window {
    /// The weekdays from whose midnight it counts: bit 0 is Monday, bit 6 Sunday.
    pub days: u8,
    /// In minutes, up to 1,440. The opening second is in the window, the closing one is not; a closing before the opening is a day later, and
    /// where both are equal the window is shut.
    pub opening: u16,
    pub closing: u16,
}

impl Window {
    pub const SHUT: Window = Window { days: 0, opening: 0, closing: 0 };
    pub const ALWAYS: Window = Window { days: 0x7f, opening: 0, closing: MINUTES };

    /// Whether it never opens. From 1,440 to 0 it closes in the second in which it opens.
    pub fn is_shut(self) -> bool {
        let (opening, closing) = (self.opening, self.closing);
        self.days == 0 || opening == closing || (opening, closing) == (MINUTES, 0)
    }

    fn entry(self) -> [u8; ENTRY] {
        let ([a, b], [c, d]) = (self.opening.to_be_bytes(), self.closing.to_be_bytes());
        [self.days, a, b, c, d]
    }

    fn of_entry(&[days, a, b, c, d]: &[u8; ENTRY]) -> Window {
        Window { days, opening: u16::from_be_bytes([a, b]), closing: u16::from_be_bytes([c, d]) }
    }
}

/// When a run starts, and the windows of all eight processes, whether the job has them or not.
#[derive(Clone, Copy, PartialEq, Eq, Hash, Debug)]
pub struct Windows {
    pub start: Start,
    pub entries: [Window; PROCESSES],
}

impl Windows {
    /// Their block, whatever the fields hold: the library says whether it is one.
    pub(crate) fn block(&self) -> [u8; BLOCK] {
        let Start { year, month, day, second } = self.start;
        let mut fields = year.to_be_bytes().to_vec();
        fields.extend([month, day]);
        fields.extend(second.to_be_bytes());
        fields.extend(self.entries.iter().flat_map(|window| window.entry()));
        let mut block = [0; BLOCK];
        block[2..2 + fields.len()].copy_from_slice(&fields);
        block::seal(&mut block);
        block
    }

    /// The windows of a block that the library accepted.
    pub(crate) fn of_block(block: &[u8]) -> Windows {
        let (front, rest) = block[2..].split_first_chunk::<FRONT>().expect("a whole block");
        let [a, b, month, day, second @ ..] = *front;
        let start = Start { year: u16::from_be_bytes([a, b]), month, day, second: u32::from_be_bytes(second) };
        let entries = rest.as_chunks().0;
        Windows { start, entries: std::array::from_fn(|process| Window::of_entry(&entries[process])) }
    }
}
