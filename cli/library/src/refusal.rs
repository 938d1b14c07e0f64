//! Why a job, or the window block beside it, is turned back: a number of document 01's table, or document 02's, and its sentence.

use std::error::Error;
use std::fmt;

/// What turns a window block back, where the job beside it is accepted.
const WINDOWS: u32 = 13;

/// The first condition met, in the order of document 01, by its number.
#[derive(Clone, Copy, PartialEq, Eq, PartialOrd, Ord, Hash, Debug)]
pub struct Refusal(u32);

impl Refusal {
    pub(crate) fn of(number: u32) -> Refusal {
        Refusal(number)
    }

    /// The number of the condition: 2 to 14, since this library lends memory enough.
    pub fn number(self) -> u32 {
        self.0
    }

    /// Whether it is the window block that is refused; the job beside it is accepted then.
    pub fn is_of_windows(self) -> bool {
        self.0 == WINDOWS
    }

    /// The condition in words, of a file.
    pub fn sentence(self) -> &'static str {
        match self.0 {
            1 => "the lent memory is too short",
            2 => "the file's length is 0, over 17,920 bytes or not a multiple of 512",
            3 => "a block's sum differs: the block is damaged",
            4 => "a block's number is not its position: blocks were lost or mixed up",
            5 => "the kind is neither 1, a queue, nor 2, a stack, nor 3, a linked stack",
            6 => "the number of processes is not from 1 to 8",
            7 => "the number of operations is not from 1 to 256",
            8 => "the schedule is longer than 16,384 steps",
            9 => "the file does not have exactly the blocks that its header asks for",
            10 => {
                "an operation's process is none of the job's, its action is neither a put nor a take, or it is a take with a value"
            }
            11 => "a schedule entry is neither a process of the job nor 128 + one, a drop",
            12 => "a byte behind the stream is not zero",
            WINDOWS => {
                "the window block is neither empty nor 512 bytes long, or has a wrong sum, number or field, no such date, or a byte behind its fields that is not zero"
            }
            14 => "the header or the records are not whole",
            _ => "a number that this version does not know",
        }
    }
}

/// `refused 3: a block's sum differs: the block is damaged`
impl fmt::Display for Refusal {
    fn fmt(&self, f: &mut fmt::Formatter) -> fmt::Result {
        write!(f, "refused {}: {}", self.0, self.sentence())
    }
}

impl Error for Refusal {}
