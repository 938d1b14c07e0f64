//! The figures of documents 01 and 02 that a caller meets, each once.

use std::ops::RangeInclusive;

/// Bytes of a block, and of the payload in it.
pub const BLOCK: usize = 512;
pub const PAYLOAD: usize = 506;
/// Bytes of a block that its two sums are over: all before them.
pub const SUMMED: usize = BLOCK - 4;
/// Blocks and bytes of the longest file.
pub const BLOCKS: usize = 35;
pub const FILE: usize = BLOCKS * BLOCK;
/// The least work memory: the payload of the longest file.
pub const WORK: usize = BLOCKS * PAYLOAD;
/// The least report memory.
pub const REPORT: usize = 32_768;

/// Bytes of a stream's header and of each record behind it.
pub const HEADER: usize = 6;
pub const RECORD: usize = 4;

/// The most processes, operations and steps of a job. There is at least one process and one operation.
pub const PROCESSES: usize = 8;
pub const OPERATIONS: usize = 256;
pub const STEPS: usize = 16_384;

/// A schedule entry from this on is a drop, by the process that remains when this is taken off.
pub const DROP: u8 = 128;

/// The years in which a run within windows can start, the seconds of a day and of a minute, and the last minute that a window may name.
pub const YEARS: RangeInclusive<u16> = 2000..=2099;
pub const DAY: u32 = 86_400;
pub const MINUTE: u32 = 60;
pub const MINUTES: u16 = 1_440;
/// Bytes of a window block in front of its entries, in its payload, and of each entry.
pub const FRONT: usize = 8;
pub const ENTRY: usize = 5;
