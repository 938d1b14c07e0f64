//! The replay bench for queues, stacks and two-way linked stacks with multiplicity, for Rust callers.
//!
//! Four calls, each one call of the proved library (`include/bench.h`):
//!
//! - [`replay()`] takes a job file and gives its [`Report`], or its [`Refusal`];
//! - [`read()`] takes a job file and gives the [`Job`] in it;
//! - [`write()`] takes a job and gives its file. One job has one file;
//! - [`salvage()`] takes a spoiled job file and gives a proper one of what remains of it.
//!
//! A replay may be held to transmission windows, outside of which a process does nothing: [`replay_within()`] takes a window block beside the job
//! file, [`read_windows()`] and [`write_windows()`] have its fields under names, and [`Hours`] tells which steps are shut.
//!
//! Nothing that the library proves is worked out here: no step, no line of a report, no date; of sums only those of a window block, which the
//! library then checks. What is here is memory for the calls, the fields of a job and of a window block under names, and a report taken apart.
//!
//! ```
//! use pigwazet::{Action, Job, Kind, Operation};
//!
//! let job = Job {
//!     kind: Kind::Queue,
//!     processes: 2,
//!     operations: vec![
//!         Operation { process: 0, action: Action::Put(500) },
//!         Operation { process: 1, action: Action::Take },
//!     ],
//!     schedule: vec![0, 0, 0, 0, 1, 1, 1, 1],
//! };
//! let file = pigwazet::write(&job)?;
//! assert_eq!(pigwazet::read(&file)?, job);
//! let report = pigwazet::replay(&file)?;
//! assert!(report.as_str().contains("op 2 process 1 take first 5 last 8 item 1 value 50\n"));
//! # Ok::<(), pigwazet::Refusal>(())
//! ```
//!
//! A file that is no proper job is refused, with the number that document 01 gives to the first condition met:
//!
//! ```
//! let refusal = pigwazet::replay(b"no job").unwrap_err();
//! assert_eq!(refusal.number(), 2);
//! assert_eq!(refusal.to_string(), "refused 2: the file's length is 0, over 17,920 bytes or not a multiple of 512");
//! ```

pub mod block;
mod calls;
mod hours;
mod job;
pub mod limits;
mod memory;
mod refusal;
pub mod report;
mod salvaged;
mod windows;

pub use hours::Hours;
pub use job::{Action, Job, Kind, Operation, Turn};
pub use memory::Memory;
pub use refusal::Refusal;
pub use report::Report;
pub use salvaged::Salvaged;
pub use windows::{Start, Window, Windows};

/// Replays the job in a file: the report that must come of it, or the refusal.
///
/// Each call makes memory of its own; who replays many files keeps a [`Memory`].
///
/// ```
/// let listing = include_bytes!("../../../examples/listing.job");
/// let report = pigwazet::replay(listing)?;
/// assert!(report.as_str().starts_with("object queue\n"));
///
/// // operations 2 and 3 overlapped and got the same reading
/// let run = report.run();
/// assert_eq!(run.takers(1), [2, 3]);
/// assert!(run.left.is_empty());
///
/// // nobody had to begin again
/// assert_eq!(run.lost, Some(0));
/// # Ok::<(), pigwazet::Refusal>(())
/// ```
pub fn replay(file: &[u8]) -> Result<Report, Refusal> {
    replay_within(file, &[])
}

/// The same within transmission windows: a step outside the window of its process is idle, a drop too, and keeps its number.
///
/// `windows` is a window block, or empty, which is no block and shuts nothing.
///
/// ```
/// let job = include_bytes!("../../../examples/satellite.job");
/// let block = include_bytes!("../../../examples/satellite.win");
///
/// // both uplinks would get reading 1, but the first one's booking ends before its last step
/// assert_eq!(pigwazet::replay(job)?.run().takers(1), [2, 3]);
/// assert_eq!(pigwazet::replay_within(job, block)?.run().takers(1), [3]);
///
/// // a job that is none is told first, then a block that is none
/// assert_eq!(pigwazet::replay_within(b"no job", b"no block").unwrap_err().number(), 2);
/// assert_eq!(pigwazet::replay_within(job, b"no block").unwrap_err().number(), 13);
/// # Ok::<(), pigwazet::Refusal>(())
/// ```
pub fn replay_within(file: &[u8], windows: &[u8]) -> Result<Report, Refusal> {
    Memory::new().replay_within(file, windows).map(Report::of)
}

/// Reads a job file: the job in it, or the refusal.
///
/// ```
/// let smallest = include_bytes!("../../../examples/smallest.job");
/// let job = pigwazet::read(smallest)?;
/// assert_eq!((job.processes, job.operations.len(), job.schedule.len()), (2, 1, 5));
///
/// let mut damaged = *smallest;
/// damaged[100] += 1;
/// assert_eq!(pigwazet::read(&damaged).unwrap_err().number(), 3);
/// # Ok::<(), pigwazet::Refusal>(())
/// ```
pub fn read(file: &[u8]) -> Result<Job, Refusal> {
    calls::read(file).map(|stream| Job::of_stream(&stream))
}

/// Writes a job: the one file that holds it, or the refusal of a job that is none.
///
/// ```
/// use pigwazet::{Action, Job, Kind, Operation};
///
/// let mut job = Job {
///     kind: Kind::Stack,
///     processes: 1,
///     operations: vec![Operation { process: 0, action: Action::Put(-15) }],
///     schedule: vec![0, 0],
/// };
/// assert_eq!(pigwazet::write(&job)?.len(), 512);
///
/// job.schedule.push(1); // there is only process 0
/// assert_eq!(pigwazet::write(&job).unwrap_err().number(), 11);
/// # Ok::<(), pigwazet::Refusal>(())
/// ```
///
/// An uplink that loses power half way drops the operation that it has begun and goes on with its next:
///
/// ```
/// use pigwazet::report::Ending;
/// use pigwazet::{Action, Job, Kind, Operation, Turn};
///
/// let take = Operation { process: 0, action: Action::Take };
/// let schedule = [Turn::Acts(0), Turn::Drops(0), Turn::Acts(0), Turn::Acts(0), Turn::Acts(0)].map(Turn::entry).to_vec();
/// let job = Job { kind: Kind::Queue, processes: 1, operations: vec![take, take], schedule };
/// let report = pigwazet::replay(&pigwazet::write(&job)?)?;
/// let run = report.run();
/// assert_eq!((run.operations[0].ending, run.operations[1].ending), (Ending::Dropped, Ending::Empty));
/// assert_eq!(run.operations[0].dropped_at(&job), Some(2));
/// # Ok::<(), pigwazet::Refusal>(())
/// ```
pub fn write(job: &Job) -> Result<Vec<u8>, Refusal> {
    calls::write(&job.stream())
}

/// Salvages a spoiled file: the proper file of what remains of it, or the refusal where header or records are not whole, or are wrong.
///
/// Kept are the leading full blocks before the first whose sum differs or whose number is not its position. Blocks behind those that the header
/// asks for are not read, so a file may have any length; nor is the padding.
///
/// ```
/// let hour = include_bytes!("../../../examples/flood-hour.job");
/// assert_eq!(pigwazet::salvage(hour)?.file, hour);
///
/// // the card was cut: nine blocks are whole
/// let salvaged = pigwazet::salvage(&hour[..5_000])?;
/// assert_eq!(salvaged.to_string(), "kept 3524 of 16384 entries");
///
/// // what came out is a job file as any other, with the schedule cut
/// let (whole, rest) = (pigwazet::read(hour)?, pigwazet::read(&salvaged.file)?);
/// assert_eq!((rest.operations, &rest.schedule[..]), (whole.operations, &whole.schedule[..3_524]));
///
/// // without its first blocks nothing is left
/// assert_eq!(pigwazet::salvage(&hour[..1_024]).unwrap_err().number(), 14);
/// # Ok::<(), pigwazet::Refusal>(())
/// ```
pub fn salvage(file: &[u8]) -> Result<Salvaged, Refusal> {
    calls::salvage(file).map(|out| Salvaged::of(file, out))
}

/// Reads a window block: the windows in it, none if it is empty, or the refusal.
///
/// ```
/// let block = include_bytes!("../../../examples/satellite.win");
/// let windows = pigwazet::read_windows(block)?.unwrap();
/// assert_eq!((windows.start.year, windows.start.month, windows.start.day), (2024, 2, 29));
/// assert_eq!(windows.start.weekday()?, 3); // a Thursday
/// assert_eq!(windows.entries[0], pigwazet::Window::ALWAYS);
///
/// assert_eq!(pigwazet::read_windows(&[])?, None);
/// assert_eq!(pigwazet::read_windows(&block[1..]).unwrap_err().number(), 13);
/// # Ok::<(), pigwazet::Refusal>(())
/// ```
pub fn read_windows(block: &[u8]) -> Result<Option<Windows>, Refusal> {
    accepted(block)?;
    Ok((!block.is_empty()).then(|| Windows::of_block(block)))
}

/// Writes windows: the one block that holds them, or the refusal of what is none.
///
/// ```
/// use pigwazet::{Start, Window, Windows};
///
/// let mut windows = Windows { start: Start { year: 2026, month: 3, day: 1, second: 6 * 3600 }, entries: [Window::SHUT; 8] };
/// windows.entries[0] = Window::ALWAYS;
/// windows.entries[2] = Window { days: 0b001_1111, opening: 6 * 60, closing: 9 * 60 + 30 }; // Monday to Friday
/// let block = pigwazet::write_windows(&windows)?;
/// assert_eq!(pigwazet::read_windows(&block)?, Some(windows));
///
/// windows.start.month = 2;
/// windows.start.day = 29; // 2026 has none
/// assert_eq!(pigwazet::write_windows(&windows).unwrap_err().number(), 13);
/// # Ok::<(), pigwazet::Refusal>(())
/// ```
pub fn write_windows(windows: &Windows) -> Result<[u8; limits::BLOCK], Refusal> {
    let block = windows.block();
    accepted(&block).map(|()| block)
}

/// No call looks at a window block alone: a job is replayed that nobody steps in.
fn accepted(block: &[u8]) -> Result<(), Refusal> {
    let operations = vec![Operation { process: 0, action: Action::Take }];
    let still = Job { kind: Kind::Stack, processes: 1, operations, schedule: vec![] };
    replay_within(&write(&still)?, block).map(drop)
}
