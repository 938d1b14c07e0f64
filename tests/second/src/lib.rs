//! What is needed to compare the library with the second replayer, which stands in a package of its own: generate, damage, check,
//! library, compare, failure, proved.

pub mod check;
pub mod compare;
pub mod damage;
pub mod failure;
pub mod generate;
pub mod groups;
pub mod library;
pub mod proved;
pub mod random;
pub mod samples;
pub mod speed;

pub use second_replayer::{calendar, calls, file, job, linked, machine, queue, report, salvage, stack, watch, windows};
