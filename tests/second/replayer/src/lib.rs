//! A second replayer, written from documents 01 and 02 alone. It shares nothing with the library: the tests compare the two, and
//! the command `bench steps` shows its steps where they agree.

pub mod calendar;
pub mod calls;
pub mod file;
pub mod job;
pub mod linked;
pub mod machine;
pub mod queue;
pub mod report;
pub mod salvage;
pub mod stack;
pub mod text;
pub mod watch;
pub mod windows;

pub use windows::Windows;
