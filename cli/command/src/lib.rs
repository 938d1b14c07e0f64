//! The parts of the command `bench`, one module a subcommand, so that tests can call them.

pub mod arguments;
pub mod input;
pub mod lines;
pub mod make;
pub mod names;
pub mod output;
pub mod picture;
pub mod reading;
pub mod replay;
pub mod salvage;
pub mod status;
pub mod steps;
pub mod text;
pub mod turns;
pub mod why;
pub mod windows;
pub mod words;
