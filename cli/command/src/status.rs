//! How a command ends, and where it says what went wrong.

use std::fmt::Display;
use std::io::{self, Write};

/// The exit status of a command that did its work.
#[derive(Clone, Copy, PartialEq, Eq, Debug)]
pub enum Status {
    Fine = 0,
    /// Something was refused.
    Refused = 1,
    /// Wrong use, unreadable or unwritable.
    Failed = 2,
}

/// Why a command could not do its work: exit status 2. It may be empty, where nobody wants to hear it.
#[derive(PartialEq, Eq, Debug)]
pub struct Failure(pub String);

/// A line on standard error. Where nobody hears it, there is nobody left to tell.
pub fn say(what: &dyn Display) {
    let _ = writeln!(io::stderr(), "{what}");
}
