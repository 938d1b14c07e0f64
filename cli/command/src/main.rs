//! The command `bench`: see `bench help`, README.md and docs/TEXT.md.

use bench_command::arguments::{Arguments, Command};
use bench_command::status::{Failure, Status, say};
use bench_command::steps::Asked;
use bench_command::{make, picture, reading, replay, salvage, steps, text, why, windows};
use clap::Parser;
use std::io::{self, Write};
use std::process::ExitCode;

fn main() -> ExitCode {
    let status = match Arguments::try_parse() {
        Ok(arguments) => run(arguments.command).unwrap_or_else(failed),
        Err(usage) => told(&usage),
    };
    ExitCode::from(status as u8)
}

fn failed(Failure(why): Failure) -> Status {
    if !why.is_empty() {
        say(&why);
    }
    Status::Failed
}

/// Help that was asked for, or wrong use.
fn told(usage: &clap::Error) -> Status {
    let printed = usage.print().and_then(|()| io::stdout().flush());
    if usage.use_stderr() || printed.is_err() { Status::Failed } else { Status::Fine }
}

fn run(command: Command) -> Result<Status, Failure> {
    match command {
        Command::Make { text, out } => make::run(&text, out.as_deref()),
        Command::Text { file } => text::run(&file),
        Command::Windows { file, text: true, .. } => windows::text(&file),
        Command::Windows { file, out, .. } => windows::run(&file, out.as_deref()),
        Command::Salvage { file, out } => salvage::run(&file, out.as_deref()),
        Command::Replay(arguments) => replay::run(&arguments),
        Command::Why { file, within } => why::run(file.as_deref(), within.windows.as_deref()),
        Command::Reading { file, number, within, .. } => reading::run(&file, within.windows.as_deref(), number),
        Command::Steps { file, op, from, to, within } => steps::run(&file, within.windows.as_deref(), Asked { op, from, to }),
        Command::Picture { file, out, within } => picture::run(&file, within.windows.as_deref(), out.as_deref()),
    }
}
