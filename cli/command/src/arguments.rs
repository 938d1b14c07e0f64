//! The arguments of `bench`, and its help.

use clap::{Args, Parser, Subcommand};
use std::path::PathBuf;

const STATUS: &str =
    "Exit status: 0 all is well; 1 a job or a window block was refused; 2 wrong use, a wrong text, or something could not be read or written.
FILE is a job file, or - for standard input. README.md begins with an example, docs/TEXT.md has the forms of texts.";

/// Replays jobs of puts and takes on a shared lock-free queue, stack or two-way linked stack and says what must have come of them.
#[derive(Parser)]
#[command(name = "bench", version, after_help = STATUS)]
pub struct Arguments {
    #[command(subcommand)]
    pub command: Command,
}

#[derive(Subcommand)]
pub enum Command {
    /// Make a job file from a job written as text
    #[command(
        after_help = "Without --out, hour.txt becomes hour.job beside it; a file there that holds another job is left alone."
    )]
    Make {
        /// The text, or - for standard input: docs/TEXT.md
        text: PathBuf,
        /// Where the job file goes; - for standard output
        #[arg(short, long, value_name = "FILE")]
        out: Option<PathBuf>,
    },
    /// Print a job file as text, from which `make` makes the very file
    Text {
        /// A job file, or - for standard input
        file: PathBuf,
    },
    /// Make a window block from transmission windows written as text, or print one as text
    #[command(
        after_help = "Without --out, hour.windows becomes hour.win beside it; a file there that holds other windows is left alone.
A process that no line names is shut: the line 'others always' has all such processes work at all times."
    )]
    Windows {
        /// The text, or - for standard input: docs/TEXT.md. With --text, the block
        #[arg(value_name = "TEXT")]
        file: PathBuf,
        /// Where the block goes; - for standard output
        #[arg(short, long, value_name = "FILE", conflicts_with = "text")]
        out: Option<PathBuf>,
        /// Print a block as text, from which `windows` makes the very block
        #[arg(long)]
        text: bool,
    },
    /// Keep what remains of a spoiled job file, as a proper one
    #[command(
        after_help = "Kept are the leading full blocks, up to the first that is damaged, lost or out of its place. The header and all operations must be
among them; the schedule is cut to the entries in them. Each operation that ended in these steps has the answer of the whole job.
Standard error has 'kept A of B entries', or 'refused' and the number, and then what that means.
Without --out, card.job becomes card.salvaged.job beside it; another file there is left alone. The spoiled file always is."
    )]
    Salvage {
        /// The spoiled job file, or - for standard input
        file: PathBuf,
        /// Where the proper file goes; - for standard output
        #[arg(short, long, value_name = "FILE")]
        out: Option<PathBuf>,
    },
    /// Print the report of a job file, or of many
    Replay(ReplayArguments),
    /// Say in words why a job file or a window block is refused, where, and what to do
    #[command(
        after_help = "Where neither is refused, it says who was shut out of which turns, and which of their operations did not end."
    )]
    Why {
        /// A job file, or - for standard input
        #[arg(required_unless_present = "windows")]
        file: Option<PathBuf>,
        #[command(flatten)]
        within: Within,
    },
    /// Tell the fate of one reading, or list the doubles
    Reading {
        /// A job file, or - for standard input
        file: PathBuf,
        /// The reading: the number of the put that brought it
        #[arg(value_name = "N", required_unless_present = "doubles", conflicts_with = "doubles")]
        number: Option<u16>,
        /// All readings that were taken more than once
        #[arg(long)]
        doubles: bool,
        #[command(flatten)]
        within: Within,
    },
    /// Show the run step by step, in words
    #[command(
        after_help = "The steps are the second replayer's, and are shown only where its report is the proved one, byte for byte.
A lost round: a put or a take on a queue went back to Q1 or T1, its first row, to begin again. Each costs radio battery."
    )]
    Steps {
        /// A job file, or - for standard input
        file: PathBuf,
        /// Only the steps of operation N
        #[arg(long, value_name = "N")]
        op: Option<u16>,
        /// From this step on
        #[arg(long, value_name = "A", default_value_t = 1)]
        from: u16,
        /// Up to this step
        #[arg(long, value_name = "B")]
        to: Option<u16>,
        #[command(flatten)]
        within: Within,
    },
    /// Draw the run as one page that any browser shows, without network
    #[command(after_help = "Without --out, hour.job becomes hour.html beside it.")]
    Picture {
        /// A job file, or - for standard input
        file: PathBuf,
        /// Where the page goes; - for standard output
        #[arg(short, long, value_name = "FILE")]
        out: Option<PathBuf>,
        #[command(flatten)]
        within: Within,
    },
}

// what a replay is held to; a comment for the help would take the place of the subcommand's
#[derive(Args)]
pub struct Within {
    /// A window block, or - for standard input: outside its window a process does nothing
    #[arg(long, value_name = "FILE")]
    pub windows: Option<PathBuf>,
}

#[derive(Args)]
#[command(after_help = "With --out, standard output has one line a file: 'replayed', 'refused' and the number, or 'failed',
a tab, the file's name; on a terminal only the files that were not replayed. Links to folders are not followed.
docs/ARCHIVE.md: an archive that is larger than one machine.
A queue's report counts its lost rounds in the line 'lost': how often a put or a take had to begin again. Each costs radio battery.")]
pub struct ReplayArguments {
    /// Job files; folders, for the files in them and below whose names end in .job; - for standard input
    #[arg(value_name = "FILE", required_unless_present = "files_from")]
    pub files: Vec<PathBuf>,
    /// More job files, one a line of LIST, or of standard input if it is -
    #[arg(long, value_name = "LIST")]
    pub files_from: Option<PathBuf>,
    /// One text file a job below FOLDER, in place of standard output
    #[arg(long, value_name = "FOLDER")]
    pub out: Option<PathBuf>,
    #[command(flatten)]
    pub within: Within,
}
