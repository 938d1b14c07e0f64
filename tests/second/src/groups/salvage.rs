//! Request 7: what remains of a cut file, and what is kept of the undamaged job's report.

pub mod blocks;
pub mod counted;
pub mod fields;
pub mod inputs;
pub mod numbers;
pub mod orders;
pub mod random;
pub mod rooms;
pub mod traces;

use super::Bench;
use crate::check::parse::Report;
use crate::check::salvage;
use crate::check::shortened::{self, Cuts};
use crate::damage::cards::{self, Spoil};
use crate::failure::kept;
use crate::file::{BLOCK, sealed};
use crate::generate::order::Order;
use crate::generate::{Draft, drops, put, take};
use crate::random::Random;
use crate::samples;
use crate::speed::shapes;
use std::collections::BTreeSet;

/// An undamaged job with its report, and how many entries the cuts of it kept that were held against it.
struct Whole {
    file: Vec<u8>,
    stream: Vec<u8>,
    report: Report,
    held: BTreeSet<usize>,
}

impl Whole {
    /// "An undamaged file comes out the same."
    fn of(bench: &mut Bench, draft: &Draft) -> Result<Whole, String> {
        let stream = draft.stream();
        let file = sealed(&stream);
        let answer = bench.compare.salvage(&file)?;
        if bench.compare.output(answer) != file {
            return Err(kept("whole.job", &file, "an undamaged file does not come out the same".to_string()));
        }
        let (_, report) = bench.compare.accepted(&file)?;
        Ok(Whole { file, stream, report: Report::of(&report)?, held: BTreeSet::new() })
    }

    fn blocks(&self) -> usize {
        self.file.len() / BLOCK
    }

    /// Salvages what has become of the file; gives the number.
    fn salvage(&mut self, bench: &mut Bench, input: &[u8]) -> Result<u32, String> {
        self.try_salvage(bench, input).map_err(|why| kept("spoiled.card", input, why))
    }

    fn try_salvage(&mut self, bench: &mut Bench, input: &[u8]) -> Result<u32, String> {
        let answer = bench.compare.salvage(input)?;
        if answer.number == 0 {
            let output = bench.compare.output(answer).to_vec();
            let salvage::Kept { blocks, entries, .. } = salvage::kept(input).map_err(|number| number.to_string())?;
            let undamaged = self.file.get(..blocks * BLOCK) == Some(&input[..blocks * BLOCK]);
            if !undamaged {
                bench.compare.accepted(&output)?;
            } else if self.held.insert(entries) {
                self.hold(bench, &output, entries)?;
            }
        }
        Ok(answer.number)
    }

    /// What comes out of undamaged blocks: the job with its first entries, and its report as the request has it.
    fn hold(&self, bench: &mut Bench, output: &[u8], entries: usize) -> Result<(), String> {
        let (stream, report) = bench.compare.accepted(output)?;
        if stream != shortened(&self.stream, entries) {
            return Err("what comes out is not the job with its first entries".to_string());
        }
        bench.seen.add(&bench.compare.run(&stream, output, &[])?);
        bench.cuts.add(&shortened::holds(&self.report, &Report::of(&report)?, entries as u16)?);
        Ok(())
    }
}

/// A job's stream with its first entries alone.
fn shortened(stream: &[u8], entries: usize) -> Vec<u8> {
    let steps = usize::from(u16::from_be_bytes([stream[4], stream[5]]));
    let mut cut = stream[..stream.len() - steps + entries].to_vec();
    cut[4..6].copy_from_slice(&(entries as u16).to_be_bytes());
    cut
}

/// Jobs of one block, two, three, seven and 35, of each kind, most of them with drops; the records of some go on in the second block or the third.
fn drafts() -> Vec<Draft> {
    let mut random = Random::new(12);
    let sizes = [(2, 5, 60), (3, 60, 700), (1, 110, 900), (2, 125, 900), (1, 200, 2_500), (3, 256, 2_500)];
    let mut drafts: Vec<Draft> =
        sizes.iter().map(|&(kind, operations, steps)| shapes::job(kind, operations, steps, &Order::Crowded, 12)).collect();
    for draft in &mut drafts[..4] {
        drops::here_and_there(&mut draft.schedule, 50, &mut random);
    }
    drafts.push(samples::flood::hour());
    drafts
}

/// A queue of 200 operations, whose records end in block 1, and 1,700 steps: five blocks.
fn draft_of_200() -> Draft {
    let records = (0..200).map(|i| if i % 2 == 0 { put(i % 4, 15) } else { take(i % 4) }).collect();
    Draft { kind: 1, processes: 4, records, schedule: (0..1_700).map(|step| (step % 4) as u8).collect() }
}

/// The file of another full-size job, whose header is in range too.
fn foreign() -> Vec<u8> {
    sealed(&shapes::job(2, 256, 16_384, &Order::Uniform, 13).stream())
}

/// A file with some of its blocks spoiled, one after the other.
fn spoiled(file: &[u8], spoils: &[(usize, Spoil)], other: &[u8]) -> Vec<u8> {
    let mut card = file.to_vec();
    for &(position, spoil) in spoils {
        cards::spoil(&mut card, position, spoil, other);
    }
    card
}

/// Whether both sides answer an input with this number.
fn number_is(bench: &mut Bench, input: &[u8], number: u32) -> Result<(), String> {
    let answered = bench.compare.salvage(input).map_err(|why| kept("spoiled.card", input, why))?.number;
    let same = answered == number;
    if same { Ok(()) } else { Err(kept("spoiled.card", input, format!("{answered} in place of {number}"))) }
}

/// The cuts so far did all that a cut may do to a report.
pub fn reached(bench: &mut Bench) -> Result<usize, String> {
    let Cuts { reports, ended, opened, waiting, dropped, fewer, earlier, gone } = bench.cuts;
    println!(
        "  operations ended in the kept steps {ended}, dropped in them {dropped}, ended only behind them {opened}, begun only there {waiting}"
    );
    println!("  lines with fewer takers {fewer}, at an earlier step {earlier}, gone {gone}");
    if bench.cuts.all() { Ok(reports) } else { Err("not all was met".to_string()) }
}
