//! The traces of document 01, as document 02 has them, against the texts of the paper, and the sample files.

use super::Bench;
use crate::compare::ENOUGH;
use crate::file::{FILE_LIMIT, sealed};
use crate::generate::Draft;
use crate::samples;
use std::fs;

pub fn paper(bench: &mut Bench) -> Result<usize, String> {
    let traces = samples::traces();
    for trace in &traces {
        let stream = trace.draft.stream();
        bench.compare.job(&stream).map_err(|why| format!("{}: {why}", trace.name))?;
        report_is(bench, trace.name, &sealed(&stream), &[], trace.report.as_bytes())?;
    }
    Ok(traces.len())
}

/// The sample files of examples/, with the reports beside them; one of them is of full size. And the spoiled cards, with what comes out.
pub fn samples(bench: &mut Bench) -> Result<usize, String> {
    let samples = samples::all();
    for (name, draft) in &samples {
        let read = |ending: &str| {
            fs::read(format!("examples/{name}.{ending}")).map_err(|error| format!("examples/{name}.{ending}: {error}"))
        };
        let file = read("job")?;
        if file != sealed(&draft.stream()) {
            return Err(format!("examples/{name}.job is another job: sh tests/second/samples writes it"));
        }
        bench.compare.job(&draft.stream())?;
        report_is(bench, name, &file, &[], &read("txt")?)?;
        for (_, windows, report) in samples::within().iter().filter(|(own, ..)| own == name) {
            if (read("win")?, read("win.txt")?) != (windows.block().to_vec(), report.as_bytes().to_vec()) {
                return Err(format!("examples/{name}.win is another block: sh tests/second/samples writes it"));
            }
            report_is(bench, name, &file, &windows.block(), report.as_bytes())?;
        }
    }
    for (name, card, job) in samples::cards() {
        comes_out(bench, &format!("examples/{name}.card"), &card, &format!("examples/{job}.job"))?;
    }
    let full_size = |(_, draft): &(_, Draft)| sealed(&draft.stream()).len() == FILE_LIMIT;
    if samples.iter().any(full_size) { Ok(samples.len()) } else { Err("no sample is of full size".to_string()) }
}

/// Whether a spoiled card is this one, and the job is what comes out of it.
fn comes_out(bench: &mut Bench, name: &str, card: &[u8], job: &str) -> Result<(), String> {
    let read = |name: &str| fs::read(name).map_err(|error| format!("{name}: {error}"));
    if read(name)? != card {
        return Err(format!("{name} is another card: sh tests/second/samples writes it"));
    }
    let answer = bench.compare.salvage(card)?;
    if bench.compare.output(answer) == read(job)? { Ok(()) } else { Err(format!("{job} does not come out of {name}")) }
}

/// Whether both sides give this report of a file within windows, or none.
pub(super) fn report_is(bench: &mut Bench, name: &str, file: &[u8], windows: &[u8], report: &[u8]) -> Result<(), String> {
    let answer = bench.compare.replay(file, windows, ENOUGH)?;
    let given = bench.compare.output(answer);
    if given == report { Ok(()) } else { Err(format!("{name}: the report is\n{}", String::from_utf8_lossy(given))) }
}
