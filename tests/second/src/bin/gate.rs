//! The gate run. Its last line is 'N passed, M failed', counted in test groups.

use second::generate::STYLES;
use second::groups::{
    Bench, bytes, every, faults, jobs, lengths, limits, lost, outcomes, rooms, salvage, traces, values, windows,
};
use std::process::ExitCode;

/// Jobs of each style, a third of them of each kind (collisions are queues), and the first seed.
const JOBS: usize = 3_750;
const FIRST_SEED: u64 = 1;

fn main() -> ExitCode {
    let mut bench = Bench::new();
    runs(&mut bench);
    lost_rounds(&mut bench);
    transmission_windows(&mut bench);
    bench.group("steps, every row both ways", jobs::reached);
    refusals(&mut bench);
    cut_files(&mut bench);
    bench.group("lent memories", rooms::all);
    bench.group("every number of the table", faults::met);
    if bench.finish() { ExitCode::SUCCESS } else { ExitCode::FAILURE }
}

fn runs(bench: &mut Bench) {
    bench.group("traces of the paper", traces::paper);
    bench.group("traces that are proved, every outcome", outcomes::proved);
    bench.group("sample files", traces::samples);
    bench.group("limits of the paper", limits::paper);
    bench.group("entries of a schedule, every one", limits::entries);
    bench.group("values, every one", values::every);
    for style in STYLES {
        bench.group(&format!("jobs, {style:?}"), |bench: &mut Bench| jobs::of_style(bench, style, JOBS, FIRST_SEED));
    }
    bench.group("every order of small jobs", every::schedules);
    bench.group("every order of small jobs, with drops", every::drops);
}

fn lost_rounds(bench: &mut Bench) {
    bench.group("lost rounds, full jobs at the bound", lost::full_jobs);
    bench.group("lost rounds, two hundred puts", lost::two_hundred);
    bench.group("lost rounds, mixed jobs at the bound", lost::mixed_jobs);
    bench.group("lost lines that are wrong", lost::checks);
}

fn transmission_windows(bench: &mut Bench) {
    bench.group("windows, traces that are proved", windows::traces::proved);
    bench.group("windows, reports by hand", windows::traces::by_hand);
    bench.group("windows that are not heeded", windows::traces::checks);
    bench.group("windows, edges by hand", windows::edges::by_hand);
    bench.group("windows, edges of every sort", windows::edges::every);
    bench.group("windows, days of a printed calendar", windows::days::printed);
    bench.group("windows, every day of the years", windows::days::every);
    bench.group("windows, every date and what is none", windows::days::taken);
    bench.group("windows, every order of small jobs", windows::orders::every);
    bench.group("windows, every order of small jobs, with drops", windows::orders::drops);
    bench.group("window blocks, every way to be wrong", windows::refused::ways);
    bench.group("window blocks, lengths", windows::refused::lengths);
    bench.group("window blocks, single changes", windows::refused::single_changes);
    bench.group("window blocks, changes with right sums", windows::refused::summed_changes);
    bench.group("window blocks behind other faults", windows::refused::behind_others);
}

fn cut_files(bench: &mut Bench) {
    bench.group("salvage, reports by hand", salvage::traces::by_hand);
    bench.group("salvage, the proved reports", salvage::traces::proved);
    bench.group("salvage, the sample", salvage::counted::sample);
    bench.group("salvage, entries counted by hand", salvage::counted::by_hand);
    bench.group("salvage that is wrong", salvage::traces::checks);
    bench.group("salvage, blocks spoiled alone", salvage::blocks::alone);
    bench.group("salvage, blocks spoiled in pairs", salvage::blocks::pairs);
    bench.group("salvage, single changes", salvage::blocks::single_changes);
    bench.group("salvage, every length", salvage::inputs::every_length);
    bench.group("salvage, long inputs", salvage::inputs::long);
    bench.group("salvage, padding", salvage::inputs::padding);
    bench.group("salvage, ends of blocks", salvage::inputs::ends);
    bench.group("salvage, every order around a cut", salvage::orders::every);
    bench.group("salvage, numbers in their order", salvage::numbers::order);
    bench.group("salvage, bytes of a header", salvage::fields::headers);
    bench.group("salvage, records at the ends of blocks", salvage::fields::records);
    bench.group("salvage, entries around the cut", salvage::fields::entries);
    bench.group("salvage, random bytes", salvage::fields::random);
    bench.group("salvage, lent memories", salvage::rooms::all);
    bench.group("salvage, all that a cut does", salvage::reached);
}

fn refusals(bench: &mut Bench) {
    bench.group("faults alone", faults::alone);
    bench.group("sums and numbers, block by block", faults::block_by_block);
    bench.group("faults in pairs", faults::pairs);
    bench.group("faults in threes", faults::threes);
    bench.group("single changes of a small file", bytes::single_changes);
    bench.group("single changes with right sums", bytes::summed_changes);
    bench.group("single changes of a small stream", bytes::stream_changes);
    bench.group("random bytes", bytes::random);
    bench.group("lengths of files", lengths::files);
    bench.group("lengths of streams", lengths::streams);
}
