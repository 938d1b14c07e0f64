//! A longer run: COUNT random jobs with seeds from SEED up, until one fails. Its last line is 'N passed, M failed', counted in jobs.

use second::groups::{Bench, jobs};
use std::env;
use std::process::ExitCode;
use std::time::Instant;

fn main() -> ExitCode {
    let numbers: Result<Vec<u64>, _> = env::args().skip(1).map(|word| word.parse()).collect();
    let [count @ 1..=u64::MAX, first] = numbers.unwrap_or_default()[..] else {
        eprintln!("COUNT and SEED are whole numbers, COUNT at least 1");
        return ExitCode::from(2);
    };
    let began = Instant::now();
    let mut bench = Bench::new();
    let failure = (0..count).find_map(|i| jobs::seed(&mut bench, first.wrapping_add(i)).err().map(|why| (i, why)));
    if let Some((_, why)) = &failure {
        println!("{why}");
    }
    let (passed, failed) = failure.map_or((count, 0), |(before, _)| (before, 1));
    println!("{} calls on each side in {:.1} s; jobs:", bench.compare.calls, began.elapsed().as_secs_f64());
    println!("{passed} passed, {failed} failed");
    if failed == 0 { ExitCode::SUCCESS } else { ExitCode::FAILURE }
}
