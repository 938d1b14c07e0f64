//! The groups of tests. Each gives how many jobs, files or streams it tried, or what failed.

pub mod bytes;
pub mod every;
pub mod faults;
pub mod jobs;
pub mod lengths;
pub mod limits;
pub mod lost;
pub mod outcomes;
pub mod rooms;
pub mod salvage;
pub mod traces;
pub mod values;
pub mod windows;

use crate::check::Seen;
use crate::check::shortened::Cuts;
use crate::compare::Compare;
use crate::failure::{Present, guarded};
use std::time::Instant;

/// What the groups share: both sides, and what was met so far.
pub struct Bench {
    pub compare: Compare,
    pub seen: Seen,
    pub cuts: Cuts,
    pub present: Present,
    passed: usize,
    failed: usize,
}

impl Bench {
    pub fn new() -> Bench {
        Bench {
            compare: Compare::new(),
            seen: Seen::default(),
            cuts: Cuts::default(),
            present: Present::new(),
            passed: 0,
            failed: 0,
        }
    }

    /// Runs one group and prints what it tried, or what failed.
    pub fn group(&mut self, name: &str, test: impl FnOnce(&mut Bench) -> Result<usize, String>) {
        let began = Instant::now();
        let tried = |count| if count > 0 { Ok(count) } else { Err("nothing was tried".to_string()) };
        let result = guarded(|| test(self).and_then(tried));
        let seconds = began.elapsed().as_secs_f64();
        match result {
            Ok(count) => {
                self.passed += 1;
                println!("{name}: {count} in {seconds:.1} s");
            }
            Err(why) => {
                self.failed += 1;
                println!("{name}: FAILED after {seconds:.1} s\n  {why}");
            }
        }
    }

    /// Prints the totals and the last line; gives whether nothing failed.
    pub fn finish(self) -> bool {
        println!("{} calls on each side; test groups:", self.compare.calls);
        println!("{} passed, {} failed", self.passed, self.failed);
        self.failed == 0
    }
}

impl Default for Bench {
    fn default() -> Bench {
        Bench::new()
    }
}
