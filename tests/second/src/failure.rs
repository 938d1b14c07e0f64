//! What a failure leaves: the seed, and the job's file below target/, so that it can be run again.

use std::fs;
use std::panic::{AssertUnwindSafe, catch_unwind};
use std::path::Path;

const FOLDER: &str = "target/second/failed";

/// The file that names the seed at work, for a crash that no Rust code sees.
const PRESENT: &str = "target/second/present";

/// Says which seed is at work.
pub struct Present {
    file: Option<fs::File>,
}

impl Present {
    pub fn new() -> Present {
        let _ = fs::create_dir_all("target/second");
        Present { file: fs::File::create(PRESENT).ok() }
    }

    pub fn seed(&mut self, seed: u64) {
        use std::os::unix::fs::FileExt;
        if let Some(file) = &self.file {
            let _ = file.write_at(format!("{seed:20}\n").as_bytes(), 0);
        }
    }
}

impl Default for Present {
    fn default() -> Present {
        Present::new()
    }
}

/// A panic of either side is a failure like any other.
pub fn guarded<T>(test: impl FnOnce() -> Result<T, String>) -> Result<T, String> {
    catch_unwind(AssertUnwindSafe(test)).unwrap_or_else(|panic| {
        let said = panic.downcast_ref::<String>().map(String::as_str).or_else(|| panic.downcast_ref::<&str>().copied());
        Err(format!("panicked: {}", said.unwrap_or("no message")))
    })
}

/// Keeps a job's file (or a stream) and gives the message to print.
pub fn kept(name: &str, bytes: &[u8], why: String) -> String {
    let path = Path::new(FOLDER).join(name);
    let _ = fs::create_dir_all(FOLDER);
    match fs::write(&path, bytes) {
        Ok(()) => format!("{why}\n  kept in {}", path.display()),
        Err(error) => format!("{why}\n  could not be kept in {}: {error}", path.display()),
    }
}

/// The same for a job and its window block.
pub fn kept_within(name: &str, file: &[u8], block: &[u8], why: String) -> String {
    kept(&format!("{name}.win"), block, kept(&format!("{name}.job"), file, why))
}

/// The same for a job that a seed made.
pub fn seeded(seed: u64, file: &[u8], why: String) -> String {
    let again = format!("{why}\n  again: sh tests/second/long 1 {seed}");
    format!("seed {seed}: {}", kept(&format!("seed-{seed}.job"), file, again))
}
