//! An archive of full-size jobs through `bench replay --out`, beside the library alone and the files alone on the same cores: the table of docs/SPEED.md.
//! Arguments: the command, a folder to work in, and how many jobs.

use bench_command::{input, output};
use pigwazet::Memory;
use rayon::prelude::*;
use second::file::sealed;
use second::generate::order::Order;
use second::job::{OPERATIONS, STEPS};
use second::speed::shapes;
use std::path::{Path, PathBuf};
use std::process::{Command, Stdio};
use std::time::{Duration, Instant};
use std::{env, fs};

/// The best of so many runs counts.
const RUNS: usize = 5;

fn best(mut run: impl FnMut() -> Duration) -> f64 {
    (0..RUNS).map(|_| run()).min().unwrap_or_default().as_secs_f64()
}

fn timed(work: impl FnOnce()) -> Duration {
    let began = Instant::now();
    work();
    began.elapsed()
}

/// Different full-size jobs of three kinds and three orders.
fn job(seed: u64) -> Vec<u8> {
    let order = [Order::Uniform, Order::Lockstep, Order::Crowded];
    sealed(&shapes::job(1 + (seed % 3) as u8, OPERATIONS, STEPS, &order[(seed / 3 % 3) as usize], seed).stream())
}

fn fresh(folder: &Path) {
    let _ = fs::remove_dir_all(folder);
    fs::create_dir_all(folder).expect("a folder");
}

/// The library alone: every file replayed in memory, on all cores of the pool.
fn in_memory(files: &[Vec<u8>]) -> Duration {
    timed(|| {
        files.par_iter().for_each_init(Memory::new, |memory, file| {
            memory.replay(file).expect("a job");
        });
    })
}

/// The files alone: each read and its report written, as the command does, and nothing replayed.
fn on_disk(jobs: &[PathBuf], reports: &[String], out: &Path) -> Duration {
    fresh(out);
    timed(|| {
        jobs.par_iter().zip(reports).for_each_init(Vec::new, |bytes, (path, report)| {
            input::fill(path, input::MOST, bytes).expect("a job file");
            let name = path.with_extension("txt");
            let target = out.join(name.file_name().expect("a name"));
            output::unnamed(&target, report.as_bytes(), |_| false, "").expect("a fresh folder");
        });
    })
}

fn command(bench: &str, jobs: &Path, out: &Path) -> Duration {
    let _ = fs::remove_dir_all(out);
    let mut command = Command::new(bench);
    command.arg("replay").arg(jobs).arg("--out").arg(out).stdout(Stdio::null()).stderr(Stdio::null());
    timed(|| assert!(command.status().expect("the command").success()))
}

fn main() {
    let arguments: Vec<String> = env::args().collect();
    let [_, bench, folder, count] = &arguments[..] else { panic!("speed BENCH FOLDER COUNT") };
    let count: u64 = count.parse().expect("a count");
    let (jobs, out) = (Path::new(folder).join("jobs"), Path::new(folder).join("reports"));
    fresh(&jobs);
    let files: Vec<Vec<u8>> = (0..count).into_par_iter().map(job).collect();
    let paths: Vec<PathBuf> = (0..count).map(|seed| jobs.join(format!("{seed:05}.job"))).collect();
    paths.iter().zip(&files).for_each(|(path, file)| fs::write(path, file).expect("a job file"));
    let reports: Vec<String> = files.par_iter().map(|file| pigwazet::replay(file).expect("a job").to_string()).collect();

    let one = rayon::ThreadPoolBuilder::new().num_threads(1).build().expect("a pool");
    let library_alone = best(|| one.install(|| in_memory(&files)));
    let library = best(|| in_memory(&files));
    let disk = best(|| on_disk(&paths, &reports, &out));
    let whole = best(|| command(bench, &jobs, &out));
    let row = |what: &str, seconds: f64| println!("| {what} | {:.0} | {:.0} |", seconds * 1e3, count as f64 / seconds);
    println!("| {count} full-size jobs, {} cores | ms | jobs a second |\n|---|---|---|", rayon::current_num_threads());
    row("the library alone, in memory, one core", library_alone);
    row("the library alone, in memory, all cores", library);
    row("the files alone: read, report written", disk);
    row("library and files, added up", library + disk);
    row("`bench replay FOLDER --out FOLDER`", whole);
}
