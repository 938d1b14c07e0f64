//! Measures replay, read, write and salvage on both sides. The tables of docs/SPEED.md go to standard output, times to standard error.

use second::file::sealed;
use second::generate::Draft;
use second::generate::order::Order;
use second::job::{OPERATIONS, STEPS};
use second::speed::shapes::{ROTATION, acting, dropping, jobs};
use second::speed::{self, Measured, Pair, booked};
use std::env;
use std::process::ExitCode;

const ROUNDS: usize = 200;
const OBJECTS: [(u8, &str); 3] = [(1, "queue"), (2, "stack"), (3, "linked")];

/// Both ratios: one job repeated, jobs in rotation.
type Ratios = [f64; 2];

/// 16,384 for 16384.
fn grouped(number: usize) -> String {
    if number < 1_000 { number.to_string() } else { format!("{},{:03}", number / 1_000, number % 1_000) }
}

fn heading(title: &str) {
    eprintln!("\n{title}; µs a call, one job repeated and {ROTATION} jobs in rotation");
    println!("\n| {title} | steps | one job repeated | {ROTATION} jobs in rotation |\n|---|---|---|---|");
}

/// A row of a table, and the times that it rests on.
fn row(name: &str, drafts: &[Draft], measured: &Measured) -> Ratios {
    let steps = grouped(drafts.iter().map(|draft| draft.schedule.len()).sum::<usize>() / drafts.len());
    let time = |Pair { second, library }: &Pair| format!("second {:6.1} library {:6.1}", second / 1e3, library / 1e3);
    eprintln!("{name:38} {steps:>6}  {}   {}", time(&measured.repeated), time(&measured.rotated));
    let ratios = [measured.repeated.ratio(), measured.rotated.ratio()];
    println!("| {name} | {steps} | {:.2} | {:.2} |", ratios[0], ratios[1]);
    ratios
}

/// A row with the geometric means of a table's rows.
fn mean_row(name: &str, rows: &[Ratios]) {
    let mean = |way: usize| (rows.iter().map(|ratios| ratios[way].ln()).sum::<f64>() / rows.len() as f64).exp();
    println!("| {name} | | {:.2} | {:.2} |", mean(0), mean(1));
}

fn files(drafts: &[Draft]) -> Vec<Vec<u8>> {
    drafts.iter().map(|draft| sealed(&draft.stream())).collect()
}

/// The rows of full-size jobs: all 16,384 steps, and only those that act.
#[derive(Default)]
struct FullSize {
    whole: Vec<Ratios>,
    acting: Vec<Ratios>,
}

impl FullSize {
    fn add(&mut self, (kind, object): (u8, &str), rounds: usize) {
        for (order, name) in [(Order::Uniform, "random"), (Order::Lockstep, "round robin"), (Order::Crowded, "crowded")] {
            let drafts = jobs(kind, OPERATIONS, STEPS, &order);
            self.whole.push(row(&format!("{object}, {name}"), &drafts, &speed::replay(&files(&drafts), &[], rounds)));
            let drafts = acting(&drafts);
            let name = format!("{object}, {name}, acting steps only");
            self.acting.push(row(&name, &drafts, &speed::replay(&files(&drafts), &[], rounds)));
        }
    }

    fn means(&self, mean: &str) {
        mean_row(&format!("{mean}, whole schedules"), &self.whole);
        mean_row(&format!("{mean}, acting steps only"), &self.acting);
    }

    fn all(&self) -> Vec<Ratios> {
        [self.whole.as_slice(), &self.acting].concat()
    }
}

/// Queue and stack with their means, then the linked stack with its own, and the mean of all.
fn full_size(rounds: usize) {
    heading("Replay, 256 operations on 8 processes");
    let [queue, stack, linked] = OBJECTS;
    let mut two = FullSize::default();
    two.add(queue, rounds);
    two.add(stack, rounds);
    two.means("geometric mean");
    mean_row("geometric mean of all twelve", &two.all());
    let mut third = FullSize::default();
    third.add(linked, rounds);
    third.means("geometric mean, linked");
    mean_row("geometric mean of all eighteen", &[two.all(), third.all()].concat());
}

fn files_and_cards(rounds: usize) {
    heading("Read, write and salvage, 35 blocks");
    for (kind, object) in OBJECTS {
        let drafts = jobs(kind, OPERATIONS, STEPS, &Order::Uniform);
        row(&format!("{object}, read"), &drafts, &speed::read(&files(&drafts), rounds));
        let streams: Vec<Vec<u8>> = drafts.iter().map(Draft::stream).collect();
        row(&format!("{object}, write"), &drafts, &speed::write(&streams, rounds));
        row(&format!("{object}, salvage"), &drafts, &speed::salvage(&files(&drafts), rounds));
    }
}

/// One entry in 16 is a drop.
fn with_drops(rounds: usize) {
    heading("Replay with drops, 256 operations on 8 processes");
    for (kind, object) in OBJECTS {
        let drafts = dropping(&jobs(kind, OPERATIONS, STEPS, &Order::Uniform));
        row(&format!("{object}, random, with drops"), &drafts, &speed::replay(&files(&drafts), &[], rounds));
        let drafts = acting(&drafts);
        row(&format!("{object}, random, with drops, acting steps only"), &drafts, &speed::replay(&files(&drafts), &[], rounds));
    }
}

/// A block that is open throughout, with all steps and with those that act, and one that shuts half of the processes half of the time.
fn within_windows(rounds: usize) {
    heading("Replay within windows, 256 operations on 8 processes");
    let (open, half) = (booked::open().block(), booked::half().block());
    for (kind, object) in OBJECTS {
        let drafts = jobs(kind, OPERATIONS, STEPS, &Order::Uniform);
        row(&format!("{object}, random, open throughout"), &drafts, &speed::replay(&files(&drafts), &open, rounds));
        row(&format!("{object}, random, half shut"), &drafts, &speed::replay(&files(&drafts), &half, rounds));
        let drafts = acting(&drafts);
        let name = format!("{object}, random, open throughout, acting steps only");
        row(&name, &drafts, &speed::replay(&files(&drafts), &open, rounds));
    }
}

/// Shorter schedules, with all operations and with as many as keep the work of a step the same.
fn shorter(rounds: usize) {
    heading("Replay of shorter schedules, random");
    let counts: [(&str, fn(usize) -> usize); 2] =
        [("256 operations", |_| OPERATIONS), ("S / 64 operations", |steps| steps * OPERATIONS / STEPS)];
    for (kind, object) in OBJECTS {
        for (name, operations) in counts {
            for steps in [1_024, 2_048, 4_096, 8_192] {
                let drafts = jobs(kind, operations(steps), steps, &Order::Uniform);
                row(&format!("{object}, {name}"), &drafts, &speed::replay(&files(&drafts), &[], rounds));
            }
        }
    }
}

fn main() -> ExitCode {
    let rounds = env::args().nth(1).map_or(Ok(ROUNDS), |word| word.parse());
    let Ok(rounds @ 1..) = rounds else {
        eprintln!("ROUNDS is a whole number, at least 1");
        return ExitCode::from(2);
    };
    eprintln!("Both sides take turns, {rounds} rounds of {ROTATION} calls each; the best round of each side counts.");
    full_size(rounds);
    with_drops(rounds);
    within_windows(rounds);
    files_and_cards(rounds);
    shorter(rounds);
    ExitCode::SUCCESS
}
