//! Random jobs: write, read, replay and demand 3 on each, on some again within random windows, then a few random faults in file and stream,
//! and what remains of the file on spoiled cards.

use super::{Bench, salvage};
use crate::check::seen::{Dropped, Seen, Shut};
use crate::compare::ENOUGH;
use crate::damage;
use crate::failure::{guarded, kept, seeded};
use crate::file::{FILE_LIMIT, sealed};
use crate::generate::{self, Draft, STYLES, Style};
use crate::random::Random;

/// One seed in so many has windows: of every style, as the styles go round in another number.
const WINDOWS_ONE_IN: u64 = 3;
/// One in so many, those behind them, is put on spoiled cards.
const CARDS_ONE_IN: u64 = 3;

/// The job of a seed, tried in every way.
pub fn seed(bench: &mut Bench, seed: u64) -> Result<(), String> {
    bench.present.seed(seed);
    let draft = guarded(|| Ok(generate::job(seed))).map_err(|why| seeded(seed, &[], why))?;
    let stream = draft.stream();
    let seen = guarded(|| bench.compare.job(&stream)).map_err(|why| seeded(seed, &sealed(&stream), why))?;
    bench.seen.add(&seen);
    let mut random = Random::new(!seed);
    if seed.is_multiple_of(WINDOWS_ONE_IN) {
        within_windows(bench, seed, &draft, &mut random)?;
    }
    let file = spoiled_file(&draft, &mut random);
    guarded(|| bench.compare.file(&file)).map_err(|why| seeded(seed, &file, why))?;
    let stream = spoiled_stream(&draft, &mut random);
    guarded(|| bench.compare.write(&stream, FILE_LIMIT)).map_err(|why| seeded(seed, &stream, why))?;
    if seed % CARDS_ONE_IN == 1 {
        guarded(|| salvage::random::cards(bench, &draft, &mut random))
            .map_err(|why| seeded(seed, &sealed(&draft.stream()), why))?;
    }
    Ok(())
}

/// A job within random windows, and with a block that is wrong.
fn within_windows(bench: &mut Bench, seed: u64, draft: &Draft, random: &mut Random) -> Result<(), String> {
    let stream = draft.stream();
    let file = sealed(&stream);
    let windows = generate::windows::windows(draft.schedule.len(), random);
    let block = windows.block();
    let fail = |block: &[u8], why: String| seeded(seed, &file, kept(&format!("seed-{seed}.win"), block, why));
    let seen = guarded(|| bench.compare.run(&stream, &file, &block)).map_err(|why| fail(&block, why))?;
    bench.seen.add(&seen);
    let block = damage::windows::spoiled(&windows, *random.pick(&damage::windows::every()));
    let number = guarded(|| bench.compare.replay(&file, &block, ENOUGH)).map_err(|why| fail(&block, why))?.number;
    if number == 13 { Ok(()) } else { Err(fail(&block, format!("{number} in place of 13"))) }
}

/// A file in which a few bytes are changed, mostly with right sums.
fn spoiled_file(draft: &Draft, random: &mut Random) -> Vec<u8> {
    let number = *random.pick(&damage::FILE_NUMBERS);
    let faults: Vec<_> = damage::fault(number, draft, random).into_iter().collect();
    let mut file = damage::file(draft, &faults);
    if random.chance(4) && !file.is_empty() {
        let at = random.below(file.len());
        file[at] = random.byte();
    }
    file
}

fn spoiled_stream(draft: &Draft, random: &mut Random) -> Vec<u8> {
    let mut stream = draft.stream();
    for _ in 0..random.between(1, 3) {
        let at = random.below(stream.len().min(64));
        stream[at] = if random.chance(2) { random.byte() } else { random.below(10) as u8 };
    }
    stream
}

/// `count` jobs of one style, from the first seed of that style at or after `first`.
pub fn of_style(bench: &mut Bench, style: Style, count: usize, first: u64) -> Result<usize, String> {
    let round = STYLES.len() as u64;
    let start = (first..first + round).find(|&seed| generate::style(seed) == style).expect("every round has every style");
    for i in 0..count as u64 {
        seed(bench, start + i * round)?;
    }
    Ok(count)
}

/// The jobs so far went through every row both ways, dropped operations before every row, met every case of the record, and had windows open and
/// close on them.
pub fn reached(bench: &mut Bench) -> Result<usize, String> {
    let Seen { rows, cleared_again, shared_lines, lines_of_eight, open_takers, open_puts, idle_steps, dropped, shut } =
        &bench.seen;
    println!(
        "  lines with several takers {shared_lines}, with eight {lines_of_eight}; open takers {open_takers}, open puts {open_puts}; \
         flags cleared again {cleared_again}"
    );
    let Dropped { before, takers, puts, idle } = dropped;
    let drops = before.iter().sum::<usize>();
    println!("  dropped {drops}, of them takers {takers}, puts in the record {puts}; drops with none begun {idle}");
    println!("  rounds lost {}", bench.seen.lost());
    let Shut { steps, drops: shut_drops, openings, closings } = shut;
    println!("  steps outside a window {steps}, of them drops {shut_drops}; windows opened {openings}, closed {closings}");
    if bench.seen.all() {
        Ok(rows.as_flattened().iter().sum::<usize>() + idle_steps + drops + steps)
    } else {
        Err(format!("not all was met: {rows:?}; dropped before {before:?}"))
    }
}
