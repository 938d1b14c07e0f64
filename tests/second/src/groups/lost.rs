//! Request 5: queues that lose as many rounds as the bound allows, for every P, with the numbers worked out; and reports whose lost line is
//! wrong, which the check must refuse.

use super::Bench;
use crate::check::parse::Report;
use crate::check::{self, Facts, lost};
use crate::failure::kept;
use crate::file::sealed;
use crate::generate::Draft;
use crate::generate::collisions::{self, PUTS_ALONE, Ways};
use crate::job::{Job, OPERATIONS, PROCESSES};
use crate::random::Random;
use crate::samples::{self, Trace};
use crate::watch::Row;

const CUT_PUTS: Ways = Ways { takes: None, cuts: Some(1) };
const TAKES: Ways = Ways { takes: Some(1), cuts: None };
const CUT_TAKES: Ways = Ways { takes: Some(1), cuts: Some(1) };

/// What a full job of each sort links and loses, on P processes. For the last node too each other process has a put that comes too late, so
/// P - 1 puts are never linked; where the linked ones are dropped, P. A put that comes too late and is dropped, and the take that then helps,
/// serve one node only, so a node has 2 P - 1 operations; with its own put dropped, 2 P.
fn full(processes: usize) -> [(Ways, usize, usize); 4] {
    let others = processes - 1;
    let [puts, cut_puts] = [OPERATIONS - others, OPERATIONS - processes];
    let [takes, cut_takes] = [OPERATIONS / (processes + others), OPERATIONS / (2 * processes)];
    [
        (PUTS_ALONE, puts, 2 * others * puts),
        (CUT_PUTS, cut_puts, 2 * others * cut_puts + cut_puts),
        (TAKES, takes, 2 * others * takes),
        (CUT_TAKES, cut_takes, 2 * others * cut_takes + cut_takes),
    ]
}

/// What came of a job: the puts linked, the rounds lost, and the most that a run with its puts and drops may lose.
type Came = (usize, usize, usize);

fn run(bench: &mut Bench, draft: &Draft, fits: impl FnOnce(Came) -> bool) -> Result<(), String> {
    let stream = draft.stream();
    let fail = |why: String| kept("lost.job", &sealed(&stream), why);
    let seen = bench.compare.job(&stream).map_err(fail)?;
    let [_, puts] = seen.rows[Row::Q3 as usize];
    let (lost, most) = (seen.lost(), seen.may_lose(draft.processes));
    bench.seen.add(&seen);
    let operations = draft.records.len();
    if fits((puts, lost, most)) {
        Ok(())
    } else {
        Err(fail(format!("P {}, {operations} operations, {puts} puts linked: lost {lost} of {most}", draft.processes)))
    }
}

/// Full jobs for every P.
pub fn full_jobs(bench: &mut Bench) -> Result<usize, String> {
    let mut random = Random::new(7);
    let mut count = 0;
    for processes in 1..=PROCESSES {
        for (ways, puts, rounds) in full(processes) {
            let draft = collisions::queue(processes as u8, OPERATIONS, ways, &mut random);
            run(bench, &draft, |came| came == (puts, rounds, rounds))?;
            count += 1;
        }
    }
    Ok(count)
}

/// 200 puts linked on 8 processes lose 2,800 rounds, if there are 7 more that never are. With all 200 linked, the last seven have six others
/// to collide with, then five, and so on: 56 rounds fewer.
pub fn two_hundred(bench: &mut Bench) -> Result<usize, String> {
    let mut random = Random::new(9);
    let draft = collisions::queue(8, 200, PUTS_ALONE, &mut random);
    run(bench, &draft, |came| came == (200, 2_800, 2_800) && draft.records.len() == 207)?;
    let draft = collisions::all_linked(8, 200, &mut random);
    run(bench, &draft, |came| came == (200, 2_744, 2_800) && draft.records.len() == 200)?;
    Ok(2)
}

/// Jobs in which puts, takes and drops are mixed at random: the bound is met each time.
pub fn mixed_jobs(bench: &mut Bench) -> Result<usize, String> {
    const JOBS: usize = 2_000;
    let mut random = Random::new(8);
    for _ in 0..JOBS {
        let processes = random.between(1, PROCESSES) as u8;
        let puts = random.between(1, 20);
        let draft = collisions::queue(processes, puts, collisions::ways(&mut random), &mut random);
        run(bench, &draft, |(_, lost, most)| lost == most)?;
    }
    Ok(JOBS)
}

/// Edits of the lost line of a queue's report, `lost 2`, none of which leaves a report that explains the run.
fn wrong_lines(report: &str) -> Vec<String> {
    let others =
        ["", "lost\n", "lost 1\n", "lost 3\n", "lost 02\n", "lost +2\n", "lost -2\n", "lost 2 \n", "lost  2\n", "lost 2 2\n"];
    let more = ["lost 65538\n", "lost 2\nlost 2\n", "lost 2\n\n", "Lost 2\n", "lost two\n"];
    let without = report.replace("lost 2\n", "");
    let mut wrong: Vec<String> = others.iter().chain(&more).map(|line| report.replace("lost 2\n", line)).collect();
    wrong.push(without.clone() + "lost 2\n");
    wrong.push(without.replacen("at ", "lost 2\nat ", 1));
    wrong.push(without.replacen("op ", "lost 2\nop ", 1));
    wrong
}

/// Whether a report explains the run of a trace.
fn explains(trace: &Trace, report: &str) -> Result<(), String> {
    let stream = trace.draft.stream();
    let job = Job::of_stream(&stream).map_err(|number| format!("no job: {number}"))?;
    let (log, _) = check::logged(&job, None);
    let facts = Facts::of(&job, &check::windows::shut(&job, &[]), &log)?;
    check::explained(&job, &log, &facts, report.as_bytes()).map(drop)
}

/// Whether a report of a trace could be one by its own words alone.
fn within_bound(trace: &Trace, report: &str) -> Result<(), String> {
    let stream = trace.draft.stream();
    let job = Job::of_stream(&stream).map_err(|number| format!("no job: {number}"))?;
    lost::in_report(&job, &Report::of(report.as_bytes())?)
}

fn refused(result: Result<(), String>, report: &str) -> Result<(), String> {
    if result.is_err() { Ok(()) } else { Err(format!("taken, with a wrong lost line:\n{report}")) }
}

/// The checks of a lost line, on lines that are wrong: another text, another place, another count, one over the bound, one of a stack.
pub fn checks(_: &mut Bench) -> Result<usize, String> {
    let trace = samples::lost::take_helps();
    explains(&trace, trace.report)?;
    let wrong = wrong_lines(trace.report);
    for report in &wrong {
        refused(explains(&trace, report), report)?;
    }
    let over =
        [(samples::lost::puts_collide(), "lost 3\n"), (samples::lost::own_help(), "lost 2\n"), (samples::halves(), "lost 1\n")];
    for (trace, line) in &over {
        within_bound(trace, trace.report)?;
        let report = with_line(trace.report, line);
        refused(within_bound(trace, &report), &report)?;
    }
    let stack = samples::fifth();
    let report = stack.report.replace("left", "lost 0\nleft");
    refused(explains(&stack, &report), &report)?;
    Ok(wrong.len() + over.len() + 1)
}

/// A report with another lost line.
fn with_line(report: &str, line: &str) -> String {
    report.split_inclusive('\n').map(|own| if own.starts_with("lost") { line } else { own }).collect()
}
