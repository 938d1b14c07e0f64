//! Reports within windows, worked out by hand from the papers, and those that are proved.

use super::{OPEN, windows};
use crate::check::{self, Facts, Seen, cut};
use crate::file::sealed;
use crate::generate::{Draft, put, take, turns};
use crate::groups::Bench;
use crate::groups::traces::report_is;
use crate::job::{DROP, Job};
use crate::proved;
use crate::windows::{Window, Windows};

type Trace = (Draft, Windows, &'static str);

/// The listing of document 01, five seconds before 10:00, which is step 6. Take 2 may work from then on, and take 3 until then, so that it has
/// no step.
fn listing() -> Trace {
    let draft = Draft {
        kind: 1,
        processes: 3,
        records: vec![put(0, 500), take(1), take(2)],
        schedule: vec![0, 0, 0, 0, 1, 2, 1, 2, 1, 2, 1, 2],
    };
    let entries = [OPEN, Window { opening: 600, ..OPEN }, Window { closing: 600, ..OPEN }];
    let report = "object queue\n\
         op 1 process 0 put 50 first 1 last 4 done\n\
         op 2 process 1 take first 7 last - open\n\
         op 3 process 2 take first - last - waiting\n\
         at 3 put 1\n\
         lost 0\n\
         left 1 1\n";
    (draft, windows((2_024, 2, 29), 35_995, &entries), report)
}

/// Uplink 1 may work on Sundays. It is in the middle of take 2 when 31 December 2023 ends, and Monday begins with step 7: its drop there is shut,
/// so take 2 stays open. Put 4 takes the marked node off, at step 10.
fn shut_drop() -> Trace {
    let draft = Draft {
        kind: 2,
        processes: 2,
        records: vec![put(0, 1200), take(1), take(1), put(0, 1310)],
        schedule: turns(&[(0, 2), (1, 3), (DROP, 1), (DROP + 1, 1), (0, 3), (1, 1), (0, 2)]),
    };
    let entries = [OPEN, Window { weekdays: 64, ..OPEN }];
    let report = "object stack\n\
         op 1 process 0 put 120 first 1 last 2 done\n\
         op 2 process 1 take first 3 last - open\n\
         op 3 process 1 take first - last - waiting\n\
         op 4 process 0 put 131 first 8 last 13 done\n\
         at 2 put 1\n\
         at 3 take 1 by 2\n\
         at 13 put 4\n\
         left 1 4\n";
    (draft, windows((2_023, 12, 31), 86_394, &entries), report)
}

/// Both processes may work on Wednesdays, as 1 March 2000 is one, which begins with step 3.
fn late_start() -> Trace {
    let draft = Draft {
        kind: 3,
        processes: 2,
        records: vec![put(0, 1200), take(1)],
        schedule: turns(&[(0, 1), (DROP + 1, 1), (0, 5), (1, 6)]),
    };
    let wednesday = Window { weekdays: 4, ..OPEN };
    let report = "object linked\n\
         op 1 process 0 put 120 first 3 last 7 done\n\
         op 2 process 1 take first 8 last 13 item 1 value 120\n\
         at 6 put 1\n\
         at 11 take 1 by 2\n\
         left 0\n";
    (draft, windows((2_000, 2, 29), 86_398, &[wednesday, wednesday]), report)
}

fn traces() -> [(&'static str, Trace); 3] {
    [("the listing within windows", listing()), ("a shut drop", shut_drop()), ("a late start", late_start())]
}

fn trace_is(bench: &mut Bench, name: &str, draft: &Draft, block: &[u8], report: &str) -> Result<Seen, String> {
    let stream = draft.stream();
    let file = sealed(&stream);
    report_is(bench, name, &file, block, report.as_bytes())?;
    bench.compare.run(&stream, &file, block).map_err(|why| format!("{name}: {why}"))
}

pub fn by_hand(bench: &mut Bench) -> Result<usize, String> {
    let traces = traces();
    for (name, (draft, windows, report)) in &traces {
        trace_is(bench, name, draft, &windows.block(), report)?;
    }
    Ok(traces.len())
}

/// The table of proved traces. In some of them a window opens, in some one closes, and in some a drop is shut.
pub fn proved(bench: &mut Bench) -> Result<usize, String> {
    let traces = proved::window_traces()?;
    let mut all = Seen::default();
    for (trace, number) in traces.iter().zip(1..) {
        all.add(&trace_is(bench, &format!("trace {number}"), &trace.draft, &trace.windows, &trace.expected)?);
    }
    if all.shut.all() { Ok(traces.len()) } else { Err(format!("not all is met in {} traces: {:?}", traces.len(), all.shut)) }
}

/// The checks of a run within windows, on what takes no heed of them: the steps and the report of the whole job, and the report of the job
/// without its shut entries under step numbers of its own.
pub fn checks(_: &mut Bench) -> Result<usize, String> {
    let traces = traces();
    traces.iter().try_for_each(|(name, trace)| heeded(trace).map_err(|why| format!("{name}: {why}")))?;
    Ok(4 * traces.len())
}

fn heeded((draft, windows, report): &Trace) -> Result<(), String> {
    let no_job = |number| format!("no job: {number}");
    let stream = draft.stream();
    let job = Job::of_stream(&stream).map_err(no_job)?;
    let (shut, none_shut) = (check::windows::shut(&job, &windows.block()), vec![false; draft.schedule.len()]);
    let cut = cut::stream(&stream, &shut);
    let (log, _) = check::logged(&job, Some(windows));
    let (whole_log, whole_report) = check::logged(&job, None);
    let (_, cut_report) = check::logged(&Job::of_stream(&cut).map_err(no_job)?, None);
    let facts = Facts::of(&job, &shut, &log)?;
    let explains = |report: &[u8]| check::explained(&job, &log, &facts, report).is_ok();
    let right = explains(report.as_bytes()) && cut::numbered_back(&cut_report, &shut) == report.as_bytes();
    let wrong = [
        explains(&whole_report),
        explains(&cut_report),
        Facts::of(&job, &shut, &whole_log).is_ok(),
        Facts::of(&job, &none_shut, &log).is_ok(),
    ];
    if right && wrong == [false; 4] { Ok(()) } else { Err(format!("the right one is taken: {right}; wrong ones: {wrong:?}")) }
}
