//! Cuts with their reports, worked out by hand from the papers. Three operations and their header take 18 bytes, so 488 entries go with them
//! into the first block.

use super::{shortened, spoiled};
use crate::check;
use crate::check::parse::Report;
use crate::damage::cards::Spoil;
use crate::failure::kept;
use crate::file::{BLOCK, sealed};
use crate::generate::{Draft, put, take};
use crate::groups::Bench;
use crate::groups::traces::report_is;
use crate::job::{DROP, Record};
use crate::proved;

const KEPT: usize = 488;
/// A process without operations.
const IDLE: u8 = 3;

/// A job, its report, what is another in that of the entries kept, and edits of the latter that no cut can make.
struct Trace {
    draft: Draft,
    whole: &'static str,
    changes: &'static [Edit],
    wrong: &'static [Edit],
}

/// What is there, and what takes its place.
type Edit = (&'static str, &'static str);

impl Trace {
    /// The report of the entries kept.
    fn cut(&self) -> String {
        self.changes.iter().fold(self.whole.to_string(), |text, (own, other)| text.replacen(own, other, 1))
    }
}

/// The first steps of process 0, idle steps up to the last ones kept, those, and the steps behind them.
fn draft(kind: u8, records: &[Record], first: usize, last: &[u8], behind: &[u8]) -> Draft {
    let idle = vec![IDLE; KEPT - first - last.len()];
    Draft { kind, processes: 4, records: records.to_vec(), schedule: [vec![0; first].as_slice(), &idle, last, behind].concat() }
}

/// One reading, and two takes that reach for it.
fn double() -> [Record; 3] {
    [put(0, 500), take(1), take(2)]
}

/// Take 2 makes its T5 at the last step kept, take 3 at the first that is not: the double is none.
fn queue() -> Trace {
    Trace {
        draft: draft(1, &double(), 4, &[1, 2, 1, 2, 1, 2, 1], &[2]),
        whole: "object queue\n\
             op 1 process 0 put 50 first 1 last 4 done\n\
             op 2 process 1 take first 482 last 488 item 1 value 50\n\
             op 3 process 2 take first 483 last 489 item 1 value 50\n\
             at 3 put 1\n\
             at 488 take 1 by 2 3\n\
             lost 0\n\
             left 0\n",
        changes: &[("last 489 item 1 value 50", "last - open"), ("by 2 3", "by 2")],
        wrong: &[
            ("item 1 value 50", "empty"),
            ("item 1 value 50", "item 2 value 50"),
            ("item 1 value 50", "item 1 value 52"),
            ("first 482", "first 481"),
            ("last 488", "last 487"),
            ("last 488 item 1 value 50", "last - open"),
            ("first 483 last - open", "first - last - waiting"),
            ("last - open", "last 489 item 1 value 50"),
            ("last - open", "last - dropped"),
            ("at 3 put", "at 2 put"),
            ("at 3 put 1\n", ""),
            ("at 488 take 1 by 2\n", ""),
            ("at 488", "at 487"),
            ("by 2", "by 2 3"),
            ("by 2", "by 3"),
            ("by 2", "by 1 2"),
            ("lost 0", "lost 1"),
            ("lost 0\n", ""),
        ],
    }
}

/// Both takes have read the mark when take 2 raises it at step 487; take 3 does so at step 489. Without it the line stands at the R1 of take 2.
fn stack() -> Trace {
    Trace {
        draft: draft(2, &double(), 2, &[1, 1, 2, 2, 1, 1], &[2, 2]),
        whole: "object stack\n\
             op 1 process 0 put 50 first 1 last 2 done\n\
             op 2 process 1 take first 483 last 488 item 1 value 50\n\
             op 3 process 2 take first 485 last 490 item 1 value 50\n\
             at 2 put 1\n\
             at 485 take 1 by 2 3\n\
             left 0\n",
        changes: &[("last 490 item 1 value 50", "last - open"), ("at 485 take 1 by 2 3", "at 483 take 1 by 2")],
        wrong: &[
            ("at 483", "at 486"),
            ("by 2", "by 3"),
            ("by 2", "by 2 3 4"),
            ("at 2 put", "at 1 put"),
            ("left", "lost 0\nleft"),
        ],
    }
}

/// Take 2 clears the flag at the last step kept and take 3 finds it cleared: neither has ended, and the line stands where it stood.
fn linked() -> Trace {
    Trace {
        draft: draft(3, &double(), 5, &[1, 1, 1, 2, 2, 2, 1], &[2, 1, 1, 2, 2]),
        whole: "object linked\n\
             op 1 process 0 put 50 first 1 last 5 done\n\
             op 2 process 1 take first 482 last 491 item 1 value 50\n\
             op 3 process 2 take first 485 last 493 item 1 value 50\n\
             at 4 put 1\n\
             at 488 take 1 by 2 3\n\
             left 0\n",
        changes: &[("491 item 1 value 50", "- open"), ("493 item 1 value 50", "- open"), ("by 2 3", "by 2")],
        wrong: &[
            ("at 488", "at 487"),
            ("at 488", "at 489"),
            ("at 488 take 1 by 2\n", ""),
            ("by 2", "by 1"),
            ("last 5 done", "last - open"),
            ("linked", "stack"),
        ],
    }
}

/// Take 1 ends empty with the first step that is not kept: its line, at a kept step, is gone. Put 3 has not begun, take 2 never does.
fn gone() -> Trace {
    Trace {
        draft: draft(1, &[take(0), take(1), put(2, 500)], 0, &[0, 0], &[0, 2, 2, 2, 2]),
        whole: "object queue\n\
             op 1 process 0 take first 487 last 489 empty\n\
             op 2 process 1 take first - last - waiting\n\
             op 3 process 2 put 50 first 490 last 493 done\n\
             at 487 empty by 1\n\
             at 492 put 3\n\
             lost 0\n\
             left 1 3\n",
        changes: &[
            ("last 489 empty", "last - open"),
            ("first 490 last 493 done", "first - last - waiting"),
            ("at 487 empty by 1\nat 492 put 3\n", ""),
            ("left 1 3", "left 0"),
        ],
        wrong: &[
            ("lost", "at 487 empty by 1\nlost"),
            ("lost", "at 492 put 3\nlost"),
            ("lost", "at 487 empty by 2\nlost"),
            ("first - last - waiting\nlost", "first 490 last - open\nlost"),
        ],
    }
}

/// Put 1 is linked with the last step kept, and dropped with the next. Take 2 drops in the kept steps; take 3 ends empty in them.
fn dropped() -> Trace {
    Trace {
        draft: draft(1, &double(), 0, &[1, DROP + 1, 2, 2, 2, 0, 0, 0], &[DROP]),
        whole: "object queue\n\
             op 1 process 0 put 50 first 486 last - dropped\n\
             op 2 process 1 take first 481 last - dropped\n\
             op 3 process 2 take first 483 last 485 empty\n\
             at 483 empty by 3\n\
             at 488 put 1\n\
             lost 0\n\
             left 1 1\n",
        changes: &[("first 486 last - dropped", "first 486 last - open")],
        wrong: &[
            ("at 488 put 1\n", ""),
            ("at 483 empty by 3\n", ""),
            ("at 483", "at 482"),
            ("first 481 last -", "first 481 last 482"),
        ],
    }
}

fn traces() -> [Trace; 5] {
    [queue(), stack(), linked(), gone(), dropped()]
}

/// The table of proved traces of jobs cut short: the reports of the whole job and of its first entries.
pub fn proved(bench: &mut Bench) -> Result<usize, String> {
    let traces = proved::cut_traces()?;
    for (trace, number) in traces.iter().zip(1..) {
        let mut cut = trace.draft.clone();
        cut.schedule.truncate(trace.kept);
        for (draft, report) in [(&trace.draft, &trace.expected), (&cut, &trace.remains)] {
            report_is(bench, &format!("cut trace {number}"), &sealed(&draft.stream()), &[], report.as_bytes())?;
        }
    }
    Ok(traces.len())
}

/// The second block spoiled, and not there: both sides keep 488 entries and give the report of them.
pub fn by_hand(bench: &mut Bench) -> Result<usize, String> {
    let traces = traces();
    for trace in &traces {
        let stream = trace.draft.stream();
        let file = sealed(&stream);
        report_is(bench, "the undamaged job", &file, &[], trace.whole.as_bytes())?;
        for input in [spoiled(&file, &[(1, Spoil::Byte(20, 1))], &[]), file[..2 * BLOCK - 1].to_vec()] {
            let answer = bench.compare.salvage(&input)?;
            let output = bench.compare.output(answer).to_vec();
            if output != sealed(&shortened(&stream, KEPT)) {
                return Err(kept("spoiled.card", &input, format!("not 488 entries: {answer}")));
            }
            report_is(bench, "the entries kept", &output, &[], trace.cut().as_bytes())?;
        }
    }
    Ok(2 * traces.len())
}

/// The checks of a salvage, on what is wrong: reports that no cut gives, and other numbers and other bytes than those that come out.
pub fn checks(_: &mut Bench) -> Result<usize, String> {
    let mut count = 0;
    for trace in traces() {
        let (before, cut) = (Report::of(trace.whole.as_bytes())?, trace.cut());
        let holds = |text: &str| check::shortened::holds(&before, &Report::of(text.as_bytes())?, KEPT as u16);
        holds(&cut)?;
        for (own, other) in trace.wrong {
            if !cut.contains(own) || holds(&cut.replacen(own, other, 1)).is_ok() {
                return Err(format!("{other:?} for {own:?} passes in\n{cut}"));
            }
        }
        count += trace.wrong.len() + wrong_answers(&trace.draft)?;
    }
    Ok(count)
}

fn wrong_answers(draft: &Draft) -> Result<usize, String> {
    let stream = draft.stream();
    let input = &sealed(&stream)[..BLOCK];
    let mut output = sealed(&shortened(&stream, KEPT));
    check::salvage::answers(input, 0, &output)?;
    let passes = |number: u32, output: &[u8]| check::salvage::answers(input, number, output).is_ok();
    let longer = [output.as_slice(), &[0; BLOCK]].concat();
    let one_less = sealed(&shortened(&stream, KEPT - 1));
    if (1..20).any(|number| passes(number, &[])) || passes(0, &[]) || passes(0, &longer) || passes(0, &one_less) {
        return Err("a wrong number or a wrong length passes".to_string());
    }
    for at in 0..output.len() {
        output[at] ^= 1;
        if passes(0, &output) {
            return Err(format!("another byte {at} passes"));
        }
        output[at] ^= 1;
    }
    Ok(output.len() + 22)
}
