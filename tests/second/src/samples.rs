//! Sample jobs: the traces of document 01, as document 02 has them, jobs with drops, jobs that lose rounds and one with windows, with their
//! texts, written out by hand, the jobs that docs/ shows, a full-size hour of a flood, and a spoiled card.

pub mod drops;
pub mod flood;
pub mod lost;
pub mod satellite;
pub mod spoiled;

use crate::generate::{Draft, put, take, turns};
use crate::windows::Windows;

/// A job and the report that the papers give for it, or that follows from them by hand.
pub struct Trace {
    pub name: &'static str,
    pub draft: Draft,
    pub report: &'static str,
}

fn trace(name: &'static str, kind: u8, processes: u8, records: &[[u8; 4]], schedule: &[u8], report: &'static str) -> Trace {
    Trace { name, draft: Draft { kind, processes, records: records.to_vec(), schedule: schedule.to_vec() }, report }
}

/// The report of document 01, whole.
pub fn listing() -> Trace {
    trace(
        "the listing",
        1,
        3,
        &[put(0, 500), take(1), take(2)],
        &[0, 0, 0, 0, 1, 2, 1, 2, 1, 2, 1, 2],
        "object queue\n\
         op 1 process 0 put 50 first 1 last 4 done\n\
         op 2 process 1 take first 5 last 11 item 1 value 50\n\
         op 3 process 2 take first 6 last 12 item 1 value 50\n\
         at 3 put 1\n\
         at 11 take 1 by 2 3\n\
         lost 0\n\
         left 0\n",
    )
}

/// The trace that pops under item 3 when a stack line is set at R3.
pub fn fifth() -> Trace {
    trace(
        "the fifth trace",
        2,
        2,
        &[put(0, 1200), take(1), put(0, 1305)],
        &[0, 0, 1, 1, 0, 0, 0, 1, 1],
        "object stack\n\
         op 1 process 0 put 120 first 1 last 2 done\n\
         op 2 process 1 take first 3 last 9 item 1 value 120\n\
         op 3 process 0 put 130 first 5 last 7 done\n\
         at 2 put 1\n\
         at 3 take 1 by 2\n\
         at 7 put 3\n\
         left 1 3\n",
    )
}

/// Stages half way between two centimetres, and one that is not.
pub fn halves() -> Trace {
    trace(
        "halves of a centimetre",
        1,
        1,
        &[put(0, 504), put(0, 505), put(0, 515)],
        &[0; 12],
        "object queue\n\
         op 1 process 0 put 50 first 1 last 4 done\n\
         op 2 process 0 put 50 first 5 last 8 done\n\
         op 3 process 0 put 52 first 9 last 12 done\n\
         at 3 put 1\n\
         at 7 put 2\n\
         at 11 put 3\n\
         lost 0\n\
         left 3 1 2 3\n",
    )
}

/// Stages below the datum: halves, what prints 0, and the lowest; and the highest of all. The first two are taken.
pub fn below_datum() -> Trace {
    trace(
        "stages below the datum",
        1,
        2,
        &[put(0, -5), put(0, -15), put(0, -25), put(0, -1), put(0, -32_768), put(0, -32_765), put(0, 32_767), take(1), take(1)],
        &[[0; 28].as_slice(), &[1; 8]].concat(),
        "object queue\n\
         op 1 process 0 put 0 first 1 last 4 done\n\
         op 2 process 0 put -2 first 5 last 8 done\n\
         op 3 process 0 put -2 first 9 last 12 done\n\
         op 4 process 0 put 0 first 13 last 16 done\n\
         op 5 process 0 put -3277 first 17 last 20 done\n\
         op 6 process 0 put -3276 first 21 last 24 done\n\
         op 7 process 0 put 3277 first 25 last 28 done\n\
         op 8 process 1 take first 29 last 32 item 1 value 0\n\
         op 9 process 1 take first 33 last 36 item 2 value -2\n\
         at 3 put 1\n\
         at 7 put 2\n\
         at 11 put 3\n\
         at 15 put 4\n\
         at 19 put 5\n\
         at 23 put 6\n\
         at 27 put 7\n\
         at 32 take 1 by 8\n\
         at 36 take 2 by 9\n\
         lost 0\n\
         left 5 3 4 5 6 7\n",
    )
}

fn short_traces() -> Vec<Trace> {
    vec![
        trace(
            "one take of an empty queue",
            1,
            1,
            &[take(0)],
            &[0, 0, 0],
            "object queue\nop 1 process 0 take first 1 last 3 empty\nat 1 empty by 1\nlost 0\nleft 0\n",
        ),
        trace(
            "one open put",
            1,
            1,
            &[put(0, -32_768)],
            &[0, 0, 0],
            "object queue\nop 1 process 0 put -3277 first 1 last - open\nat 3 put 1\nlost 0\nleft 1 1\n",
        ),
        trace(
            "no steps",
            1,
            3,
            &[put(0, 504), take(1), put(2, 515)],
            &[],
            "object queue\n\
             op 1 process 0 put 50 first - last - waiting\n\
             op 2 process 1 take first - last - waiting\n\
             op 3 process 2 put 52 first - last - waiting\n\
             lost 0\n\
             left 0\n",
        ),
    ]
}

fn stack_traces() -> Vec<Trace> {
    let records = [put(0, 515), take(1), take(2)];
    vec![
        trace(
            "two takers of one item",
            2,
            3,
            &records,
            &[0, 0, 1, 1, 2, 2, 1, 1, 2, 2],
            "object stack\n\
             op 1 process 0 put 52 first 1 last 2 done\n\
             op 2 process 1 take first 3 last 8 item 1 value 52\n\
             op 3 process 2 take first 5 last 10 item 1 value 52\n\
             at 2 put 1\n\
             at 5 take 1 by 2 3\n\
             left 0\n",
        ),
        trace(
            "the second taker finds nothing",
            2,
            3,
            &records,
            &[0, 0, 1, 1, 2, 1, 2, 2, 2, 1],
            "object stack\n\
             op 1 process 0 put 52 first 1 last 2 done\n\
             op 2 process 1 take first 3 last 10 item 1 value 52\n\
             op 3 process 2 take first 5 last 9 empty\n\
             at 2 put 1\n\
             at 3 take 1 by 2\n\
             at 9 empty by 3\n\
             left 0\n",
        ),
    ]
}

/// All jobs that have a text.
pub fn traces() -> Vec<Trace> {
    let mut traces = vec![listing(), fifth(), halves(), below_datum()];
    traces.extend([drops::put_dropped(), drops::take_dropped(), drops::nothing_dropped()]);
    traces.extend([lost::puts_collide(), lost::take_helps(), lost::own_help()]);
    traces.push(satellite::unbooked());
    traces.extend(short_traces());
    traces.extend(stack_traces());
    traces
}

/// The sample jobs by the names of their files.
pub fn all() -> Vec<(&'static str, Draft)> {
    let mut samples = vec![("listing", listing().draft), ("fifth-trace", fifth().draft), ("flood-hour", flood::hour())];
    samples.extend(alone());
    samples.extend(met());
    samples.push(("halves", halves().draft));
    samples.push(("below-datum", below_datum().draft));
    samples.push(("drop-put", drops::put_dropped().draft));
    samples.push(("drop-take", drops::take_dropped().draft));
    samples.push(("drop-idle", drops::nothing_dropped().draft));
    samples.push(("satellite", satellite::unbooked().draft));
    samples.push(("salvaged", spoiled::salvaged()));
    samples.push(("smallest", smallest()));
    samples
}

/// The spoiled cards by the names of their files, and the samples that come out of them.
pub fn cards() -> [(&'static str, Vec<u8>, &'static str); 1] {
    [("spoiled", spoiled::card(), "salvaged")]
}

/// Those that have windows beside them, and their reports within.
pub fn within() -> [(&'static str, Windows, &'static str); 1] {
    [("satellite", satellite::windows(), satellite::BOOKED)]
}

fn queue(processes: u8, records: &[[u8; 4]], schedule: &[u8]) -> Draft {
    Draft { kind: 1, processes, records: records.to_vec(), schedule: schedule.to_vec() }
}

fn stack(processes: u8, records: &[[u8; 4]], schedule: &[u8]) -> Draft {
    Draft { kind: 2, ..queue(processes, records, schedule) }
}

fn linked(processes: u8, records: &[[u8; 4]], schedule: &[u8]) -> Draft {
    Draft { kind: 3, ..queue(processes, records, schedule) }
}

/// The jobs of docs/STEPS.md where nobody else steps in between: how many steps each operation makes.
fn alone() -> [(&'static str, Draft); 3] {
    let in_turn = [take(0), put(0, 1200), put(0, 1310), take(0), take(0)];
    [
        ("queue-alone", queue(1, &[take(0), put(0, 1200), take(0)], &[0; 11])),
        ("stack-alone", stack(1, &in_turn, &[0; 14])),
        ("linked-alone", linked(1, &in_turn, &[0; 24])),
    ]
}

/// The jobs of docs/STEPS.md where operations meet: a put that stays open, a take that stays open, doubles on a stack and on a linked one.
fn met() -> [(&'static str, Draft); 5] {
    let double = [put(0, 1200), take(1), take(2)];
    [
        ("open-put", queue(2, &[put(0, 1200), take(1)], &[0, 0, 0, 1, 1, 1, 1, 1, 1, 1, 1])),
        ("open-take", stack(3, &double, &[0, 0, 1, 1, 1, 2, 2, 2, 2])),
        ("stack-double", stack(3, &double, &[0, 0, 1, 1, 2, 2, 1, 1, 2, 2])),
        ("linked-double", linked(3, &double, &turns(&[(0, 5), (1, 3), (2, 3), (1, 3), (2, 3)]))),
        ("linked-help", linked_help()),
    ]
}

/// Put 1 stops before its V5, so put 2 finds Top behind: V6. Take 3 stops behind its W4, so put 4 finds a dead node on top: V7, V8. Then
/// 1 and 3 end.
fn linked_help() -> Draft {
    let schedule = turns(&[(0, 4), (1, 8), (2, 4), (3, 10), (0, 1), (2, 2)]);
    linked(4, &[put(0, 1200), put(1, 1310), take(2), put(3, 1420)], &schedule)
}

/// The job whose file docs/FORMAT.md shows byte by byte: a put of 0 mm by process 1, and an idle step of process 0.
fn smallest() -> Draft {
    queue(2, &[put(1, 0)], &[1, 0, 1, 1, 1])
}
