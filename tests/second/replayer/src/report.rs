//! The report of a run: a line for each operation, the record in step order, for a queue the rounds lost, and what is left.

use crate::job::{self, Action, Job, Kind, OPERATIONS, Record};
use crate::linked::Linked;
use crate::machine::{Answer, CELLS, Journal, Machine, NONE, Object, run};
use crate::queue::Queue;
use crate::stack::Stack;
use crate::text::Text;
use crate::watch::{Nobody, Watch};
use crate::windows::Windows;

/// Runs a job, within windows if there are any, and writes its report into `memory`; gives the report's length.
pub fn replay(job: &Job, windows: Option<&Windows>, memory: &mut [u8]) -> usize {
    replay_watched(job, windows, memory, &mut Nobody)
}

pub fn replay_watched(job: &Job, windows: Option<&Windows>, memory: &mut [u8], watch: &mut impl Watch) -> usize {
    match job.kind {
        Kind::Queue => report(job, &run::<Queue>(job, windows, watch), memory),
        Kind::Stack => report(job, &run::<Stack>(job, windows, watch), memory),
        Kind::Linked => report(job, &run::<Linked>(job, windows, watch), memory),
    }
}

fn report<O: Object>(job: &Job, machine: &Machine<O>, memory: &mut [u8]) -> usize {
    let mut text = Text::new(memory);
    text.words("object ");
    text.words(O::NAME);
    text.words("\n");
    for number in 1..=job.records.len() {
        operation(&mut text, number, job.records, &machine.journal);
    }
    record(&mut text, job.records, &machine.journal);
    lost(&mut text, machine.object.lost());
    left(&mut text, &machine.object);
    text.length()
}

/// A value in whole cm: the nearest, and half way between two the even one, above zero and below.
fn centimetres(record: &Record) -> i32 {
    let value = job::value(record);
    let below = value.div_euclid(10);
    match value.rem_euclid(10) {
        0..5 => below,
        5 => below + below.rem_euclid(2),
        _ => below + 1,
    }
}

fn step(text: &mut Text, step: u16) {
    if step == 0 { text.words("-") } else { text.number(step) }
}

fn operation(text: &mut Text, number: usize, records: &[Record], journal: &Journal) {
    let own = &records[number - 1];
    text.words("op ");
    text.number(number as u16);
    text.words(" process ");
    text.number(u16::from(job::process(own)));
    match job::action(own) {
        Action::Put => {
            text.words(" put ");
            text.signed(centimetres(own));
        }
        Action::Take => text.words(" take"),
    }
    text.words(" first ");
    step(text, journal.first[number]);
    text.words(" last ");
    step(text, journal.last[number]);
    if journal.first[number] == 0 {
        text.words(" waiting\n");
    } else if journal.dropped[number] != 0 {
        text.words(" dropped\n");
    } else if journal.last[number] == 0 {
        text.words(" open\n");
    } else {
        answer(text, journal.answer[number], records);
    }
}

fn answer(text: &mut Text, answer: Answer, records: &[Record]) {
    match answer {
        Answer::Done => text.words(" done\n"),
        Answer::Empty => text.words(" empty\n"),
        Answer::Item(item) => {
            text.words(" item ");
            text.number(item);
            text.words(" value ");
            text.signed(centimetres(&records[usize::from(item) - 1]));
            text.words("\n");
        }
    }
}

#[derive(Clone, Copy)]
enum Line {
    Put(u16),
    Take(u16),
    Empty(u16),
}

/// Each item's takers as a chain in ascending order: by item its first taker, by taker the next one.
struct Takers {
    first: [u16; CELLS],
    next: [u16; CELLS],
}

impl Takers {
    fn of(journal: &Journal, operations: usize) -> Takers {
        let mut takers = Takers { first: [NONE; CELLS], next: [NONE; CELLS] };
        for number in (1..=operations).rev() {
            let item = journal.item[number];
            if item != NONE {
                takers.next[number] = takers.first[usize::from(item)];
                takers.first[usize::from(item)] = number as u16;
            }
        }
        takers
    }
}

/// The record: every line stands at a step of its own.
fn record(text: &mut Text, records: &[Record], journal: &Journal) {
    let mut lines = [(0, Line::Put(NONE)); 2 * OPERATIONS];
    let mut count = 0;
    let mut add = |step: u16, line: Line| {
        lines[count] = (step, line);
        count += 1;
    };
    for number in 1..=records.len() {
        let own = number as u16;
        if journal.change[number] != 0 {
            add(journal.change[number], Line::Put(own));
        }
        if journal.taken[number] != 0 {
            add(journal.taken[number], Line::Take(own));
        }
        if journal.last[number] != 0 && journal.answer[number] == Answer::Empty {
            add(journal.start[number], Line::Empty(own));
        }
    }
    let takers = Takers::of(journal, records.len());
    let lines = &mut lines[..count];
    lines.sort_unstable_by_key(|&(step, _)| step);
    for &(step, line) in lines.iter() {
        print_line(text, step, line, &takers);
    }
}

fn print_line(text: &mut Text, step: u16, line: Line, takers: &Takers) {
    text.words("at ");
    text.number(step);
    match line {
        Line::Put(own) => {
            text.words(" put ");
            text.number(own);
        }
        Line::Empty(own) => {
            text.words(" empty by ");
            text.number(own);
        }
        Line::Take(item) => {
            text.words(" take ");
            text.number(item);
            text.words(" by");
            let mut taker = takers.first[usize::from(item)];
            while taker != NONE {
                text.words(" ");
                text.number(taker);
                taker = takers.next[usize::from(taker)];
            }
        }
    }
    text.words("\n");
}

fn lost(text: &mut Text, rounds: Option<u16>) {
    if let Some(rounds) = rounds {
        text.words("lost ");
        text.number(rounds);
        text.words("\n");
    }
}

fn left<O: Object>(text: &mut Text, object: &O) {
    let mut items = [NONE; OPERATIONS];
    let mut count = 0;
    object.left(|item| {
        items[count] = item;
        count += 1;
    });
    text.words("left ");
    text.number(count as u16);
    for &item in &items[..count] {
        text.words(" ");
        text.number(item);
    }
    text.words("\n");
}
