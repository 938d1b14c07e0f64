//! Queues that lose as many rounds as document 02 allows. For every node that is linked, each other process has a put whose Q3 comes too late
//! and then an operation that finds Tail behind: Q5 of that put or, once it is dropped, T4 of a take. A put that is dropped before its Q4
//! leaves its own process to help as well.

use super::{Draft, put, take};
use crate::job::{DROP, OPERATIONS, PROCESSES};
use crate::random::Random;

/// What the processes do beside putting.
#[derive(Clone, Copy, Debug)]
pub struct Ways {
    /// Of those that help, one in so many does it with a take; or none.
    pub takes: Option<usize>,
    /// Of the linked puts, one in so many is dropped before its Q4; or none.
    pub cuts: Option<usize>,
}

pub const PUTS_ALONE: Ways = Ways { takes: None, cuts: None };

/// A queue in which up to so many puts are linked, as far as the operations of a job go.
pub fn queue(processes: u8, puts: usize, ways: Ways, random: &mut Random) -> Draft {
    let mut collisions = Collisions::new(processes, random);
    let mut linked = 0;
    while linked < puts && collisions.have_room(ways, OPERATIONS) {
        collisions.begin_puts();
        collisions.link(ways);
        linked += 1;
    }
    collisions.draft
}

/// A queue of so many puts, all of them linked: towards the end fewer and fewer are there to collide.
pub fn all_linked(processes: u8, puts: usize, random: &mut Random) -> Draft {
    let mut collisions = Collisions::new(processes, random);
    while collisions.have_room(PUTS_ALONE, puts) {
        collisions.begin_puts();
        collisions.link(PUTS_ALONE);
    }
    while collisions.putting.contains(&true) {
        collisions.link(PUTS_ALONE);
    }
    collisions.draft
}

/// Any of these queues, at times ended too soon.
pub fn job(random: &mut Random) -> Draft {
    let processes = random.between(1, PROCESSES) as u8;
    let puts = *random.pick(&[1, 3, 10, 40, OPERATIONS]);
    let mut draft = queue(processes, puts, ways(random), random);
    if random.chance(3) {
        draft.schedule.truncate(random.below(draft.schedule.len()));
    }
    draft
}

pub fn ways(random: &mut Random) -> Ways {
    let one_in = [None, Some(1), Some(2), Some(5)];
    Ways { takes: *random.pick(&one_in), cuts: *random.pick(&one_in) }
}

struct Collisions<'a> {
    draft: Draft,
    /// By process: whether it is at a put that is not linked.
    putting: Vec<bool>,
    /// Whether some item is left that no take got. Head is then behind Tail for good, and takes find nothing to help.
    item_left: bool,
    random: &'a mut Random,
}

impl Collisions<'_> {
    fn new(processes: u8, random: &mut Random) -> Collisions<'_> {
        let draft = Draft { kind: 1, processes, records: vec![], schedule: vec![] };
        Collisions { draft, putting: vec![false; usize::from(processes)], item_left: false, random }
    }

    /// Whether a job of so many operations has room for those that another node may begin.
    fn have_room(&self, ways: Ways, operations: usize) -> bool {
        let puts = self.putting.iter().filter(|putting| !**putting).count();
        let takes = if ways.takes.is_some() { self.putting.len() - 1 } else { 0 };
        let after_cut = usize::from(ways.cuts.is_some());
        self.draft.records.len() + puts + takes + after_cut <= operations
    }

    fn chance(&mut self, one_in: Option<usize>) -> bool {
        one_in.is_some_and(|one_in| self.random.chance(one_in))
    }

    /// Every process that is at no put begins one.
    fn begin_puts(&mut self) {
        for process in 0..self.draft.processes {
            if !self.putting[usize::from(process)] {
                self.begin_put(process);
            }
        }
    }

    fn begin_put(&mut self, process: u8) {
        let value = self.random.word() as i16;
        self.draft.records.push(put(process, value));
        self.putting[usize::from(process)] = true;
    }

    fn begin_take(&mut self, process: u8) {
        self.draft.records.push(take(process));
        self.putting[usize::from(process)] = false;
    }

    /// Adds the entries of several processes, those of each in their order and otherwise in any.
    fn mingle(&mut self, entries: Vec<Vec<u8>>) {
        let mut order: Vec<usize> = entries.iter().enumerate().flat_map(|(i, own)| vec![i; own.len()]).collect();
        self.random.shuffle(&mut order);
        let mut entries: Vec<_> = entries.into_iter().map(Vec::into_iter).collect();
        self.draft.schedule.extend(order.into_iter().filter_map(|i| entries[i].next()));
    }

    /// So many steps of each of these processes.
    fn each(&mut self, processes: &[u8], steps: usize) {
        self.mingle(processes.iter().map(|&process| vec![process; steps]).collect());
    }

    /// One node: all that put have read that the last one has no next when one of them links its own, and the others lose two rounds.
    fn link(&mut self, ways: Ways) {
        let mut all: Vec<u8> = (0..self.draft.processes).filter(|&process| self.putting[usize::from(process)]).collect();
        self.random.shuffle(&mut all);
        // Q1, Q2 of all; Q3 of one; Q3 of the others
        self.each(&all, 2);
        self.each(&all[..1], 1);
        self.each(&all[1..], 1);
        let cut = self.chance(ways.cuts);
        let takers = self.come_to_help(&all, cut, ways);
        // Q5 or T4 of those who help, Q4 of the linked put unless it was dropped
        self.each(&all, 1);
        // T1, T2, T3, then T5, which hands the item out
        self.each(&takers, 3);
        self.each(&takers, 1);
        self.item_left |= takers.is_empty();
    }

    /// Of these processes, the first of which has linked its node, those who help come to stand before Q5 or T4; gives those before T4.
    fn come_to_help(&mut self, all: &[u8], cut: bool, ways: Ways) -> Vec<u8> {
        let mut takers = vec![];
        let mut entries = vec![];
        self.putting[usize::from(all[0])] = false;
        for &process in &all[usize::from(!cut)..] {
            let takes = !self.item_left && self.chance(ways.takes);
            // the put that came too late, or that is linked
            let drops = takes || !self.putting[usize::from(process)];
            if takes {
                self.begin_take(process);
                takers.push(process);
            } else if drops {
                self.begin_put(process);
            }
            // T1, T2, T3 or Q1, Q2
            let reads = if takes { 3 } else { 2 };
            entries.push([vec![DROP + process; usize::from(drops)], vec![process; reads]].concat());
        }
        self.mingle(entries);
        takers
    }
}
