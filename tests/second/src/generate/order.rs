//! Orders of steps: even, uneven and hostile ones. One of them has drops.

use super::{Draft, Style};
use crate::job::DROP;
use crate::linked::Linked;
use crate::machine::{Machine, Object};
use crate::queue::Queue;
use crate::random::Random;
use crate::stack::Stack;
use crate::watch::{Nobody, ROWS, Row};

pub enum Order {
    Uniform,
    Weighted,
    Lockstep,
    Periodic,
    FarBehind,
    Bursts,
    Sequential,
    Stalled,
    Gathered,
    HeldBack,
    Crowded,
    CutOff,
}

impl Order {
    /// The order that a style names; the styles that name none take any.
    pub fn of(style: Style, random: &mut Random) -> Order {
        match style {
            Style::Uniform => Order::Uniform,
            Style::Weighted => Order::Weighted,
            Style::Lockstep => Order::Lockstep,
            Style::Periodic => Order::Periodic,
            Style::FarBehind => Order::FarBehind,
            Style::Bursts => Order::Bursts,
            Style::Sequential => Order::Sequential,
            Style::Stalled => Order::Stalled,
            Style::Gathered => Order::Gathered,
            Style::HeldBack => Order::HeldBack,
            Style::CutOff => Order::CutOff,
            _ => match random.below(8) {
                0 => Order::Uniform,
                1 => Order::Weighted,
                2 => Order::Lockstep,
                3 => Order::FarBehind,
                4 => Order::Bursts,
                5 => Order::Crowded,
                6 => Order::HeldBack,
                _ => Order::Gathered,
            },
        }
    }

    pub fn schedule(&self, draft: &Draft, steps: usize, random: &mut Random) -> Vec<u8> {
        let processes = usize::from(draft.processes);
        match self {
            Order::Uniform => (0..steps).map(|_| random.below(processes) as u8).collect(),
            Order::Weighted => weighted(processes, steps, random),
            Order::Lockstep => (0..steps).map(|step| (step % processes) as u8).collect(),
            Order::Periodic => periodic(processes, steps, random),
            Order::FarBehind => far_behind(processes, steps, random),
            Order::Bursts => bursts(processes, steps, random),
            Order::Sequential => (0..steps).map(|step| (step * processes / steps) as u8).collect(),
            Order::Stalled => stalled(processes, steps, random),
            Order::Gathered => {
                let walls = std::array::from_fn(|_| random.chance(4));
                gathered_by_kind(draft, steps, walls, None, random)
            }
            Order::HeldBack => {
                let rows = changing_rows(draft.kind);
                let held = std::array::from_fn::<_, 2, _>(|_| *random.pick(rows));
                gathered_by_kind(draft, steps, walls(&held), None, random)
            }
            Order::Crowded => gathered_by_kind(draft, steps, walls(changing_rows(draft.kind)), None, random),
            Order::CutOff => {
                let walls = std::array::from_fn(|_| random.chance(2));
                let one_in = *random.pick(&[2, 4, 10]);
                gathered_by_kind(draft, steps, walls, Some(one_in), random)
            }
        }
    }
}

/// Every process has a weight of its own, some of them a hundred times another's.
fn weighted(processes: usize, steps: usize, random: &mut Random) -> Vec<u8> {
    let urn: Vec<u8> = (0..processes as u8).flat_map(|process| vec![process; *random.pick(&[1, 3, 10, 100])]).collect();
    (0..steps).map(|_| *random.pick(&urn)).collect()
}

/// A short word over the processes, again and again.
fn periodic(processes: usize, steps: usize, random: &mut Random) -> Vec<u8> {
    let length = random.between(1, 12);
    let word: Vec<u8> = (0..length).map(|_| random.below(processes) as u8).collect();
    word.iter().copied().cycle().take(steps).collect()
}

/// One process is scheduled seldom, then, at the end, often.
fn far_behind(processes: usize, steps: usize, random: &mut Random) -> Vec<u8> {
    let behind = random.below(processes) as u8;
    let seldom = *random.pick(&[8, 30, 200]);
    let catches_up = random.between(steps / 2, steps);
    (0..steps)
        .map(|step| {
            let turn = if step < catches_up { random.chance(seldom) } else { random.chance(2) };
            if turn { behind } else { random.below(processes) as u8 }
        })
        .collect()
}

/// One process runs for a while, then another.
fn bursts(processes: usize, steps: usize, random: &mut Random) -> Vec<u8> {
    let longest = *random.pick(&[2, 4, 10, 40]);
    let mut schedule = vec![];
    while schedule.len() < steps {
        let process = random.below(processes) as u8;
        schedule.extend(vec![process; random.between(1, longest)]);
    }
    schedule.truncate(steps);
    schedule
}

/// Each process stops for a long stretch somewhere, in the middle of whatever it does.
fn stalled(processes: usize, steps: usize, random: &mut Random) -> Vec<u8> {
    let stretches: Vec<_> = (0..processes)
        .map(|_| {
            let from = random.between(0, steps);
            from..random.between(from, steps)
        })
        .collect();
    (0..steps)
        .map(|step| {
            let draws: [usize; 4] = std::array::from_fn(|_| random.below(processes));
            *draws.iter().find(|&&process| !stretches[process].contains(&step)).unwrap_or(&draws[0]) as u8
        })
        .collect()
}

/// The rows that change what others have read. A linked stack's put held at V5 leaves Top behind, a take held at W5 or W6 leaves a dead
/// node on top; those held at V4 or W4 come too late or together.
fn changing_rows(kind: u8) -> &'static [Row] {
    match kind {
        1 => &[Row::Q3, Row::Q4, Row::T5],
        2 => &[Row::P3, Row::R3, Row::R4],
        _ => &[Row::V4, Row::V5, Row::W4, Row::W5, Row::W6],
    }
}

fn walls(rows: &[Row]) -> [bool; ROWS] {
    let mut walls = [false; ROWS];
    for &row in rows {
        walls[row as usize] = true;
    }
    walls
}

/// Of those let through, one in so many, or none, drops its operation instead.
type Cuts = Option<usize>;

fn gathered_by_kind(draft: &Draft, steps: usize, walls: [bool; ROWS], cuts: Cuts, random: &mut Random) -> Vec<u8> {
    match draft.kind {
        1 => gathered::<Queue>(draft, steps, walls, cuts, random),
        2 => gathered::<Stack>(draft, steps, walls, cuts, random),
        _ => gathered::<Linked>(draft, steps, walls, cuts, random),
    }
}

/// Processes are gathered before certain rows and then let through in a random order, a few at a time: many hold the same old
/// values when the first of them changes the memory.
fn gathered<O: Object>(draft: &Draft, steps: usize, walls: [bool; ROWS], cuts: Cuts, random: &mut Random) -> Vec<u8> {
    let mut machine = Machine::<O>::fresh(&draft.records);
    let mut schedule = vec![];
    while schedule.len() < steps {
        let standing = |process: &u8| machine.standing(*process).map(|(_, row)| row as usize);
        let (waiting, running): (Vec<u8>, Vec<u8>) = (0..draft.processes)
            .filter(|process| standing(process).is_some())
            .partition(|process| standing(process).is_some_and(|row| walls[row]));
        let choice = match (waiting.is_empty(), running.is_empty()) {
            (true, true) => random.below(usize::from(draft.processes)) as u8,
            (false, true) => *random.pick(&waiting),
            (false, false) if random.chance(20) => *random.pick(&waiting),
            _ => *random.pick(&running),
        };
        let cut = waiting.contains(&choice) && cuts.is_some_and(|one_in| random.chance(one_in));
        let entry = if cut { DROP + choice } else { choice };
        schedule.push(entry);
        machine.step(schedule.len() as u16, entry, &mut Nobody);
    }
    schedule
}
