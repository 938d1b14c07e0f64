//! Random and adversarial jobs. A seed fixes a job: its style, sizes, operations and order of steps.

pub mod collisions;
pub mod drops;
pub mod order;
pub mod windows;

use crate::job::{OPERATIONS, PROCESSES, Record, STEPS};
use crate::random::Random;
use order::Order;

/// A job that is being made; its stream may also be out of range.
#[derive(Clone)]
pub struct Draft {
    pub kind: u8,
    pub processes: u8,
    pub records: Vec<Record>,
    pub schedule: Vec<u8>,
}

impl Draft {
    pub fn stream(&self) -> Vec<u8> {
        let mut stream = vec![self.kind, self.processes];
        stream.extend((self.records.len() as u16).to_be_bytes());
        stream.extend((self.schedule.len() as u16).to_be_bytes());
        stream.extend(self.records.as_flattened());
        stream.extend(&self.schedule);
        stream
    }
}

pub fn put(process: u8, value: i16) -> Record {
    let [high, low] = value.to_be_bytes();
    [process, 1, high, low]
}

pub fn take(process: u8) -> Record {
    [process, 2, 0, 0]
}

/// The schedule of some turns: a process, and how many steps it makes one after the other.
pub fn turns(turns: &[(u8, usize)]) -> Vec<u8> {
    turns.iter().flat_map(|&(process, steps)| vec![process; steps]).collect()
}

/// What a job is made to try.
#[derive(Clone, Copy, PartialEq, Eq, Debug)]
pub enum Style {
    Uniform,
    Weighted,
    Lockstep,
    Periodic,
    FarBehind,
    Bursts,
    Sequential,
    Stalled,
    Gathered,
    HeldBack,
    IdleProcesses,
    AllPuts,
    AllTakes,
    OneOperation,
    ManyOperations,
    NoSteps,
    AllSteps,
    FewDrops,
    ManyDrops,
    PowerCuts,
    CutOff,
    Collisions,
}

pub const STYLES: [Style; 22] = [
    Style::Uniform,
    Style::Weighted,
    Style::Lockstep,
    Style::Periodic,
    Style::FarBehind,
    Style::Bursts,
    Style::Sequential,
    Style::Stalled,
    Style::Gathered,
    Style::HeldBack,
    Style::IdleProcesses,
    Style::AllPuts,
    Style::AllTakes,
    Style::OneOperation,
    Style::ManyOperations,
    Style::NoSteps,
    Style::AllSteps,
    Style::FewDrops,
    Style::ManyDrops,
    Style::PowerCuts,
    Style::CutOff,
    Style::Collisions,
];

/// The style of a seed: seeds go round the styles.
pub fn style(seed: u64) -> Style {
    STYLES[(seed % STYLES.len() as u64) as usize]
}

/// The job of a seed.
pub fn job(seed: u64) -> Draft {
    let mut random = Random::new(seed);
    let style = style(seed);
    if style == Style::Collisions {
        return collisions::job(&mut random);
    }
    let kind = random.between(1, 3) as u8;
    let processes = random.between(1, PROCESSES) as u8;
    let operations = match style {
        Style::OneOperation => 1,
        Style::ManyOperations | Style::AllSteps => OPERATIONS,
        _ => operation_count(&mut random),
    };
    let records = records(&mut random, style, processes, operations);
    let steps = match style {
        Style::NoSteps => 0,
        Style::AllSteps => STEPS,
        _ => random.between(0, (operations * 12 + 8).min(STEPS)),
    };
    let mut draft = Draft { kind, processes, records, schedule: vec![] };
    let order = Order::of(style, &mut random);
    draft.schedule = order.schedule(&draft, steps, &mut random);
    drops::put_into(&mut draft.schedule, style, processes, &mut random);
    draft
}

/// Mostly few operations, so that a fault is easy to read, at times many.
fn operation_count(random: &mut Random) -> usize {
    let limit = *random.pick(&[4, 8, 20, 60, OPERATIONS]);
    random.between(1, limit)
}

fn records(random: &mut Random, style: Style, processes: u8, count: usize) -> Vec<Record> {
    let puts_of_eight = match style {
        Style::AllPuts => 8,
        Style::AllTakes => 0,
        _ => random.between(1, 7),
    };
    let owners = owners(random, style, processes);
    let same_value = random.chance(3).then(|| random.word() as i16);
    let roles = random.chance(3);
    let record = |_| {
        let owner = *random.pick(&owners);
        // with roles, a process only puts or only takes
        let draw = if roles { usize::from(owner) * 3 % 8 } else { random.below(8) };
        if draw < puts_of_eight { put(owner, same_value.unwrap_or_else(|| value(random))) } else { take(owner) }
    };
    (0..count).map(record).collect()
}

/// The processes that own operations: all, or only some, so that the others are idle throughout.
fn owners(random: &mut Random, style: Style, processes: u8) -> Vec<u8> {
    let mut owners: Vec<u8> = (0..processes).collect();
    if style == Style::IdleProcesses {
        let kept = random.between(1, owners.len());
        while owners.len() > kept {
            owners.swap_remove(random.below(owners.len()));
        }
    }
    owners
}

/// Stages around the datum, at both ends of the range, half way between two centimetres, and any.
fn value(random: &mut Random) -> i16 {
    const SHARP: [i16; 18] = [0, 1, 4, 5, 6, 9, 10, 15, 25, 94, 95, 504, 505, 515, 32_765, 32_766, i16::MAX, i16::MIN];
    let value = match random.below(4) {
        0 => *random.pick(&SHARP),
        1 => (random.below(3_277) * 10 + 5) as i16,
        _ => random.word() as i16,
    };
    if random.chance(2) { value } else { value.wrapping_neg() }
}
