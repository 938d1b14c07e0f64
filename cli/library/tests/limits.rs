//! The figures of `pigwazet::limits` are the library's: a job at each limit has a file, and one past it is refused with the limit's number.

use pigwazet::limits::{BLOCK, DROP, FILE, OPERATIONS, PAYLOAD, PROCESSES, STEPS, WORK};
use pigwazet::{Action, Job, Kind, Operation, Turn};

fn job(processes: usize, operations: usize, steps: usize) -> Job {
    let put = Operation { process: 0, action: Action::Put(i16::MIN) };
    Job { kind: Kind::Stack, processes: processes as u8, operations: vec![put; operations], schedule: vec![0; steps] }
}

fn refused(job: &Job) -> Option<u32> {
    pigwazet::write(job).err().map(|refusal| refusal.number())
}

#[test]
fn a_job_at_every_limit_has_the_longest_file() {
    let job = job(PROCESSES, OPERATIONS, STEPS);
    let file = pigwazet::write(&job).unwrap();
    assert_eq!((file.len(), file.len() / BLOCK * PAYLOAD), (FILE, WORK));
    assert_eq!(pigwazet::read(&file), Ok(job));
    assert!(pigwazet::replay(&file).is_ok());
}

#[test]
fn a_job_past_a_limit_is_refused_with_its_number() {
    let past = [(PROCESSES + 1, 1, 1, 6), (1, OPERATIONS + 1, 1, 7), (1, 1, STEPS + 1, 8), (0, 1, 1, 6), (1, 0, 1, 7)];
    // counts that their fields cannot hold, one of which would read as a good one
    let far_past = [(1, 65_536 + 1, 1, 7), (1, 1, 65_536 + 1, 8)];
    for (processes, operations, steps, number) in past.into_iter().chain(far_past) {
        assert_eq!(refused(&job(processes, operations, steps)), Some(number), "{processes} {operations} {steps}");
    }
}

#[test]
fn a_process_that_the_job_has_not_is_refused() {
    let mut wrong = job(1, 2, 2);
    wrong.schedule[1] = 1;
    assert_eq!(refused(&wrong), Some(11));
    wrong.operations[1].process = 1;
    assert_eq!(refused(&wrong), Some(10));
}

#[test]
fn every_entry_is_a_step_or_a_drop_of_a_process_or_is_refused() {
    for entry in 0..=u8::MAX {
        let turn = Turn::of(entry);
        assert_eq!((turn.entry(), turn.process(), matches!(turn, Turn::Drops(_))), (entry, entry % DROP, entry >= DROP));
        let mut job = job(3, 1, 2);
        job.schedule[1] = entry;
        let refusal = (turn.process() >= 3).then_some(11);
        assert_eq!(refused(&job), refusal, "{entry}");
        if refusal.is_none() {
            assert_eq!(pigwazet::read(&pigwazet::write(&job).unwrap()), Ok(job));
        }
    }
    // a process that no entry can name is refused too
    assert_eq!([Turn::Acts(128), Turn::Drops(128), Turn::Drops(255)].map(Turn::entry), [127, 255, 255]);
}

#[test]
fn every_kind_has_its_name_and_its_number() {
    let kinds: Vec<(u8, &str)> = Kind::all().map(|kind| (kind.number(), kind.name())).collect();
    assert_eq!(kinds, [(1, "queue"), (2, "stack"), (3, "linked")]);
    for kind in Kind::all() {
        let mut job = job(1, 1, 1);
        job.kind = kind;
        let file = pigwazet::write(&job).unwrap();
        assert_eq!(pigwazet::read(&file).unwrap().kind, kind);
        assert!(pigwazet::replay(&file).unwrap().as_str().starts_with(&format!("object {}\n", kind.name())));
    }
}
