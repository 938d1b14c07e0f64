//! The one form in which a job is printed as text.

use crate::lines::commented;
use pigwazet::{Action, Job, Operation, Turn};

/// Terms in an order line: a turn, or a turn and how often.
const TERMS: usize = 16;
/// A turn is repeated in a term from this many steps on.
const REPEATED: usize = 3;

pub fn job(job: &Job) -> String {
    let mut text = format!("{}\nprocesses {}\n\n", job.kind.name(), job.processes);
    for (operation, number) in job.operations.iter().zip(1..) {
        text += &commented(&statement(operation), &format!("operation {number}"));
    }
    if !job.schedule.is_empty() {
        text.push('\n');
    }
    let mut made = 0;
    for terms in terms(&job.schedule).chunks(TERMS) {
        let steps: usize = terms.iter().map(|&(_, count)| count).sum();
        let words: Vec<String> = terms.iter().map(term).collect();
        text += &commented(&format!("order {}", words.join(" ")), &steps_told(made + 1, made + steps));
        made += steps;
    }
    text
}

fn statement(operation: &Operation) -> String {
    match operation.action {
        Action::Put(value) => format!("put {} {value}", operation.process),
        Action::Take => format!("take {}", operation.process),
    }
}

fn steps_told(from: usize, to: usize) -> String {
    if from == to { format!("step {from}") } else { format!("steps {from} to {to}") }
}

/// The schedule as turns, each with how often it comes in a row; few in a row are written out.
fn terms(schedule: &[u8]) -> Vec<(Turn, usize)> {
    let mut terms = vec![];
    for run in schedule.chunk_by(|one, next| one == next) {
        if run.len() < REPEATED {
            terms.extend(run.iter().map(|&entry| (Turn::of(entry), 1)));
        } else {
            terms.push((Turn::of(run[0]), run.len()));
        }
    }
    terms
}

fn term(&(turn, count): &(Turn, usize)) -> String {
    let words = match turn {
        Turn::Acts(process) => process.to_string(),
        Turn::Drops(process) => format!("drop {process}"),
    };
    if count == 1 { words } else { format!("{words} x {count}") }
}

#[cfg(test)]
mod tests {
    use super::*;
    use pigwazet::Kind;

    #[test]
    fn a_job_is_printed_in_one_form() {
        let put = Operation { process: 0, action: Action::Put(-15) };
        let take = Operation { process: 1, action: Action::Take };
        let job = Job { kind: Kind::Stack, processes: 2, operations: vec![put, take], schedule: vec![0, 0, 1, 1, 1, 1, 0] };
        let text = "stack
processes 2

put 0 -15         # operation 1
take 1            # operation 2

order 0 0 1 x 4 0  # steps 1 to 7
";
        assert_eq!(super::job(&job), text);
    }

    #[test]
    fn drops_are_turns() {
        let take = Operation { process: 1, action: Action::Take };
        let schedule = vec![1, 129, 128, 128, 128, 0, 0, 0, 129, 129, 1];
        let job = Job { kind: Kind::Queue, processes: 2, operations: vec![take], schedule };
        let text = super::job(&job);
        assert!(text.ends_with("\norder 1 drop 1 drop 0 x 3 0 x 3 drop 1 drop 1 1  # steps 1 to 11\n"), "{text}");
    }

    #[test]
    fn no_steps_have_no_order() {
        let put = Operation { process: 0, action: Action::Put(0) };
        let job = Job { kind: Kind::Queue, processes: 1, operations: vec![put], schedule: vec![] };
        assert_eq!(super::job(&job), "queue\nprocesses 1\n\nput 0 0           # operation 1\n");
    }
}
