//! Lost rounds: the steps of a queue that go back to Q1 or T1, so that their operation has to begin again.

use pigwazet::report::Run;
use second_replayer::watch::{Event, Log, Row};

/// The first row to which a step goes back; none if it does not.
pub fn back_to(event: &Event) -> Option<Row> {
    match (event.row, event.wrote) {
        (Row::Q3, None) | (Row::Q5, _) => Some(Row::Q1),
        (Row::T4, _) => Some(Row::T1),
        _ => None,
    }
}

/// Do the steps lose as many rounds as a report says? A stack's report says nothing of them, and its steps lose none.
pub fn agrees(log: &Log, report: &str) -> bool {
    let lost = log.events.iter().filter(|event| back_to(event).is_some()).count();
    Run::of(report).is_some_and(|run| usize::from(run.lost.unwrap_or_default()) == lost)
}

#[cfg(test)]
mod tests {
    use super::super::{second, told};
    use super::*;
    use crate::turns::Turns;
    use pigwazet::{Action, Job, Kind, Operation};

    const PUT: Action = Action::Put(500);
    const TAKE: Action = Action::Take;

    /// A job, its operations given as process and action.
    fn job(kind: Kind, processes: u8, operations: &[(u8, Action)], schedule: &[u8]) -> Job {
        let operations = operations.iter().map(|&(process, action)| Operation { process, action }).collect();
        Job { kind, processes, operations, schedule: schedule.to_vec() }
    }

    /// Put 2 is too late at its Q3, then helps put 1, which stands before its Q4; take 3 wants to help too and finds it done. All go on to their ends.
    fn crowded() -> Job {
        let schedule = [0, 0, 1, 1, 0, 1, 2, 2, 2, 1, 1, 1, 2, 0, 2, 2, 2, 2, 1, 1, 1, 1];
        job(Kind::Queue, 3, &[(0, PUT), (1, PUT), (2, TAKE)], &schedule)
    }

    fn log(job: &Job) -> Log {
        second(&pigwazet::write(job).unwrap(), &[]).unwrap().0
    }

    /// The steps that go back, each with its row and the row to which it goes.
    fn returns(log: &Log) -> Vec<(u16, Row, Row)> {
        log.events.iter().filter_map(|event| Some((event.step, event.row, back_to(event)?))).collect()
    }

    #[test]
    fn a_failed_q3_a_q5_and_a_t4_go_back() {
        assert_eq!(returns(&log(&crowded())), [(6, Row::Q3, Row::Q1), (12, Row::Q5, Row::Q1), (13, Row::T4, Row::T1)]);
    }

    #[test]
    fn who_helps_goes_back_whether_tail_moved_or_not() {
        // the put stands before its Q4: the take's T4 moves Tail, and the other put's Q5 does not
        let log = log(&job(Kind::Queue, 3, &[(0, PUT), (1, TAKE), (2, PUT)], &[0, 0, 0, 1, 1, 1, 2, 2, 1, 2]));
        assert_eq!(returns(&log), [(9, Row::T4, Row::T1), (10, Row::Q5, Row::Q1)]);
        assert_eq!(log.events[8..].iter().map(|event| event.wrote).collect::<Vec<_>>(), [Some(1), None]);
    }

    #[test]
    fn a_process_helps_its_own_dropped_put() {
        // dropped between Q3 and Q4, so the next put of the process finds Tail behind
        let log = log(&job(Kind::Queue, 1, &[(0, PUT), (0, PUT)], &[0, 0, 0, 128, 0, 0, 0, 0, 0, 0, 0]));
        assert_eq!(returns(&log), [(7, Row::Q5, Row::Q1)]);
    }

    #[test]
    fn beginnings_ends_drops_and_idle_steps_do_not_go_back() {
        let operations = [(0, PUT), (0, TAKE), (0, TAKE), (1, PUT), (1, PUT)];
        // idle are the first step and the last three
        let schedule = [128, 0, 0, 0, 0, 0, 0, 0, 0, 0, 0, 0, 1, 1, 129, 1, 1, 1, 129, 0, 1, 128];
        let log = log(&job(Kind::Queue, 2, &operations, &schedule));
        assert_eq!((log.events.len(), log.drops.len(), returns(&log)), (16, 2, vec![]));
    }

    #[test]
    fn rounds_of_stacks_are_not_counted() {
        // put 1 is too late at its P3 or V4, and begins again
        let puts = [(0, PUT), (1, PUT)];
        let stack = job(Kind::Stack, 2, &puts, &[0, 1, 1, 0, 0]);
        let linked = job(Kind::Linked, 2, &puts, &[0, 0, 0, 1, 1, 1, 1, 0, 0]);
        for (job, first, late) in [(stack, Row::P1, 4), (linked, Row::V1, 8)] {
            let log = log(&job);
            let begun = |step: u16| log.events.iter().any(|event| (event.step, event.operation, event.row) == (step, 1, first));
            assert!(begun(1) && begun(late + 1) && returns(&log).is_empty());
        }
    }

    #[test]
    fn rounds_are_numbered_over_the_whole_run() {
        let log = log(&crowded());
        let turns = Turns::from(crowded());
        let lines = |op: Option<u16>, from: u16, to: u16| {
            let text = told(&turns, &log, op, &(from..=to));
            text.lines().filter(|line| line.contains("lost round")).map(|line| line.trim().to_string()).collect::<Vec<_>>()
        };
        let all = [
            "6        1          2  Q3   sets node 0's next from none to node 2: not changed, it holds node 1; back to Q1, lost round 1",
            "12        1          2  Q5   sets Tail from node 0 to node 1: changed; back to Q1, lost round 2",
            "13        2          3  T4   sets Tail from node 0 to node 1: not changed, it holds node 1; back to T1, lost round 3",
        ];
        assert_eq!(lines(None, 1, 22), all);
        assert_eq!(lines(Some(2), 1, 22), all[..2]);
        assert_eq!(lines(Some(3), 1, 22), all[2..]);
        assert_eq!(lines(None, 7, 12), [all[1]]);
    }

    #[test]
    fn steps_lose_as_many_rounds_as_their_report_says() {
        let report = |lost: &str| {
            format!(
                "object queue\nop 1 process 0 put 50 first 1 last 14 done\nop 2 process 1 put 50 first 3 last 22 done\n\
                 op 3 process 2 take first 7 last 18 item 1 value 50\nat 5 put 1\nat 18 take 1 by 3\nat 21 put 2\n{lost}left 1 2\n"
            )
        };
        let queue = log(&crowded());
        assert!(agrees(&queue, &report("lost 3\n")));
        for lost in ["lost 2\n", "lost 4\n", ""] {
            assert!(!agrees(&queue, &report(lost)), "{lost}");
        }
        let stack = log(&job(Kind::Stack, 1, &[(0, PUT)], &[0, 0]));
        assert!(agrees(&stack, "object stack\nop 1 process 0 put 50 first 1 last 2 done\nat 2 put 1\nleft 1 1\n"));
    }
}
