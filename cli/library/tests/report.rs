//! A report taken apart: the lost line is a queue's, stands directly before `left` and has one number; any other text is no report.

use pigwazet::Kind;
use pigwazet::report::Run;

/// A report of a put and a take, of an object, with what stands before its left line.
fn report(object: &str, before: &str) -> String {
    format!(
        "object {object}\nop 1 process 0 put 50 first 1 last - open\nop 2 process 1 take first 4 last 11 item 1 value 50\nat 3 put 1\nat 11 take 1 by 2\n{before}left 0\n"
    )
}

#[test]
fn a_queue_has_its_lost_rounds() {
    for (line, lost) in [("lost 0", 0), ("lost 1", 1), ("lost 16384", 16_384)] {
        let text = report("queue", &format!("{line}\n"));
        let run = Run::of(&text).unwrap();
        assert_eq!((run.kind, run.lost, run.lost_line), (Kind::Queue, Some(lost), Some(line)));
        assert_eq!((run.operations.len(), run.record.len(), run.left_line), (2, 2, "left 0"));
    }
}

#[test]
fn a_queue_with_an_empty_record_has_them_too() {
    let run = Run::of("object queue\nop 1 process 0 take first - last - waiting\nlost 0\nleft 0\n").unwrap();
    assert_eq!((run.lost, run.record.len(), run.left.len()), (Some(0), 0, 0));
}

#[test]
fn a_queue_without_them_is_no_report() {
    assert_eq!(Run::of(&report("queue", "")), None);
}

#[test]
fn a_stack_has_none_and_with_them_is_no_report() {
    for (object, kind) in [("stack", Kind::Stack), ("linked", Kind::Linked)] {
        let text = report(object, "");
        let run = Run::of(&text).unwrap();
        assert_eq!((run.kind, run.lost, run.lost_line, run.left_line), (kind, None, None, "left 0"));
        assert_eq!(Run::of(&report(object, "lost 0\n")), None);
    }
}

#[test]
fn a_lost_line_at_another_place_is_no_report() {
    let lines = report("queue", "lost 1\n");
    let mut lines: Vec<&str> = lines.lines().collect();
    let whole = |lines: &[&str]| lines.join("\n") + "\n";
    let lost = lines.remove(5);
    assert_eq!(lost, "lost 1");
    for place in 0..=lines.len() {
        let mut moved = lines.clone();
        moved.insert(place, lost);
        assert_eq!(Run::of(&whole(&moved)).is_some(), place == 5, "{}", whole(&moved));
        // nor is there a second one
        moved.insert(5, lost);
        assert_eq!(Run::of(&whole(&moved)), None);
    }
}

#[test]
fn a_lost_line_has_one_number() {
    for line in
        ["lost", "lost ", "lost -", "lost -1", "lost 1 2", "lost 1 ", "lost  1", "lost one", "lost 65536", "Lost 1", "left 1"]
    {
        assert_eq!(Run::of(&report("queue", &format!("{line}\n"))), None, "{line}");
    }
}

#[test]
fn operations_stand_before_the_record() {
    let text = "object stack\nop 1 process 0 put 5 first 1 last 2 done\nat 2 put 1\nleft 1 1\n";
    assert!(Run::of(text).is_some());
    assert_eq!(Run::of("object stack\nat 2 put 1\nop 1 process 0 put 5 first 1 last 2 done\nleft 1 1\n"), None);
    for cut in ["object stack\n", "object queue\nlost 0\n", "object stack\n\nleft 0\n", "object stack\nleft 0", "left 0\n", ""] {
        assert_eq!(Run::of(cut), None, "{cut}");
    }
}
