//! What the page's script draws from, as JSON: the report taken apart, with the steps in which operations were dropped, and those that were shut.

use crate::reading;
use crate::turns::Turns;
use crate::windows::words;
use pigwazet::Windows;
use pigwazet::report::{Action, Effect, Ending, Line, Operation, Run};

pub fn json(name: &str, turns: &Turns, run: &Run) -> String {
    let processes = run.operations.iter().map(|operation| operation.process + 1).max().unwrap_or_default();
    let fates = reading::readings(run).filter_map(|(item, _)| {
        let lines = reading::fate(turns, run, item)?.iter().map(|line| string(line)).collect();
        Some((item.to_string(), array(lines)))
    });
    let mut fields = vec![
        ("name", string(name)),
        ("object", string(run.kind.noun())),
        ("end", string(reading::end(run.kind))),
        ("processes", processes.to_string()),
        ("steps", steps(turns, run).to_string()),
        ("operations", array(run.operations.iter().map(|own| operation(turns, own)).collect())),
        ("record", array(run.record.iter().map(line).collect())),
    ];
    fields.extend(run.lost.map(|lost| ("lost", lost.to_string())));
    fields.extend(run.lost_line.map(|line| ("lostLine", string(line))));
    fields.extend([("left", numbers(&run.left)), ("leftLine", string(run.left_line)), ("fates", object(fates))]);
    fields.extend(turns.windows.map(|booked| ("windows", windows(turns, &booked, processes))));
    object(fields)
}

/// Up to which step a run is drawn: the last that the report tells, or within windows the last of all, since what is shut is in no report.
fn steps(turns: &Turns, run: &Run) -> u16 {
    let ends = run.operations.iter().flat_map(|operation| operation.first.max(operation.last).max(turns.dropped_at(operation)));
    let told = ends.chain(run.record.iter().map(|line| line.at)).max().unwrap_or_default();
    if turns.windows.is_some() { turns.job.schedule.len() as u16 } else { told }
}

/// The start in words, and of each process its window and the steps that were shut.
fn windows(turns: &Turns, windows: &Windows, processes: u8) -> String {
    let lane = |process: u8| {
        let spans = turns.hours.shut(process).iter().map(|steps| numbers(&[*steps.start(), *steps.end()])).collect();
        let window = words::window(windows.entries[usize::from(process)]);
        object([("window", string(&window)), ("shut", array(spans))])
    };
    let start = format!("{} {}", words::weekday(&windows.start), words::start(&windows.start));
    object([("start", string(&start)), ("lanes", array((0..processes).map(lane).collect()))])
}

fn operation(turns: &Turns, operation: &Operation) -> String {
    let mut fields = vec![("number", operation.number.to_string()), ("process", operation.process.to_string())];
    match operation.action {
        Action::Put(value) => fields.extend([("action", string("put")), ("value", value.to_string())]),
        Action::Take => fields.push(("action", string("take"))),
    }
    fields.extend(operation.first.map(|step| ("first", step.to_string())));
    fields.extend(operation.last.map(|step| ("last", step.to_string())));
    fields.extend(turns.dropped_at(operation).map(|step| ("dropped", step.to_string())));
    let ending = match operation.ending {
        Ending::Done => "done",
        Ending::Empty => "empty",
        Ending::Open => "open",
        Ending::Dropped => "dropped",
        Ending::Waiting => "waiting",
        Ending::Item(item, value) => {
            fields.extend([("item", item.to_string()), ("value", value.to_string())]);
            "item"
        }
    };
    fields.extend([("ending", string(ending)), ("line", string(operation.line))]);
    object(fields)
}

fn line(line: &Line) -> String {
    let (effect, item) = match line.effect {
        Effect::Put(item) => ("put", Some(item)),
        Effect::Take(item, _) => ("take", Some(item)),
        Effect::Empty(_) => ("empty", None),
    };
    let mut fields = vec![("at", line.at.to_string()), ("effect", string(effect))];
    fields.extend(item.map(|item| ("item", item.to_string())));
    fields.extend([("by", numbers(line.members())), ("line", string(line.line))]);
    object(fields)
}

fn object<K: AsRef<str>>(fields: impl IntoIterator<Item = (K, String)>) -> String {
    let fields: Vec<String> = fields.into_iter().map(|(key, value)| format!("{}:{value}", string(key.as_ref()))).collect();
    format!("{{{}}}", fields.join(","))
}

fn array(values: Vec<String>) -> String {
    format!("[{}]", values.join(","))
}

fn numbers(numbers: &[u16]) -> String {
    array(numbers.iter().map(u16::to_string).collect())
}

/// A string; `<` is escaped too, since a page's script ends where a tag says so.
fn string(text: &str) -> String {
    let mut quoted = String::from("\"");
    for char in text.chars() {
        match char {
            '"' | '\\' => quoted.extend(['\\', char]),
            '<' => quoted += "\\u003c",
            _ if char.is_control() || char == '\u{2028}' || char == '\u{2029}' => quoted += &format!("\\u{:04x}", char as u32),
            _ => quoted.push(char),
        }
    }
    quoted.push('"');
    quoted
}

#[cfg(test)]
mod tests {
    use super::*;
    use pigwazet::{Job, Kind};

    /// The turns of this schedule; what else there is to tell is in a report.
    fn turns(schedule: &[u8]) -> Turns {
        Turns::from(Job { kind: Kind::Queue, processes: 2, operations: vec![], schedule: schedule.to_vec() })
    }

    #[test]
    fn strings_are_escaped() {
        assert_eq!(string("a\"b\\c</script>\n"), "\"a\\\"b\\\\c\\u003c/script>\\u000a\"");
    }

    #[test]
    fn a_small_run_as_json() {
        let run = Run::of(
            "object queue\nop 1 process 1 put -2 first 1 last - open\nop 2 process 0 take first - last - waiting\nlost 0\nleft 0\n",
        );
        let json = json("a.job", &turns(&[1]), &run.unwrap());
        let expected = concat!(
            r#"{"name":"a.job","object":"queue","end":"front","processes":2,"steps":1,"operations":["#,
            r#"{"number":1,"process":1,"action":"put","value":-2,"first":1,"ending":"open","line":"op 1 process 1 put -2 first 1 last - open"},"#,
            r#"{"number":2,"process":0,"action":"take","ending":"waiting","line":"op 2 process 0 take first - last - waiting"}],"#,
            r#""record":[],"lost":0,"lostLine":"lost 0","left":[],"leftLine":"left 0","fates":{"1":["#,
            r#""Reading 1: -2 cm, put by operation 1 of process 1 (open since step 1).","It is not in the record: it never came into the queue."]}}"#
        );
        assert_eq!(json, expected);
    }

    #[test]
    fn a_dropped_operation_has_the_step_of_its_drop() {
        let report = "object queue\nop 1 process 0 put 50 first 3 last - dropped\nat 5 put 1\nlost 0\nleft 1 1\n";
        // a drop with nothing begun, one by another process, one that counts, one with nothing begun again
        let json = json("a.job", &turns(&[128, 129, 0, 0, 0, 129, 128, 128]), &Run::of(report).unwrap());
        let operation =
            r#"{"number":1,"process":0,"action":"put","value":50,"first":3,"dropped":7,"ending":"dropped","line":"op 1 "#;
        let fate = concat!(
            r#"["Reading 1: 50 cm, put by operation 1 of process 0 (begun at step 3, dropped at step 7).","#,
            r#""The record has it coming into the queue at step 5, before its put was dropped.","#
        );
        assert!(json.contains(r#""steps":7,"#) && json.contains(operation) && json.contains(fate), "{json}");
    }

    #[test]
    fn a_queue_has_its_lost_rounds() {
        // Q1 Q2 Q3 by the put, which is then open; T1 T2 T3 T4 by the take, and again T1 T2 T3 T5
        let report = "object queue\nop 1 process 0 put 120 first 1 last - open\nop 2 process 1 take first 4 last 11 item 1 value 120\n\
                      at 3 put 1\nat 11 take 1 by 2\nlost 1\nleft 0\n";
        let json = json("a.job", &turns(&[0, 0, 0, 1, 1, 1, 1, 1, 1, 1, 1]), &Run::of(report).unwrap());
        let lost = r#""line":"at 11 take 1 by 2"}],"lost":1,"lostLine":"lost 1","left":[],"leftLine":"left 0","#;
        assert!(json.contains(lost), "{json}");
    }

    #[test]
    fn a_linked_stack_is_listed_from_the_top() {
        let report = "object linked\nop 1 process 0 put 50 first 1 last - open\nat 4 put 1\nleft 1 1\n";
        let json = json("a.job", &turns(&[0; 4]), &Run::of(report).unwrap());
        let begins = r#"{"name":"a.job","object":"linked stack","end":"top","processes":1,"steps":4,"#;
        let ends = concat!(
            r#""left":[1],"leftLine":"left 1 1","fates":{"1":["Reading 1: 50 cm, put by operation 1 of process 0 (open since step 1).","#,
            r#""The record has it coming into the linked stack at step 4.","#,
            r#""Nobody took it. It is still in the linked stack: place 1 of 1 from the top."]}}"#
        );
        assert!(json.starts_with(begins) && json.ends_with(ends) && !json.contains("lost"), "{json}");
    }
}
