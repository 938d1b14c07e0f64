//! Job texts: what is printed makes the very file, for all generated jobs; what is wrong in a text is told.

mod shared;

use bench_command::lines::Wrong;
use bench_command::text::{parse, print};
use pigwazet::limits::{OPERATIONS, STEPS};
use pigwazet::{Action, Job, Kind, Operation};
use rayon::prelude::*;
use shared::{Room, generated, samples, with_drops};

/// A file as text, and the file made of that text.
fn there_and_back(file: &[u8]) -> (String, Vec<u8>) {
    let text = print::job(&pigwazet::read(file).unwrap());
    let job = parse::job(&text).unwrap();
    (text, pigwazet::write(&job).unwrap())
}

#[test]
fn make_after_text_gives_the_very_file() {
    // as many jobs as the second replayer is compared on
    (0..20_000).into_par_iter().for_each(|seed| {
        for file in [generated(seed).1, with_drops(seed).1] {
            let (text, again) = there_and_back(&file);
            assert!(again == file, "seed {seed}:\n{text}");
        }
    });
}

#[test]
fn the_command_makes_the_very_file_of_each_sample() {
    let room = Room::new("samples-as-text");
    for (name, file) in samples() {
        room.write(&format!("{name}.job"), &file);
        let text = room.bench(&format!("text {name}.job"));
        assert_eq!((text.status, text.said.as_str()), (0, ""));
        room.write("again.txt", &text.out);
        room.bench("make again.txt --out again.job").is(0, "", "again.job: ");
        assert!(room.read("again.job") == file, "{name}");
    }
}

#[test]
fn the_text_of_the_papers_is_the_listing() {
    let text = "queue\nprocesses 3\nput 0 500\ntake 1\ntake 2\norder 0 0 0 0 1 2 1 2 1 2 1 2\n";
    let other = "\u{feff}# a job\r\n\r\nqueue # the object\r\n\tprocesses  3\r\nput 0 500\r\norder 0 x 4\r\ntake 1\r\ntake 2\r\norder 1 2 1 2 1\r\norder 2 1 2";
    let listing = include_bytes!("../../../examples/listing.job");
    for text in [text, other] {
        assert_eq!(pigwazet::write(&parse::job(text).unwrap()).unwrap(), listing);
    }
}

#[test]
fn a_linked_stack_has_a_word_of_its_own() {
    let text = "linked\nprocesses 2\n\nput 0 500         # operation 1\ntake 1            # operation 2\n\norder 0 x 5 1 x 6  # steps 1 to 11\n";
    let job = parse::job(text).unwrap();
    let put = Operation { process: 0, action: Action::Put(500) };
    let take = Operation { process: 1, action: Action::Take };
    let schedule = [[0; 5].as_slice(), &[1; 6]].concat();
    assert_eq!(job, Job { kind: Kind::Linked, processes: 2, operations: vec![put, take], schedule });
    assert_eq!(print::job(&job), text);
    assert_eq!(parse::job("").unwrap_err()[0].wrong.allowed, "a line queue, stack or linked");
}

#[test]
fn a_drop_is_a_turn_and_repeats_as_any_other() {
    let text = |order: &str| format!("queue\nprocesses 4\ntake 3\n{order}\n");
    for (order, schedule) in [
        ("order 0 0 drop 3 1 x 4", &[0, 0, 131, 1, 1, 1, 1][..]),
        ("order drop 3 x 2", &[131, 131]),
        ("order drop 0\norder 0\norder drop 0 drop 1 x 1 0", &[128, 0, 128, 129, 0]),
    ] {
        assert_eq!(parse::job(&text(order)).unwrap().schedule, schedule, "{order}");
    }
    let job = parse::job(&text("order drop 3 x 3 3 x 3 drop 3 drop 3")).unwrap();
    assert!(print::job(&job).ends_with("\norder drop 3 x 3 3 x 3 drop 3 drop 3  # steps 1 to 8\n"));
    let room = Room::new("drops-as-text");
    room.write("hour.txt", text("order 3 drop 3 x 2"));
    room.bench("make hour.txt").is(0, "", "hour.job: queue, 4 processes, 1 operation, 3 steps with 2 drops\n");
    room.bench("text hour.job").tells(0, "\norder 3 drop 3 drop 3  # steps 1 to 3\n");
    room.write("one.txt", text("order 3 drop 0"));
    room.bench("make one.txt").is(0, "", "one.job: queue, 4 processes, 1 operation, 2 steps with 1 drop\n");
}

#[test]
fn a_text_at_the_limits_is_a_job_and_one_past_them_is_not() {
    let puts = |count: usize| "put 7 -32768\n".repeat(count);
    let text = |operations: usize, steps: usize| format!("stack\nprocesses 8\n{}order 7 x {steps}\n", puts(operations));
    let job = parse::job(&text(OPERATIONS, STEPS)).unwrap();
    assert_eq!(pigwazet::write(&job).unwrap().len(), 35 * 512);
    let wrong =
        |text: &str| parse::job(text).unwrap_err().iter().map(|fault| (fault.line, fault.wrong.to_string())).collect::<Vec<_>>();
    assert_eq!(wrong(&text(OPERATIONS + 1, 1)), [(259, "found one operation more; allowed: at most 256 operations".to_string())]);
    assert_eq!(wrong(&text(1, STEPS + 1)), [(4, "found '16385'; allowed: how often, 1 to 16,384".to_string())]);
    let more = text(1, STEPS) + "order 0 1\n";
    assert_eq!(wrong(&more), [(5, "found step 16,385; allowed: at most 16,384 steps in all orders together".to_string())]);
}

/// A text in which one line, the fourth, is another.
fn with(line: &str) -> String {
    format!("queue\nprocesses 3\nput 0 500\n{line}\norder 0 1 2\n")
}

/// What is told of that line.
#[track_caller]
fn told(line: &str, found: &str, allowed: &str) {
    let faults = parse::job(&with(line)).unwrap_err();
    assert_eq!(faults.len(), 1, "{line}: {faults:?}");
    let Wrong { found: told, allowed: instead } = &faults[0].wrong;
    assert_eq!((faults[0].line, told.as_str(), instead.as_str()), (4, found, allowed), "{line}");
}

const END: &str = "the end of the line";
const PROCESS: &str = "a process, 0 to 2";

#[test]
fn what_was_found_and_what_is_allowed() {
    let begins = "a line that begins with queue, stack, linked, processes, put, take or order";
    let stage = "a stage in mm, -32,768 to 32,767";
    let comment = "the end of the line, or # and a comment";
    for (line, found, allowed) in [
        ("pit 0 500", "'pit'", begins),
        ("Take 1", "'Take'", begins),
        ("bank", "'bank'", begins),
        ("drop 1", "'drop'", begins),
        ("put\u{a0}0 500", "'put\u{a0}0'", begins),
        ("put 3 500", "'3'", PROCESS),
        ("put -1 500", "'-1'", PROCESS),
        ("put +1 500", "'+1'", PROCESS),
        ("put -0 500", "'-0'", PROCESS),
        ("put 0 --5", "'--5'", stage),
        ("put 0 +5", "'+5'", stage),
        ("take -0", "'-0'", PROCESS),
        ("put drop 0 500", "'drop'", PROCESS),
        ("put 0", END, stage),
        ("put 0 32768", "'32768'", stage),
        ("put 0 -32769", "'-32769'", stage),
        ("put 0 5.5", "'5.5'", stage),
        ("put 0 \u{2212}15", "'\u{2212}15', which does not begin with the - of a keyboard", stage),
        ("put 0 500 on 2", "'on'", comment),
        ("take", END, PROCESS),
        ("take 1 0", "'0'", comment),
        ("stack", "a second object, 'stack'", "one object"),
        ("linked", "a second object, 'linked'", "one object"),
        ("processes 3", "a second line of processes", "one"),
    ] {
        told(line, found, allowed);
    }
}

#[test]
fn what_is_wrong_in_an_order() {
    let turn = "a process, 0 to 2, or drop and one";
    let turn_or_repeat = "a process, 0 to 2, or drop and one, or x and how often";
    let count = "how often, 1 to 16,384";
    for (line, found, allowed) in [
        ("order", END, turn),
        ("order 0 x", END, count),
        ("order 0 x 0", "'0'", count),
        ("order -0", "'-0'", turn),
        ("order drop -0", "'-0'", PROCESS),
        ("order 0 x4", "'x4'", turn_or_repeat),
        ("order 0 x 4 x 4", "'x'", turn),
        ("order x 4", "'x'", turn),
        ("order 99999999999999999999", "'99999999999999999999'", turn),
        ("order 129", "'129'", turn),
        ("order Drop 1", "'Drop'", turn),
        ("order 0 dorp 1", "'dorp'", turn_or_repeat),
        ("order drop", END, PROCESS),
        ("order 0 x 2 drop", END, PROCESS),
        ("order drop 3", "'3'", PROCESS),
        ("order drop x 2", "'x'", PROCESS),
        ("order drop drop 1", "'drop'", PROCESS),
        ("order drop 1 x", END, count),
    ] {
        told(line, found, allowed);
    }
}

#[test]
fn what_is_missing_is_told() {
    for (text, line, found) in [
        ("", 1, "the end of the text, and no object"),
        ("# nothing\n\n", 2, "the end of the text, and no object"),
        ("queue\n", 1, "the end of the text, and no line of processes"),
        ("queue\nprocesses 1\norder 0\n", 3, "the end of the text, and no operation"),
        ("queue\nput 0 5\nprocesses 1\n", 2, "no line of processes yet"),
        ("queue\norder drop 0\nprocesses 1\n", 2, "no line of processes yet"),
        ("processes 1\ntake 0\n", 2, "the end of the text, and no object"),
        ("queue\nprocesses 9\nput 8 5\n", 2, "'9'"),
        ("queue\rprocesses 1\rput 0 5\r", 1, "'queue\\rprocesses'"),
    ] {
        let faults = parse::job(text).unwrap_err();
        assert_eq!((faults[0].line, faults[0].wrong.found.as_str()), (line, found), "{text}");
    }
}

#[test]
fn every_wrong_line_is_told_and_no_file_is_made() {
    let room = Room::new("wrong-text");
    room.write("hour.txt", "queue\nprocesses 3\n\n# the crest\nput 9 500\ntake 1\ntake 2\n\norder 0 x\n");
    let said = "hour.txt:5: found '9'; allowed: a process, 0 to 2\n    put 9 500\n\
                hour.txt:9: found the end of the line; allowed: how often, 1 to 16,384\n    order 0 x\n";
    let ran = room.bench("make hour.txt");
    ran.fails(said);
    assert_eq!(ran.said, said);
    assert!(!room.has("hour.job"));
    room.write("one.txt", format!("queue\nprocesses 1\nput 1 {}\n", "9".repeat(100)));
    room.bench("make one.txt").fails(&format!("one.txt:3: found '1'; allowed: a process, 0\n    put 1 {} …\n", "9".repeat(54)));
    room.write("long.txt", "queue\nprocesses 1\nput 0 5\n".to_string() + &"#\n".repeat(8 << 20));
    room.bench("make long.txt").fails("long.txt is longer than 16 MiB.");
    room.write("many.txt", "queue\nprocesses 1\n".to_string() + &"tke 0\n".repeat(50));
    room.bench("make many.txt").fails("and 30 lines more\n");
}
