//! `reading` and `steps`: the fates of readings and the steps of runs, on samples as the papers tell them and on generated jobs.

mod shared;

use bench_command::words::step;
use bench_command::{input, reading, steps};
use pigwazet::Kind;
use pigwazet::report::Ending::Dropped;
use second::check::parse::{Effect, Ending, Report};
use shared::{Room, generated, samples, top, with_drops};
use std::collections::HashMap;
use std::fs;

/// A sample, a reading, and its fate.
const FATES: [(&str, u16, &str); 10] = [
    (
        "listing",
        1,
        "Reading 1: 50 cm, put by operation 1 of process 0 (steps 1 to 4).\n\
         The record has it coming into the queue at step 3.\n\
         The record has it going out at step 11, to operation 2 of process 1 (steps 5 to 11) and operation 3 of process 2 (steps 6 to 12).\n\
         A double: the 2 takers overlap from step 6 to step 11.\n",
    ),
    (
        "open-take",
        1,
        "Reading 1: 120 cm, put by operation 1 of process 0 (steps 1 to 2).\n\
         The record has it coming into the stack at step 2.\n\
         The record has it going out at step 3, to operation 2 of process 1 (open since step 3).\n\
         That one has claimed it and is open, so nobody has it yet.\n",
    ),
    (
        "open-put",
        1,
        "Reading 1: 120 cm, put by operation 1 of process 0 (open since step 1).\n\
         The record has it coming into the queue at step 3.\n\
         The record has it going out at step 11, to operation 2 of process 1 (steps 4 to 11).\n\
         It was taken once: no double.\n",
    ),
    (
        "drop-put",
        1,
        "Reading 1: 120 cm, put by operation 1 of process 0 (begun at step 1, dropped at step 4).\n\
         The record has it coming into the queue at step 3, before its put was dropped.\n\
         The record has it going out at step 19, to operation 4 of process 2 (steps 16 to 19).\n\
         It was taken once: no double.\n",
    ),
    (
        "drop-take",
        2,
        "Reading 2: 131 cm, put by operation 2 of process 0 (steps 3 to 5).\n\
         The record has it coming into the stack at step 5.\n\
         The record has it going out at step 6, to operation 3 of process 1 (begun at step 6, dropped at step 9).\n\
         That one had claimed it and was dropped, so nobody got it.\n",
    ),
    (
        "drop-idle",
        1,
        "Reading 1: 120 cm, put by operation 1 of process 0 (steps 2 to 6).\n\
         The record has it coming into the linked stack at step 5.\n\
         The record has it going out at step 10, to operation 2 of process 1 (begun at step 7, dropped at step 11).\n\
         That one had claimed it and was dropped, so nobody got it.\n",
    ),
    (
        "fifth-trace",
        3,
        "Reading 3: 130 cm, put by operation 3 of process 0 (steps 5 to 7).\n\
         The record has it coming into the stack at step 7.\n\
         Nobody took it. It is still in the stack: place 1 of 1 from the top.\n",
    ),
    (
        "below-datum",
        5,
        "Reading 5: -3277 cm, put by operation 5 of process 0 (steps 17 to 20).\n\
         The record has it coming into the queue at step 19.\n\
         Nobody took it. It is still in the queue: place 3 of 5 from the front.\n",
    ),
    (
        "linked-double",
        1,
        "Reading 1: 120 cm, put by operation 1 of process 0 (steps 1 to 5).\n\
         The record has it coming into the linked stack at step 4.\n\
         The record has it going out at step 12, to operation 2 of process 1 (steps 6 to 14) and operation 3 of process 2 (steps 9 to 17).\n\
         A double: the 2 takers overlap from step 9 to step 14.\n",
    ),
    (
        "linked-help",
        1,
        "Reading 1: 120 cm, put by operation 1 of process 0 (steps 1 to 27).\n\
         The record has it coming into the linked stack at step 4.\n\
         Nobody took it. It is still in the linked stack: place 2 of 2 from the top.\n",
    ),
];

#[test]
fn fates_of_the_samples() {
    let room = Room::new("fates");
    for (name, number, fate) in FATES {
        room.sample(&format!("{name}.job"));
        room.bench(&format!("reading {name}.job {number}")).is(0, fate, "");
    }
    let doubles = "Reading 1: 50 cm, to operation 2 of process 1 (steps 5 to 11) and operation 3 of process 2 (steps 6 to 12); they overlap from step 6 to step 11.\n\
                   Of 1 reading 1 was taken more than once.\n";
    room.bench("reading listing.job --doubles").is(0, doubles, "");
    room.bench("reading open-put.job --doubles").is(0, "Of 1 reading none was taken more than once.\n", "");
    room.bench("reading below-datum.job 8")
        .fails("Operation 8 is a take. A reading has the number of its put: here 1, 2, 3, 4, 5, 6 and 7.");
    room.bench("reading listing.job 4").fails("Operation 4 is not in the job. A reading has the number of its put: here 1.");
    room.bench("reading listing.job 0").fails("Operation 0 is not in the job.");
    room.sample("flood-hour.job");
    room.bench("reading flood-hour.job 257").fails("A reading has the number of its put: here 125, from 1 to 248.");
}

/// What the report, taken apart by the checks of the second replayer, says of a reading.
struct Expected {
    put: Option<u16>,
    taken: Option<(u16, Vec<u16>)>,
    left: Option<usize>,
}

fn expected(report: &Report, item: u16) -> Expected {
    let put = report.lines.iter().find_map(|line| matches!(line.effect, Effect::Put(own) if own == item).then_some(line.at));
    let taken = report.lines.iter().find_map(|line| match &line.effect {
        Effect::Take(of, takers) if *of == item => Some((line.at, takers.clone())),
        _ => None,
    });
    Expected { put, taken, left: report.left.iter().position(|&left| left == item) }
}

/// Holds the sentences of a fate against what is expected.
fn holds(text: &str, object: &str, dropped: bool, expected: &Expected, all_left: usize) {
    match expected.put {
        Some(at) if dropped => assert!(text.contains(&format!(" at {}, before its put was dropped.\n", step(at))), "{text}"),
        Some(at) => assert!(text.contains(&format!(" at {}.\n", step(at))), "{text}"),
        None if dropped => assert!(text.ends_with(&format!("its put was dropped before it came into the {object}.")), "{text}"),
        None => assert!(text.ends_with(&format!("it never came into the {object}.")), "{text}"),
    }
    assert_eq!(text.contains("Nobody took it. "), expected.left.is_some(), "{text}");
    if let Some(place) = expected.left {
        assert!(text.contains(&format!(": place {} of {all_left} from the ", place + 1)), "{text}");
    }
    let takers = expected.taken.as_ref().map_or(&[][..], |(_, takers)| takers);
    assert_eq!(text.contains("A double: "), takers.len() > 1, "{text}");
    if let Some((at, takers)) = &expected.taken {
        let begins = format!("The record has it going out at {}, to operation {} of ", step(*at), takers[0]);
        let line = text.lines().find(|line| line.starts_with(&begins)).unwrap();
        assert_eq!(line.matches("operation ").count(), takers.len(), "{text}");
        assert!(takers.iter().all(|taker| line.contains(&format!("operation {taker} of process "))), "{text}");
    }
}

#[test]
fn fates_of_generated_jobs_are_those_of_their_reports() {
    let (mut doubles, mut kept, mut never, mut drops) = (0, 0, 0, 0);
    for seed in 0..1_600 {
        let file = if seed % 2 == 0 { generated(seed).1 } else { with_drops(seed).1 };
        let (turns, report) = input::replayed(&file, &[]).unwrap();
        let run = report.run();
        let apart = Report::of(report.as_str().as_bytes()).unwrap();
        for operation in &apart.operations {
            let item = operation.number;
            let fate = reading::fate(&turns, &run, item);
            assert_eq!(fate.is_some(), operation.put.is_some(), "seed {seed}, {item}");
            let (Some(fate), Some(value)) = (fate, operation.put) else { continue };
            let text = fate.join("\n");
            let by = if operation.first.is_some() { "put by" } else { "to be put by" };
            let begins = format!("Reading {item}: {value} cm, {by} operation {item} of process {} (", operation.process);
            assert!(text.starts_with(&begins), "seed {seed}: {text}");
            let expected = expected(&apart, item);
            let dropped = operation.ending == Ending::Dropped;
            holds(&text, run.kind.noun(), dropped, &expected, apart.left.len());
            drops += usize::from(dropped);
            doubles += usize::from(expected.taken.is_some_and(|(_, takers)| takers.len() > 1));
            kept += usize::from(expected.left.is_some());
            never += usize::from(expected.put.is_none());
        }
    }
    assert!(doubles > 100 && kept > 100 && never > 100 && drops > 100, "{doubles} {kept} {never} {drops}");
}

#[test]
fn steps_of_the_listing_in_words() {
    let room = Room::new("steps");
    room.sample("listing.job");
    let all = " step  process  operation  row  what
    1        0          1  Q1   reads Tail: node 0
    2        0          1  Q2   reads node 0's next: none
    3        0          1  Q3   sets node 0's next from none to node 1: changed; reading 1 is in
    4        0          1  Q4   sets Tail from node 0 to node 1: changed; ends, done
    5        1          2  T1   reads Head: node 0
    6        2          3  T1   reads Head: node 0
    7        1          2  T2   reads Tail: node 1
    8        2          3  T2   reads Tail: node 1
    9        1          2  T3   reads node 0's next: node 1
   10        2          3  T3   reads node 0's next: node 1
   11        1          2  T5   sets Head from node 0 to node 1: changed; reading 1 is out; ends with reading 1
   12        2          3  T5   sets Head from node 0 to node 1: not changed, it holds node 1; ends with reading 1
";
    room.bench("steps listing.job").is(0, all, "");
    let only = |keep: fn(usize) -> bool| {
        all.lines().enumerate().filter(|&(i, _)| i == 0 || keep(i)).map(|(_, line)| format!("{line}\n")).collect::<String>()
    };
    room.bench("steps listing.job --op 2").is(0, &only(|step| [5, 7, 9, 11].contains(&step)), "");
    room.bench("steps listing.job --from 3 --to 4").is(0, &only(|step| step == 3 || step == 4), "");
    room.bench("steps listing.job --op 3 --from 9").is(0, &only(|step| step == 10 || step == 12), "");
    room.bench_with("steps - --to 1", &room.read("listing.job")).is(0, &only(|step| step == 1), "");
    for words in ["--op 0", "--op 4"] {
        room.bench(&format!("steps listing.job {words}")).fails("--op is one of the job's operations, 1 to 3.");
    }
    for words in ["--from 0", "--from 13", "--to 13", "--from 4 --to 3", "--to 0"] {
        room.bench(&format!("steps listing.job {words}")).fails("The job has 12 steps, counted from 1; --from is not past --to.");
    }
    room.write("still.txt", "stack\nprocesses 1\ntake 0\n");
    room.bench("make still.txt").is(0, "", "still.job: stack, 1 process, 1 operation, 0 steps\n");
    room.bench("steps still.job").is(0, " step  process  operation  row  what\n", "The job has no steps.\n");
    let only = room.bench("steps listing.job --op 2 --to 4");
    only.is(0, " step  process  operation  row  what\n", "Operation 2 made no step there.\n");
}

#[test]
fn steps_of_a_stack_in_words() {
    let room = Room::new("steps-of-a-stack");
    room.sample("open-take.job");
    let last = "    5        1          2  R3   raises node 1's mark, which was clear: claims reading 1
    6        2          3  R1   reads Top: node 1
    7        2          3  R2   reads node 1's mark: raised
    8        2          3  R5   sets Top from node 1 to none: changed
    9        2          3  R1   reads Top: none; ends, empty
";
    room.bench("steps open-take.job --from 5").tells(0, last);
    room.sample("smallest.job");
    room.bench("steps smallest.job --from 2 --to 2").tells(0, "\n    2        0          -  -    idle: no operation remains\n");
}

/// A put that is too late at its Q3 and then helps the faster one, which stands before its Q4; a take that wants to help it too and finds that done.
const LOST: &str = "queue
processes 3
put 0 500
put 1 510
take 2
order 0 0 1 1 0 1   # put 2 too late
order 2 2 2 1 1 1   # it helps put 1
order 2 0           # take 3 finds Tail moved
order 2 x 4 1 x 4
";

const LOST_STEPS: &str = " step  process  operation  row  what
    1        0          1  Q1   reads Tail: node 0
    2        0          1  Q2   reads node 0's next: none
    3        1          2  Q1   reads Tail: node 0
    4        1          2  Q2   reads node 0's next: none
    5        0          1  Q3   sets node 0's next from none to node 1: changed; reading 1 is in
    6        1          2  Q3   sets node 0's next from none to node 2: not changed, it holds node 1; back to Q1, lost round 1
    7        2          3  T1   reads Head: node 0
    8        2          3  T2   reads Tail: node 0
    9        2          3  T3   reads node 0's next: node 1
   10        1          2  Q1   reads Tail: node 0
   11        1          2  Q2   reads node 0's next: node 1
   12        1          2  Q5   sets Tail from node 0 to node 1: changed; back to Q1, lost round 2
   13        2          3  T4   sets Tail from node 0 to node 1: not changed, it holds node 1; back to T1, lost round 3
   14        0          1  Q4   sets Tail from node 0 to node 1: not changed, it holds node 1; ends, done
   15        2          3  T1   reads Head: node 0
   16        2          3  T2   reads Tail: node 1
   17        2          3  T3   reads node 0's next: node 1
   18        2          3  T5   sets Head from node 0 to node 1: changed; reading 1 is out; ends with reading 1
   19        1          2  Q1   reads Tail: node 1
   20        1          2  Q2   reads node 1's next: none
   21        1          2  Q3   sets node 1's next from none to node 2: changed; reading 2 is in
   22        1          2  Q4   sets Tail from node 1 to node 2: changed; ends, done
";

const LOST_REPORT: &str = "object queue
op 1 process 0 put 50 first 1 last 14 done
op 2 process 1 put 51 first 3 last 22 done
op 3 process 2 take first 7 last 18 item 1 value 50
at 5 put 1
at 18 take 1 by 3
at 21 put 2
lost 3
left 1 2
";

#[test]
fn lost_rounds_in_words() {
    let room = Room::new("lost");
    room.write("lost.txt", LOST);
    room.bench("make lost.txt").is(0, "", "lost.job: queue, 3 processes, 3 operations, 22 steps\n");
    room.bench("steps lost.job").is(0, LOST_STEPS, "");
    room.bench("replay lost.job").is(0, LOST_REPORT, "");
    // a round has its number in the run, whatever is asked for
    let title = LOST_STEPS.lines().next().unwrap();
    let third = LOST_STEPS.lines().find(|line| line.ends_with("lost round 3")).unwrap();
    room.bench("steps lost.job --op 3 --from 10 --to 13").is(0, &format!("{title}\n{third}\n"), "");
}

#[test]
fn a_process_loses_a_round_by_its_own_drop() {
    let room = Room::new("own-drop");
    room.write("own.txt", "queue\nprocesses 1\nput 0 500\nput 0 510\norder 0 x 3 drop 0 0 x 7\n");
    room.bench("make own.txt").is(0, "", "own.job: queue, 1 process, 2 operations, 11 steps with 1 drop\n");
    let all = " step  process  operation  row  what
    1        0          1  Q1   reads Tail: node 0
    2        0          1  Q2   reads node 0's next: none
    3        0          1  Q3   sets node 0's next from none to node 1: changed; reading 1 is in
    4        0          1  x    drops operation 1, behind Q3: reading 1 is in all the same
    5        0          2  Q1   reads Tail: node 0
    6        0          2  Q2   reads node 0's next: node 1
    7        0          2  Q5   sets Tail from node 0 to node 1: changed; back to Q1, lost round 1
    8        0          2  Q1   reads Tail: node 1
    9        0          2  Q2   reads node 1's next: none
   10        0          2  Q3   sets node 1's next from none to node 2: changed; reading 2 is in
   11        0          2  Q4   sets Tail from node 1 to node 2: changed; ends, done
";
    room.bench("steps own.job").is(0, all, "");
    let report = "object queue
op 1 process 0 put 50 first 1 last - dropped
op 2 process 0 put 51 first 5 last 11 done
at 3 put 1
at 10 put 2
lost 1
left 2 1 2
";
    room.bench("replay own.job").is(0, report, "");
}

/// Puts and takes that come in each other's way at every row where they can.
const CROWDED: &str = "linked
processes 3
put 0 500
put 1 510
take 2
put 0 520
take 1
take 2
take 1
order 0 x 3 1 x 3 0 1 x 4 0
order 1 x 3 2 x 3 1 2 x 4 1
order 2 x 3 0 x 3 1 x 3 2 1 0
order 0 x 5 1 1 2 x 6
order 1 x 7 2 2 0 x 5
";

#[test]
fn steps_of_a_linked_stack_in_words() {
    let room = Room::new("steps-of-a-linked-stack");
    room.write("crowded.txt", CROWDED);
    room.bench("make crowded.txt").is(0, "", "crowded.job: linked stack, 3 processes, 7 operations, 63 steps\n");
    let out = room.bench("steps crowded.job").out;
    // rounds are counted on queues alone
    assert!(!out.contains("lost round"), "{out}");
    for line in "    7        0          1  V4   sets node 0's upper from none to node 1: changed; reading 1 is in
    8        1          2  V4   sets node 0's upper from none to node 2: not changed, it holds node 1
    9        1          2  V1   reads Top: node 0
   10        1          2  V2   reads node 0's upper: node 1
   11        1          2  V6   sets Top from node 0 to node 1: changed
   12        0          1  V5   sets Top from node 0 to node 1: not changed, it holds node 1; ends, done
   15        1          2  V3   reads node 1's flag: live
   20        2          3  W4   does not clear node 1's flag: node 1's upper is node 2
   23        2          3  W8   sets Top from node 1 to node 2: changed
   34        2          3  W4   clears node 2's flag, which was live: claims reading 2; reading 2 is out
   35        1          5  W4   clears node 2's flag, which was cleared: claims reading 2
   36        0          4  V4   sets node 2's upper from none to node 4: not changed, node 2's flag is cleared
   39        0          4  V3   reads node 2's flag: cleared
   40        0          4  V7   sets node 1's upper from node 2 to none: changed
   41        0          4  V8   sets Top from node 2 to node 1: changed
   42        1          5  W5   sets node 1's upper from node 2 to none: not changed, it holds none
   43        1          5  W6   sets Top from node 2 to node 1: not changed, it holds node 1; ends with reading 2
   53        1          7  W7   sets node 0's upper from node 1 to none: changed
   54        1          7  W9   sets Top from node 1 to node 0: changed
   55        1          7  W1   reads Top: node 0
   56        1          7  W2   reads node 0's upper: none; ends, empty
   63        0          4  V5   sets Top from node 0 to node 4: changed; ends, done"
        .lines()
    {
        assert!(out.lines().any(|other| other == line), "not among the steps: {line}\n{out}");
    }
}

/// A put that is in and one that is not, a take that came to nothing, and drops with nothing to drop.
const DROPS: &str = "queue
processes 2
put 0 500
put 0 510
take 1
take 1
order 0 0 0 drop 0 x 2
order 0 drop 0
order 1 1 drop 1
order 1 x 8 drop 1 1
";

#[test]
fn drops_in_words() {
    let room = Room::new("drops");
    room.write("drops.txt", DROPS);
    room.bench("make drops.txt").is(0, "", "drops.job: queue, 2 processes, 4 operations, 20 steps with 5 drops\n");
    let out = room.bench("steps drops.job").out;
    for line in "    4        0          1  x    drops operation 1, behind Q3: reading 1 is in all the same
    5        0          -  x    idle: no begun operation to drop
    6        0          2  Q1   reads Tail: node 0
    7        0          2  x    drops operation 2, behind Q1: reading 2 does not come in
   10        1          3  x    drops operation 3, behind T2: nothing was taken
   14        1          4  T4   sets Tail from node 0 to node 1: changed; back to T1, lost round 1
   18        1          4  T5   sets Head from node 0 to node 1: changed; reading 1 is out; ends with reading 1
   19        1          -  x    idle: no begun operation to drop
   20        1          -  -    idle: no operation remains"
        .lines()
    {
        assert!(out.lines().any(|other| other == line), "not among the steps: {line}\n{out}");
    }
    let only: Vec<&str> =
        out.lines().enumerate().filter(|(step, _)| [0, 8, 9, 10].contains(step)).map(|(_, line)| line).collect();
    room.bench("steps drops.job --op 3").is(0, &(only.join("\n") + "\n"), "");
    room.write("linked.txt", "linked\nprocesses 2\nput 0 500\ntake 1\norder 0 x 4 drop 0 1 x 7 drop 1\n");
    room.bench("make linked.txt").is(0, "", "linked.job: ");
    let out = room.bench("steps linked.job").out;
    for words in [
        "drops operation 1, behind V4: reading 1 is in all the same\n",
        "drops operation 2, behind W4: it had claimed reading 1 and does not get it\n",
    ] {
        assert!(out.contains(words), "{out}");
    }
}

#[test]
fn fates_of_dropped_puts() {
    let room = Room::new("dropped-puts");
    room.write("drops.txt", DROPS);
    room.bench("make drops.txt").is(0, "", "drops.job: ");
    let fate = "Reading 1: 50 cm, put by operation 1 of process 0 (begun at step 1, dropped at step 4).
The record has it coming into the queue at step 3, before its put was dropped.
The record has it going out at step 18, to operation 4 of process 1 (steps 11 to 18).
It was taken once: no double.
";
    room.bench("reading drops.job 1").is(0, fate, "");
    let fate = "Reading 2: 51 cm, put by operation 2 of process 0 (begun at step 6, dropped at step 7).
It is not in the record: its put was dropped before it came into the queue.
";
    room.bench("reading drops.job 2").is(0, fate, "");
}

/// Three takes that claim one reading, and then a number of ends: who has it.
#[test]
fn who_of_several_takers_has_the_reading() {
    let room = Room::new("takers");
    let sentence = |who: &str, to: &str| format!("\nA double: the 3 takers overlap from step 7 {to}.{who}\n");
    for (order, to, who) in [
        ("", "on", " All of them are open, so nobody has it yet."),
        ("order 1", "to step 12", " Those that are open have claimed it and do not have it yet."),
        ("order 1 2 3", "to step 12", ""),
        ("order drop 1 2 3", "to step 12", " Those that were dropped had claimed it and did not get it."),
        ("order 3 1 drop 2", "to step 12", " Those that were dropped had claimed it and did not get it."),
        ("order drop 3 drop 2 drop 1", "to step 12", " All of them were dropped, so nobody got it."),
        ("order drop 1", "to step 12", " Some are open and the others were dropped, so nobody has it yet."),
        (
            "order 2 drop 1",
            "to step 12",
            " Those that are open have claimed it and do not have it yet; those that were dropped did not get it.",
        ),
    ] {
        let puts = "stack\nprocesses 4\nput 0 1200\ntake 1\ntake 2\ntake 3\norder 0 0 1 1 2 2 3 3 1 2 3\n";
        room.write("takers.txt", format!("{puts}{order}\n"));
        room.bench("make takers.txt --out takers.job").is(0, "", "takers.job: ");
        room.bench("reading takers.job 1").tells(0, &sentence(who, to));
        room.bench("reading takers.job --doubles").tells(0, &format!("; they overlap from step 7 {to}.\n"));
    }
    room.write("one.txt", "stack\nprocesses 2\nput 0 1200\ntake 1\norder 0 0 1 x 3 drop 1\n");
    room.bench("make one.txt").is(0, "", "one.job: ");
    room.bench("reading one.job 1").tells(0, "\nThat one had claimed it and was dropped, so nobody got it.\n");
}

/// The rows that docs/STEPS.md lays out under a job: its lines `process` and `row`.
#[test]
fn rows_are_those_that_the_page_about_steps_shows() {
    let page = fs::read_to_string(top().join("docs/STEPS.md")).unwrap();
    let room = Room::new("rows");
    let mut shown = 0;
    for block in page.split("\n\n") {
        let Some((name, _)) = block.trim_start().strip_prefix("examples/").and_then(|rest| rest.split_once(": ")) else {
            continue;
        };
        let words = |line: &str| -> Vec<String> {
            let line = block.lines().map(str::trim).find(|other| other.starts_with(line)).unwrap();
            line.split_whitespace().skip(1).map(String::from).collect()
        };
        // `listing.job`, or `satellite.job within examples/satellite.win`
        let files = name.replace(" within examples/", " ");
        files.split(' ').for_each(|file| room.sample(file));
        let out = room.bench(&format!("steps {}", files.replace(' ', " --windows "))).out;
        let column = |at: usize| -> Vec<String> {
            out.lines().skip(1).map(|line| line.split_whitespace().nth(at).unwrap().to_string()).collect()
        };
        let rows: Vec<String> = out.lines().skip(1).map(|line| line.split_whitespace().nth(3).unwrap().to_string()).collect();
        assert_eq!((column(1), rows), (words("process "), words("row ")), "{name}");
        shown += 1;
    }
    assert!(shown >= 10, "{shown}");
}

#[test]
fn the_two_replayers_agree_and_every_step_has_a_line() {
    let files =
        (0..800).flat_map(|seed| [generated(seed).1, with_drops(seed).1]).chain(samples().into_iter().map(|(_, file)| file));
    let mut dropped = 0;
    for file in files {
        let (turns, proved) = input::replayed(&file, &[]).unwrap();
        let job = &turns.job;
        let log = steps::agreed(steps::second(&file, &[]), &turns, proved.as_str()).unwrap();
        let all = job.schedule.len();
        let text = steps::told(&turns, &log, None, &(1..=all as u16));
        assert_eq!(text.lines().count(), all + 1);
        let of_each: usize = (1..=job.operations.len() as u16)
            .map(|op| steps::told(&turns, &log, Some(op), &(1..=all as u16)).lines().count() - 1)
            .sum();
        assert_eq!(of_each + text.matches("  idle: ").count(), all);
        // the job tells of the report's drops what the second replayer saw
        let run = proved.run();
        let mut told: Vec<(u16, u16)> =
            run.operations.iter().filter_map(|own| Some((own.dropped_at(job)?, own.number))).collect();
        told.sort();
        let seen: Vec<(u16, u16)> = log.drops.iter().map(|drop| (drop.step, drop.operation)).collect();
        assert_eq!((&told, run.operations.iter().filter(|own| own.ending == Dropped).count()), (&seen, seen.len()));
        assert_eq!(text.matches("  drops operation ").count(), seen.len());
        dropped += seen.len();
    }
    assert!(dropped > 1_000, "{dropped}");
}

/// Holds the steps of a run that lose a round against the rows: the next step of the operation is then at Q1 or T1, and else it is not. Of the last step of
/// an operation, or the last before its drop, only the report's count tells.
fn held_to_rows(text: &str) {
    let mut last: HashMap<&str, &str> = HashMap::new();
    for line in text.lines().skip(1) {
        let words: Vec<&str> = line.split_whitespace().collect();
        let (operation, row) = (words[2], words[3]);
        if operation == "-" {
            continue;
        }
        if let Some(before) = last.insert(operation, line).filter(|_| row != "x") {
            assert_eq!(before.contains("; back to "), row == "Q1" || row == "T1", "{before}\n{line}");
            assert!(
                !before.contains("; back to ") || before.contains(&format!("; back to {row}, lost round ")),
                "{before}\n{line}"
            );
        }
    }
}

#[test]
fn lost_rounds_of_generated_jobs_are_those_of_their_reports_and_of_their_rows() {
    let (mut queues, mut lost) = (0, 0);
    for file in (0..800).flat_map(|seed| [generated(seed).1, with_drops(seed).1]) {
        let (turns, proved) = input::replayed(&file, &[]).unwrap();
        let job = &turns.job;
        let log = steps::agreed(steps::second(&file, &[]), &turns, proved.as_str()).unwrap();
        let text = steps::told(&turns, &log, None, &(1..=job.schedule.len() as u16));
        let rounds: Vec<u16> = text.lines().filter_map(|line| line.split_once(", lost round ")?.1.parse().ok()).collect();
        let run = proved.run();
        assert_eq!((job.kind == Kind::Queue, run.lost.unwrap_or_default()), (run.lost.is_some(), rounds.len() as u16));
        assert!(rounds.iter().copied().eq(1..=rounds.len() as u16), "{rounds:?}");
        held_to_rows(&text);
        queues += usize::from(job.kind == Kind::Queue);
        lost += rounds.len();
    }
    assert!(queues > 400 && lost > 4_000, "{queues} {lost}");
}
