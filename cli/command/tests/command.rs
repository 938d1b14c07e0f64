//! Every subcommand on good and bad input: what it prints, what it says beside, its exit status.

mod shared;

use shared::Room;
use std::ffi::OsStr;
use std::fs;
use std::os::unix::ffi::OsStrExt;
use std::os::unix::fs::{FileTypeExt, PermissionsExt, symlink};
use std::process::{Command, Stdio};

const LISTING: &str = include_str!("../../../examples/listing.txt");
const SMALLEST: &str = include_str!("../../../examples/smallest.txt");

/// A room with two samples and a file that is no job.
fn room(name: &str) -> Room {
    furnished(Room::new(name))
}

fn furnished(room: Room) -> Room {
    room.sample("listing.job");
    room.sample("smallest.job");
    room.write("cut.job", &room.read("listing.job")[..500]);
    room
}

/// What is told with the usage.
const WRONG_USE: [&str; 28] = [
    "",
    "nosuch",
    "make",
    "make a b",
    "text",
    "text listing.job smallest.job",
    "replay",
    "replay --nosuch listing.job",
    "replay listing.job --out",
    "replay listing.job --windows",
    "replay --windows listing.job",
    "windows",
    "windows a b",
    "windows a --text -o b",
    "text listing.job --windows a",
    "why",
    "salvage",
    "salvage a b",
    "salvage listing.job --windows a",
    "reading listing.job",
    "reading listing.job 1 --doubles",
    "reading listing.job x",
    "reading listing.job -1",
    "reading listing.job 65536",
    "steps",
    "steps listing.job --op",
    "steps listing.job --from x",
    "picture",
];

#[test]
fn help_and_wrong_use() {
    let room = room("use");
    for words in ["help", "--help", "-h", "help make", "make --help", "help replay", "steps -h", "help windows", "help salvage"] {
        let ran = room.bench(words);
        assert_eq!((ran.status, ran.said.as_str()), (0, ""), "{words}");
        assert!(ran.out.contains("Usage: bench"), "{words}");
    }
    let every = room.bench("help").out;
    for command in ["make", "text", "windows", "replay", "why", "salvage", "reading", "steps", "picture"] {
        assert!(every.contains(&format!("\n  {command} ")), "{command}");
    }
    assert!(every.contains("Exit status: 0 all is well; 1 a job or a window block was refused; 2 wrong use, a wrong text"));
    for words in ["help replay", "help steps"] {
        assert!(room.bench(words).out.contains(" to begin again. Each costs radio battery."), "{words}");
    }
    for words in WRONG_USE {
        room.bench(words).fails("--help");
    }
}

#[test]
fn a_missing_file_is_told_by_every_command() {
    let room = room("missing");
    for words in [
        "make",
        "text",
        "windows",
        "windows --text",
        "replay",
        "why",
        "why --windows",
        "salvage",
        "reading --doubles",
        "steps",
        "picture",
        "replay --files-from",
    ] {
        room.bench(&format!("{words} none")).fails("none could not be read: No such file");
    }
    for words in ["make", "text", "windows", "windows --text", "why", "salvage", "reading --doubles", "steps", "picture"] {
        room.bench(&format!("{words} .")).fails(". could not be read: Is a directory");
    }
}

#[test]
fn a_refused_file_is_told_by_every_command() {
    let room = room("refused");
    let sentence =
        "cut.job: refused 2: the file's length is 0, over 17,920 bytes or not a multiple of 512. `bench why` says more.\n";
    for words in ["text", "reading --doubles", "steps", "picture"] {
        room.bench(&format!("{words} cut.job")).is(1, "", sentence);
    }
    room.bench("reading cut.job 1").is(1, "", sentence);
    room.bench("replay cut.job").is(1, "refused 2\n", sentence);
    assert!(!room.has("cut.html"));
}

#[test]
fn an_answer_that_cannot_be_written_is_status_two() {
    let room = room("full");
    room.write("hour.txt", "queue\nprocesses 1\nput 0 5\n");
    room.sample("satellite.windows");
    room.sample("satellite.win");
    let full = || Stdio::from(fs::OpenOptions::new().write(true).open("/dev/full").unwrap());
    for words in [
        "make hour.txt -o -",
        "text listing.job",
        "windows satellite.windows -o -",
        "windows --text satellite.win",
        "replay listing.job",
        "why listing.job",
        "salvage listing.job -o -",
        "reading listing.job 1",
        "steps listing.job",
        "picture listing.job -o -",
        "help",
    ] {
        let mut command = Command::new(env!("CARGO_BIN_EXE_bench"));
        let status = command.args(words.split(' ')).current_dir(&room.0).stdout(full()).stderr(Stdio::null()).status().unwrap();
        assert_eq!(status.code(), Some(2), "{words}");
    }
    room.bench("make hour.txt -o no/such/folder.job").fails("no/such/folder.job could not be written: ");
    room.bench("windows satellite.windows -o no/such/folder.win").fails("no/such/folder.win could not be written: ");
    room.bench("salvage listing.job -o no/such/folder.job").fails("no/such/folder.job could not be written: ");
    room.bench("picture listing.job -o no/such/folder.html").fails("no/such/folder.html could not be written: ");
    room.bench("replay listing.job --out listing.job").fails("The folder listing.job cannot be made: ");
}

#[test]
fn make_writes_beside_the_text_and_replaces_no_other_job() {
    let room = room("make");
    let text = room.bench("text listing.job").out;
    room.write("hour.txt", &text);
    room.bench("make hour.txt").is(0, "", "hour.job: queue, 3 processes, 3 operations, 12 steps\n");
    assert_eq!(room.read("hour.job"), room.read("listing.job"));
    room.bench("make hour.txt").is(0, "", "hour.job: queue, 3 processes, 3 operations, 12 steps\n");
    room.write("smallest.txt", &text);
    let before = room.read("smallest.job");
    room.bench("make smallest.txt")
        .fails("smallest.job is there already, is something else and stays as it is: name the file with --out to replace it.");
    assert_eq!(room.read("smallest.job"), before);
    room.bench("make smallest.txt --out smallest.job").is(0, "", "smallest.job: queue");
    assert_eq!(room.read("smallest.job"), room.read("listing.job"));
    for name in ["listing.job", "smallest.job"] {
        room.bench(&format!("make {name}")).fails("is no text. If it is a job file, it is made already: `bench text` prints it.");
    }
    let ran = room.bench_with("make -", b"stack\nprocesses 1\nput 0 5\norder 0 0\n");
    assert_eq!((ran.status, ran.out.len(), ran.said.as_str()), (0, 512, ""));
    room.bench_with("make -", b"stack\n").fails("standard input:1: found the end of the text, and no line of processes");
}

#[test]
fn replay_of_one_file_prints_the_report_and_nothing_else() {
    let room = room("one");
    room.bench("replay listing.job").is(0, LISTING, "");
    room.bench("replay ./listing.job").is(0, LISTING, "");
    room.bench_with("replay -", &room.read("listing.job")).is(0, LISTING, "");
    room.bench_with("replay -", b"").is(1, "refused 2\n", "standard input: refused 2: ");
    room.bench_with("replay - -", b"").fails("Standard input can be read only once.");
}

#[test]
fn replay_of_a_sample_prints_its_report() {
    let room = Room::new("reports-of-samples");
    for (name, file) in shared::samples() {
        room.write("card.job", file);
        let report = fs::read_to_string(shared::top().join("examples").join(name).with_extension("txt")).unwrap();
        room.bench("replay card.job").is(0, &report, "");
    }
}

#[test]
fn replay_of_several_puts_each_under_its_name() {
    let room = room("several");
    let both = format!("==> listing.job <==\n{LISTING}\n==> smallest.job <==\n{SMALLEST}");
    room.bench("replay listing.job smallest.job").is(0, &both, "2 files: 2 replayed, 0 refused\n");
    let three = format!("{both}\n==> cut.job <==\nrefused 2\n");
    room.bench("replay listing.job smallest.job cut.job").is(1, &three, "3 files: 2 replayed, 1 refused (1 with number 2)\n");
    let ran = room.bench("replay listing.job none.job smallest.job");
    ran.is(
        2,
        &both.replace("\n==> small", "\n==> none.job <==\nfailed\n\n==> small"),
        "none.job could not be read: No such file",
    );
    assert!(ran.said.ends_with("3 files: 2 replayed, 0 refused, 1 not read or not written\n"));
}

#[test]
fn a_folder_is_its_job_files_and_those_below() {
    let room = room("folder");
    for name in ["cards/b/hour.job", "cards/a/HOUR.JOB", "cards/c.job", "cards/notes.txt", "empty/notes.txt"] {
        room.write(name, room.read("smallest.job"));
    }
    let under = |name: &str| format!("==> {name} <==\n{SMALLEST}");
    let all = ["cards/a/HOUR.JOB", "cards/b/hour.job", "cards/c.job"].map(under).join("\n");
    room.bench("replay cards").is(0, &all, "3 files: 3 replayed, 0 refused\n");
    let none = "In the folder empty there is no file whose name ends in .job.\n";
    room.bench("replay empty").is(2, "==> empty <==\nfailed\n", none);
    room.bench("replay empty smallest.job").is(2, &format!("==> empty <==\nfailed\n\n{}", under("smallest.job")), none);
    let lines = "replayed\tcards/a/HOUR.JOB\nreplayed\tcards/b/hour.job\nreplayed\tcards/c.job\n";
    room.bench("replay cards --out reports").is(0, lines, "3 files: ");
    for name in ["a/HOUR.txt", "b/hour.txt", "c.txt"] {
        assert_eq!(room.text(&format!("reports/{name}")), SMALLEST);
    }
    assert_eq!(fs::read_dir(room.0.join("reports")).unwrap().count(), 3);
}

#[test]
fn reports_in_a_folder_one_text_each() {
    let room = room("out");
    room.write("odd.001", room.read("smallest.job"));
    let ran = room.bench("replay listing.job cut.job odd.001 --out reports");
    ran.is(
        1,
        "replayed\tlisting.job\nrefused 2\tcut.job\nreplayed\todd.001\n",
        "3 files: 2 replayed, 1 refused (1 with number 2)\n",
    );
    assert_eq!(room.text("reports/listing.txt"), LISTING);
    assert_eq!(room.text("reports/cut.txt"), "refused 2\n");
    assert_eq!(room.text("reports/odd.001.txt"), SMALLEST);
    // an older answer is replaced, anything else is not
    room.write("reports/listing.txt", "refused 3\n");
    room.write("reports/cut.txt", "queue\nprocesses 1\ntake 0\n");
    let ran = room.bench("replay listing.job cut.job --out reports");
    ran.is(
        2,
        "replayed\tlisting.job\nfailed\tcut.job\n",
        "reports/cut.txt is there already, is something else and stays as it is",
    );
    assert_eq!(room.text("reports/listing.txt"), LISTING);
    assert_eq!(room.text("reports/cut.txt"), "queue\nprocesses 1\ntake 0\n");
    room.write("other/listing.job", room.read("smallest.job"));
    room.bench("replay listing.job other/listing.job --out twice")
        .fails("listing.job and other/listing.job would have one report, listing.txt: name a file once, and files of one name in a list, with --files-from.");
    assert!(!room.has("twice"));
    room.bench_with("replay - --out reports", &room.read("listing.job")).is(0, "replayed\t-\n", "1 file: ");
    assert_eq!(room.text("reports/standard-input.txt"), LISTING);
}

#[test]
fn files_from_a_list() {
    let room = room("list");
    room.write("2026/03/hour.job", room.read("smallest.job"));
    let full = room.0.join("2026/03/hour.job");
    room.write("list", format!("2026/03/hour.job\n./listing.job\n\n{}", room.0.join("smallest.job").display()));
    let ran = room.bench("replay --files-from list --out reports");
    let smallest = room.0.join("smallest.job").display().to_string();
    ran.is(0, &format!("replayed\t2026/03/hour.job\nreplayed\t./listing.job\nreplayed\t{smallest}\n"), "3 files: 3 replayed");
    assert_eq!(
        (room.text("reports/2026/03/hour.txt"), room.text("reports/listing.txt")),
        (SMALLEST.to_string(), LISTING.to_string())
    );
    assert_eq!(room.text(&format!("reports{}", smallest.replace(".job", ".txt"))), SMALLEST);
    let ran = room.bench_with("replay --files-from -", format!("{}\n", full.display()).as_bytes());
    ran.is(0, &format!("==> {} <==\n{SMALLEST}", full.display()), "1 file: 1 replayed");
    room.bench_with("replay cut.job --files-from - --out reports", b"listing.job\n").is(
        1,
        "refused 2\tcut.job\nreplayed\tlisting.job\n",
        "2 files",
    );
    room.bench_with("replay --files-from - --out reports", b"../x.job\n").fails("../x.job has a '..': with --out");
    let above = format!("../{}/smallest.job", room.0.file_name().unwrap().display());
    room.bench_with("replay --files-from -", format!("{above}\r\n").as_bytes()).is(
        0,
        &format!("==> {above} <==\n{SMALLEST}"),
        "1 file: ",
    );
    room.bench_with("replay --files-from -", b"listing.job\0smallest.job\0").fails("standard input is no list of files");
    // a listed - is a file of that name
    room.write("-", room.read("smallest.job"));
    room.bench_with("replay --files-from - --out reports", b"-\n").is(0, "replayed\t-\n", "1 file: ");
    assert_eq!(room.text("reports/-.txt"), SMALLEST);
    room.bench_with("replay - --files-from -", b"").fails("Standard input can be read only once.");
    room.bench_with("replay --files-from -", b"").is(0, "", "0 files: 0 replayed, 0 refused\n");
}

#[test]
fn what_cannot_be_read_in_a_folder_is_told_and_the_rest_is_replayed() {
    let room = furnished(Room::public("unreadable"));
    for name in ["cards/a.job", "cards/shut/b.job", "cards/z.job", "elsewhere/c.job"] {
        room.write(name, room.read("smallest.job"));
    }
    let path = |name: &str| room.0.join(name);
    assert!(Command::new("mkfifo").arg(path("cards/pipe.job")).status().unwrap().success());
    symlink("nowhere", path("cards/lost.job")).unwrap();
    symlink("../smallest.job", path("cards/linked.job")).unwrap();
    symlink("../elsewhere", path("cards/folder")).unwrap();
    let lines = "replayed\tcards/a.job\nreplayed\tcards/linked.job\nfailed\tcards/lost.job\nfailed\tcards/pipe.job\nreplayed\tcards/shut/b.job\nreplayed\tcards/z.job\n";
    let ran = room.bench("replay cards --out reports");
    ran.is(2, lines, "cards/pipe.job could not be read: it is no plain file\n");
    assert!(ran.said.contains("cards/lost.job could not be read: No such file"));
    // permissions do not bind root, who becomes nobody
    fs::set_permissions(path("cards/shut"), fs::Permissions::from_mode(0o0)).unwrap();
    let ran = room.bench_as_nobody("replay cards");
    fs::set_permissions(path("cards/shut"), fs::Permissions::from_mode(0o755)).unwrap();
    ran.tells(2, "==> cards/shut <==\nfailed\n\n==> cards/z.job <==\nobject queue\n");
    assert!(ran.said.contains("The folder cards/shut could not be read: Permission denied"), "{}", ran.said);
    fs::remove_dir_all(&room.0).unwrap();
}

#[test]
fn odd_names_are_shown_in_one_line_and_apart() {
    let room = room("names");
    let long = "a".repeat(240);
    let names: [&[u8]; 4] = [b"cards/caf\xe8.job", b"cards/caf\xe9.job", b"cards/x\ny.job", long.as_bytes()];
    fs::create_dir(room.0.join("cards")).unwrap();
    for name in names {
        fs::write(room.0.join(OsStr::from_bytes(name)), room.read("smallest.job")).unwrap();
    }
    let lines = "replayed\tcards/caf\\xe8.job\nreplayed\tcards/caf\\xe9.job\nreplayed\tcards/x\\ny.job\n";
    room.bench("replay cards --out reports").is(0, lines, "3 files: 3 replayed");
    assert_eq!(fs::read_dir(room.0.join("reports")).unwrap().count(), 3);
    room.bench(&format!("replay {long} --out reports")).is(0, &format!("replayed\t{long}\n"), "1 file: ");
    room.bench(&format!("picture {long}")).is(0, "", "open it in a browser");
}

#[test]
fn what_was_named_is_written_as_it_stands() {
    let room = room("named");
    room.write("hour.txt", "queue\nprocesses 1\nput 0 5\n");
    room.write("real.job", "old");
    symlink("real.job", room.0.join("link.job")).unwrap();
    room.bench("make hour.txt -o link.job").is(0, "", "link.job: queue");
    assert!(room.read("real.job").len() == 512 && fs::symlink_metadata(room.0.join("link.job")).unwrap().is_symlink());
    let pipe = room.0.join("pipe");
    assert!(Command::new("mkfifo").arg(&pipe).status().unwrap().success());
    let reader = std::thread::spawn({
        let pipe = pipe.clone();
        move || fs::read(pipe).unwrap()
    });
    room.bench("make hour.txt -o pipe").is(0, "", "pipe: queue");
    assert_eq!(reader.join().unwrap(), room.read("real.job"));
    assert!(fs::symlink_metadata(pipe).unwrap().file_type().is_fifo());
    assert_eq!(
        fs::read_dir(&room.0)
            .unwrap()
            .filter(|entry| entry.as_ref().unwrap().path().extension().is_some_and(|end| end == "part"))
            .count(),
        0
    );
}

#[test]
fn what_was_not_named_and_cannot_be_read_stays() {
    let room = furnished(Room::public("kept"));
    room.write("hour.txt", "queue\nprocesses 1\nput 0 5\n");
    for name in ["hour.job", "listing.html", "reports/listing.txt"] {
        room.write(name, "precious");
        fs::set_permissions(room.0.join(name), fs::Permissions::from_mode(0o600)).unwrap();
    }
    fs::set_permissions(room.0.join("reports"), fs::Permissions::from_mode(0o777)).unwrap();
    room.bench_as_nobody("make hour.txt").fails("hour.job is there already and stays as it is");
    room.bench_as_nobody("picture listing.job").fails("listing.html is there already and stays as it is");
    room.bench_as_nobody("replay listing.job --out reports").is(
        2,
        "failed\tlisting.job\n",
        "reports/listing.txt is there already and stays",
    );
    for name in ["hour.job", "listing.html", "reports/listing.txt"] {
        assert_eq!(room.text(name), "precious");
    }
    symlink("nowhere", room.0.join("smallest.html")).unwrap();
    room.bench("picture smallest.job").fails("smallest.html is there already and stays as it is (it is no plain file)");
    // another ending is kept, so two cards have two pages
    room.write("card.001", room.read("smallest.job"));
    room.write("card.002", room.read("listing.job"));
    room.bench("picture card.001").is(0, "", "card.001.html");
    room.bench("picture card.002").is(0, "", "card.002.html");
    fs::remove_dir_all(&room.0).unwrap();
}

#[test]
fn whoever_stops_reading_hears_nothing() {
    let room = room("pipe");
    room.sample("flood-hour.job");
    let command = format!("{} steps flood-hour.job 2>said | head -n 1", env!("CARGO_BIN_EXE_bench"));
    let output = Command::new("sh").args(["-c", &command]).current_dir(&room.0).output().unwrap();
    assert_eq!((String::from_utf8_lossy(&output.stdout).lines().count(), room.text("said").as_str()), (1, ""));
}

#[test]
fn many_files_come_in_their_order_on_any_number_of_cores() {
    let room = Room::new("many");
    let mut list = String::new();
    for seed in 0..2_500 {
        let name = format!("jobs/{seed}.job");
        room.write(&name, shared::generated(seed).1);
        list += &format!("{name}\n");
    }
    room.write("list", &list);
    let lines: String = list.lines().map(|name| format!("replayed\t{name}\n")).collect();
    room.bench("replay --files-from list --out all").is(0, &lines, "2,500 files: 2,500 replayed, 0 refused\n");
    let mut command = Command::new(env!("CARGO_BIN_EXE_bench"));
    let one =
        command.args(["replay", "--files-from", "list"]).env("RAYON_NUM_THREADS", "1").current_dir(&room.0).output().unwrap();
    let titled: Vec<String> = list
        .lines()
        .map(|name| format!("==> {name} <==\n{}", room.text(&format!("all/{}", name.replace(".job", ".txt")))))
        .collect();
    assert!(String::from_utf8(one.stdout).unwrap() == titled.join("\n"));
}

#[test]
fn a_bar_is_shown_on_a_terminal_and_nowhere_else() {
    let room = room("bar");
    for copy in 0..300 {
        room.write(&format!("cards/{copy}.job"), room.read("listing.job"));
    }
    room.write("cards/cut.job", room.read("cut.job"));
    // script(1) runs a command on a terminal of its own
    let on_terminal = |words: &str| {
        let command = format!("{} replay cards {words}", env!("CARGO_BIN_EXE_bench"));
        let mut script = Command::new("script");
        let output = script.args(["-qec", &command, "typescript"]).stdin(Stdio::null()).current_dir(&room.0).output().unwrap();
        String::from_utf8_lossy(&output.stdout).into_owned()
    };
    let seen = on_terminal("--out reports >lines");
    assert!(seen.contains(" of 301 files") && seen.contains("301 files: 300 replayed, 1 refused"), "{seen}");
    assert_eq!(room.text("lines").lines().count(), 301);
    // lines of files that went well are not for a person
    let seen = on_terminal("--out reports");
    assert!(
        seen.contains(" of 301 files") && seen.contains("refused 2\tcards/cut.job") && !seen.contains("replayed\t"),
        "{seen}"
    );
    assert!(!on_terminal("").contains(" of 301 files"));
    assert!(!room.bench("replay cards --out reports").said.contains(" of 301"));
}

#[test]
fn a_picture_is_written_beside_the_job_and_replaces_nothing_else() {
    let room = room("picture");
    room.bench("picture listing.job").is(0, "", "listing.html: open it in a browser\n");
    let page = room.text("listing.html");
    for line in LISTING.lines() {
        assert!(page.contains(line.trim_start_matches("object ")), "{line}");
    }
    room.write("listing.job", room.read("smallest.job"));
    room.bench("picture listing.job").is(0, "", "listing.html");
    assert_ne!(room.text("listing.html"), page);
    room.write("smallest.html", "<p>a page of somebody else</p>");
    room.bench("picture smallest.job")
        .fails("smallest.html is there already, is something else and stays as it is: name the page with --out");
    let ran = room.bench_with("picture -", &room.read("smallest.job"));
    assert!(ran.status == 0 && ran.out.contains("</html>") && ran.said.is_empty());
    room.write("{{run}}.job", room.read("smallest.job"));
    room.bench("picture {{run}}.job -o -").tells(0, "<title>{{run}}.job</title>");
    room.write("a<b>&\"c.job", room.read("smallest.job"));
    let ran = room.bench("picture a<b>&\"c.job -o -");
    assert!(ran.out.contains("<title>a&lt;b&gt;&amp;&quot;c.job</title>") && ran.out.contains(r#"{"name":"a\u003cb>&\"c.job""#));
}
