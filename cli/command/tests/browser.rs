//! The page of `bench picture` in a real browser: it draws what the report says, and picking a reading marks its takers. What the report says is counted
//! here from its text, not by the command. Run by tests/cli/run, which installs the browser.

mod shared;

use second::random::Random;
use second::windows::Windows;
use shared::{Room, generated, samples, with_drops};
use std::fs;
use std::process::Command;
use std::time::{Duration, Instant};

/// The page after its script ran, as the browser holds it.
fn drawn(room: &Room, page: &str, fragment: &str) -> String {
    let url = format!("file://{}#{fragment}", room.0.join(page).display());
    let output = Command::new("chromium-headless-shell").args(["--no-sandbox", "--disable-gpu", "--dump-dom", &url]).output();
    let output = output.expect("chromium-headless-shell is not installed");
    let text = String::from_utf8(output.stdout).unwrap();
    assert!(text.contains("data-drawn="), "{page} was not drawn: {}", String::from_utf8_lossy(&output.stderr));
    text
}

/// The elements with a class and an attribute, as the attribute's values.
fn with_class(dom: &str, class: &str, attribute: &str) -> Vec<String> {
    let mut values = vec![];
    for element in dom.split('<').skip(1) {
        let tag = element.split('>').next().unwrap_or_default();
        let value = |name: &str| tag.split(&format!(" {name}=\"")).nth(1).and_then(|rest| rest.split('"').next());
        if value("class").is_some_and(|classes| classes.split(' ').any(|other| other == class)) {
            values.extend(value(attribute).map(String::from));
        }
    }
    values
}

/// What a report says of bars, of those that were dropped, of effects, ties, rounds lost and items left.
struct Told {
    bars: Vec<String>,
    cuts: Vec<String>,
    effects: Vec<(String, String)>,
    ties: Vec<String>,
    lost: Option<String>,
    left: Vec<String>,
}

fn told(report: &str) -> Told {
    let mut told = Told { bars: vec![], cuts: vec![], effects: vec![], ties: vec![], lost: None, left: vec![] };
    for line in report.lines() {
        let words: Vec<String> = line.split(' ').map(String::from).collect();
        match words[0].as_str() {
            "op" if !line.ends_with("waiting") => {
                told.bars.push(words[1].clone());
                told.cuts.extend(line.ends_with("dropped").then(|| words[1].clone()));
            }
            "at" => {
                let by = words.iter().position(|word| word == "by").map_or(3, |at| at + 1);
                told.effects.extend(words[by..].iter().map(|own| (own.clone(), words[1].clone())));
                if words[2] == "take" && words.len() > by + 1 {
                    told.ties.push(words[3].clone());
                }
            }
            "lost" => told.lost = Some(words[1].clone()),
            "left" => told.left = words[2..].to_vec(),
            _ => {}
        }
    }
    told
}

/// The rounds that the page says were lost, in its head and in their section; none where it says nothing of them.
fn rounds(dom: &str) -> [Option<String>; 2] {
    let part = |from: &str, to: &str| Some(dom.split_once(from)?.1.split_once(to)?.0);
    let digits = |words: &str| words.chars().filter(char::is_ascii_digit).collect::<String>();
    let head = part(" id=\"numbers\">", "</p>").unwrap().split(" · ").find(|words| words.contains(" lost"));
    let section = part("<section id=\"lost\"", "</section>").filter(|section| !section.starts_with(" hidden"));
    let none = |section: &str| section.contains("<h2>Lost rounds</h2><p>no put and no take had to begin again</p>");
    let many = |section: &str| if none(section) { "0".to_string() } else { digits(part("<h2>Lost rounds (", ")</h2>").unwrap()) };
    [head.map(digits), section.map(many)]
}

/// Draws a job, within the windows of a block or of none, and holds the page against the report; gives the page.
fn held(room: &Room, name: &str, file: &[u8], block: &[u8]) -> String {
    let report = pigwazet::replay_within(file, block).unwrap();
    room.write(&format!("{name}.job"), file);
    room.write(&format!("{name}.win"), block);
    room.bench(&format!("picture {name}.job --windows {name}.win")).is(0, "", &format!("{name}.html: "));
    let dom = drawn(room, &format!("{name}.html"), "");
    let told = told(report.as_str());
    let mut effects: Vec<(String, String)> =
        with_class(&dom, "effect", "data-op").into_iter().zip(with_class(&dom, "effect", "data-at")).collect();
    let mut expected = told.effects.clone();
    effects.sort();
    expected.sort();
    assert_eq!(with_class(&dom, "bar", "data-op"), told.bars, "{name}");
    assert_eq!(
        (with_class(&dom, "dropped", "data-op"), with_class(&dom, "cut", "data-op")),
        (told.cuts.clone(), told.cuts),
        "{name}"
    );
    assert_eq!(effects, expected, "{name}");
    assert_eq!(with_class(&dom, "tie", "data-item"), told.ties, "{name}");
    assert_eq!(rounds(&dom), [told.lost.clone(), told.lost], "{name}");
    assert_eq!(with_class(&dom, "left", "data-item"), told.left, "{name}");
    dom
}

#[test]
#[ignore = "needs a browser: tests/cli/run installs it"]
fn every_sample_is_drawn_as_its_report_has_it() {
    let room = Room::new("pages");
    for (name, file) in samples() {
        let dom = held(&room, &name, &file, &[]);
        // process 0 of that job has no operation
        assert!(name != "smallest" || dom.contains("queue · 1 operation by 1 process · "));
        assert!(name != "drop-take" || (dom.contains(" left at the end · 1 dropped<") && dom.contains(">Dropped: 3 at step 9<")));
        assert!(name != "open-take" || !dom.contains(" dropped<"));
        assert!(name != "listing" || dom.contains(" · 0 rounds lost · 0 left at the end<"));
        assert!(
            name != "open-put"
                || (dom.contains(" · 1 round lost · 0 left at the end<")
                    && dom.contains(" Each costs radio battery, but no reading.</p>"))
        );
        assert!(name != "linked-help" || (dom.contains("linked stack · 4 operations by ") && dom.contains("(2, top first)")));
    }
}

#[test]
#[ignore = "needs a browser: tests/cli/run installs it"]
fn generated_jobs_are_drawn_as_their_reports_have_them() {
    let room = Room::new("generated-pages");
    for seed in 0..16 {
        held(&room, &format!("seed-{seed}"), &generated(seed).1, &[]);
        held(&room, &format!("drops-{seed}"), &with_drops(seed).1, &[]);
    }
}

/// The parts of lanes that are shaded: process, first and last step.
fn shaded(dom: &str) -> Vec<[u16; 3]> {
    let of = |attribute: &str| with_class(dom, "shut", attribute).into_iter().map(|number| number.parse().unwrap());
    of("data-process").zip(of("data-from")).zip(of("data-to")).map(|((process, from), to)| [process, from, to]).collect()
}

/// The same by the second replayer, for so many lanes and steps.
fn shut(windows: &Windows, lanes: u8, steps: u16) -> Vec<[u16; 3]> {
    let mut parts: Vec<[u16; 3]> = vec![];
    for process in 0..lanes {
        for step in (1..=steps).filter(|&step| !windows.is_open(process, step)) {
            match parts.last_mut() {
                Some([own, _, to]) if (*own, *to + 1) == (process.into(), step) => *to = step,
                _ => parts.push([process.into(), step, step]),
            }
        }
    }
    parts
}

#[test]
#[ignore = "needs a browser: tests/cli/run installs it"]
fn what_was_shut_is_shaded() {
    let room = Room::new("shaded");
    let mut all = 0;
    for seed in 0..16 {
        let (draft, file) = with_drops(seed);
        let windows = second::generate::windows::windows(draft.schedule.len(), &mut Random::new(seed));
        let dom = held(&room, &format!("seed-{seed}"), &file, &windows.block());
        let lanes = draft.records.iter().map(|record| record[0] + 1).max().unwrap();
        let expected = shut(&windows, lanes, draft.schedule.len() as u16);
        assert_eq!(shaded(&dom), expected, "seed {seed}");
        assert!(dom.contains("<li id=\"shut-key\">"));
        all += expected.len();
    }
    assert!(all > 20, "{all}");
    let dom = held(&room, "plain", &generated(1).1, &[]);
    assert!(shaded(&dom).is_empty() && dom.contains("<li id=\"shut-key\" hidden"));
}

#[test]
#[ignore = "needs a browser: tests/cli/run installs it"]
fn pointing_at_what_was_shut_shows_the_window() {
    let room = Room::new("pointed-at-shut");
    for name in ["satellite.job", "satellite.win"] {
        room.sample(name);
    }
    room.bench("picture satellite.job --windows satellite.win").is(0, "", "html");
    let page = room.text("satellite.html");
    for (process, lines) in [
        (1, "process 1 shut: steps 11 to 16\nits window: Thu 23:30 to 24:00"),
        (2, "process 2 shut: steps 1 to 10\nits window: Fri 00:00 to 00:30"),
    ] {
        let dom = pointed(&room, &page, &format!(".shut[data-process=\"{process}\"]"));
        assert!(dom.contains(&format!(">{lines}</div>")), "{process}");
        assert!(dom.contains(" · from Thursday 2024-02-29 23:59:50 on</p>"));
        assert!(dom.contains("title=\"its window: Fri 00:00 to 00:30\""));
    }
    room.sample("flood-hour.job");
    room.bench("picture flood-hour.job --windows satellite.win").is(0, "", "html");
    let dom = pointed(&room, &room.text("flood-hour.html"), ".shut[data-process=\"1\"]");
    assert!(dom.contains(">process 1 shut: steps 11 to 16,384\n"));
}

/// A page in which the pointer was brought over an element.
fn pointed(room: &Room, page: &str, element: &str) -> String {
    let point =
        format!("document.querySelector('{element}').dispatchEvent(new PointerEvent('pointerover', {{ bubbles: true }}));");
    room.write("pointed.html", page.replace("</body>", &format!("<script>{point}</script></body>")));
    drawn(room, "pointed.html", "")
}

#[test]
#[ignore = "needs a browser: tests/cli/run installs it"]
fn picking_a_reading_marks_its_put_and_its_takers() {
    let room = Room::new("picked");
    for name in ["listing", "stack-double", "linked-double", "open-take", "drop-put", "drop-idle", "flood-hour"] {
        room.sample(&format!("{name}.job"));
        room.bench(&format!("picture {name}.job")).is(0, "", "html");
        let text = fs::read_to_string(shared::top().join("examples").join(name).with_extension("txt")).unwrap();
        let line = text.lines().rfind(|line| line.contains(" take ") && line.starts_with("at ")).unwrap();
        let (item, takers) = line.split_once(" take ").unwrap().1.split_once(" by ").unwrap();
        // by the address, and by a click on the put's bar
        let click = format!(
            "document.querySelector('.bar[data-op=\"{item}\"]').dispatchEvent(new MouseEvent('click', {{ bubbles: true }}));"
        );
        room.write(
            "clicked.html",
            room.text(&format!("{name}.html")).replace("</body>", &format!("<script>{click}</script></body>")),
        );
        for dom in [drawn(&room, &format!("{name}.html"), &format!("reading={item}")), drawn(&room, "clicked.html", "")] {
            let of = |class: &str| {
                let mut numbers = with_class(&dom, class, "data-op");
                numbers.sort_by_key(|number| number.parse::<u16>().unwrap());
                numbers.dedup();
                numbers.join(" ")
            };
            assert_eq!((of("picked").as_str(), of("taker").as_str()), (item, takers), "{name}");
            assert!(dom.contains("class=\"dim\""), "{name}");
            for sentence in room.bench(&format!("reading {name}.job {item}")).out.lines() {
                assert!(dom.contains(&format!("<p>{sentence}</p>")), "{name}: {sentence}");
            }
        }
        let dom = drawn(&room, &format!("{name}.html"), "");
        assert!(with_class(&dom, "picked", "data-op").is_empty() && with_class(&dom, "taker", "data-op").is_empty());
    }
}

#[test]
#[ignore = "needs a browser: tests/cli/run installs it"]
fn pointing_shows_the_lines_of_the_report() {
    let room = Room::new("pointed");
    for (name, element, lines) in [
        ("listing", ".bar[data-op=\"2\"]", "op 2 process 1 take first 5 last 11 item 1 value 50\nat 11 take 1 by 2 3"),
        ("listing", ".effect[data-op=\"1\"]", "at 3 put 1\nop 1 process 0 put 50 first 1 last 4 done"),
        ("listing", ".tie", "at 11 take 1 by 2 3"),
        ("drop-take", ".bar[data-op=\"3\"]", "op 3 process 1 take first 6 last - dropped\ndropped at step 9\nat 6 take 2 by 3"),
        ("drop-take", ".cut", "dropped at step 9\nop 3 process 1 take first 6 last - dropped\nat 6 take 2 by 3"),
        ("drop-put", ".effect[data-op=\"1\"]", "at 3 put 1\nop 1 process 0 put 120 first 1 last - dropped\ndropped at step 4"),
    ] {
        room.sample(&format!("{name}.job"));
        room.bench(&format!("picture {name}.job")).is(0, "", "html");
        let dom = pointed(&room, &room.text(&format!("{name}.html")), element);
        assert!(dom.contains(&format!(">{lines}</div>")), "{element}");
    }
}

#[test]
#[ignore = "needs a browser: tests/cli/run installs it"]
fn zooming_keeps_every_bar_and_widens_it() {
    let room = Room::new("zoomed");
    room.sample("flood-hour.job");
    room.bench("picture flood-hour.job").is(0, "", "html");
    let nearer = "for (let i = 0; i < 20; i++) document.getElementById('nearer').click();";
    room.write("near.html", room.text("flood-hour.html").replace("</body>", &format!("<script>{nearer}</script></body>")));
    let (far, near) = (drawn(&room, "flood-hour.html", ""), drawn(&room, "near.html", ""));
    assert_eq!(with_class(&far, "bar", "data-op"), with_class(&near, "bar", "data-op"));
    let width = |dom: &str| {
        dom.split("id=\"plot\"")
            .nth(1)
            .unwrap()
            .split(" width=\"")
            .nth(1)
            .unwrap()
            .split('"')
            .next()
            .unwrap()
            .parse::<f64>()
            .unwrap()
    };
    // 16,348 steps are named, 24 pixels each
    assert!(width(&far) < 2_000.0 && width(&near) > 390_000.0, "{} {}", width(&far), width(&near));
    assert!(!with_class(&near, "tick", "class").is_empty());
}

#[test]
#[ignore = "needs a browser: tests/cli/run installs it"]
fn a_full_size_job_opens_in_under_two_seconds() {
    let room = Room::new("full-size");
    room.write("full.job", shared::full_size(1).1);
    room.bench("picture full.job").is(0, "", "html");
    let began = Instant::now();
    let dom = drawn(&room, "full.html", "");
    let whole = began.elapsed();
    let drawn = dom.split("data-drawn=\"").nth(1).unwrap().split('"').next().unwrap().parse::<u64>().unwrap();
    println!("drawn {drawn} ms after the page was asked for; {whole:?} with the browser's start");
    assert!(Duration::from_millis(drawn) < Duration::from_secs(2));
}

#[test]
#[ignore = "needs a browser: tests/cli/run installs it"]
fn a_page_asks_for_nothing_from_elsewhere() {
    let room = Room::new("alone");
    room.sample("listing.job");
    room.bench("picture listing.job --out run.html").is(0, "", "run.html: open it in a browser");
    let page = room.text("run.html");
    for word in ["src=", "href=", "url(", "@import", "fetch(", "XMLHttpRequest", "import("] {
        assert!(!page.contains(word), "{word}");
    }
    let addresses: Vec<&str> = page.split("http").skip(1).collect();
    // the name of SVG, which nobody fetches
    assert!(addresses.iter().all(|rest| rest.starts_with("://www.w3.org/2000/svg\"")));
}
