//! What the tests share: jobs and windows of the second replayer's generators, damaged ones mended, and the command run in a folder of its own.
#![allow(dead_code)]

use bench_command::why::place::Place;
use pigwazet::limits::PAYLOAD;
use second::damage::{self, FILE_NUMBERS, Fault};
use second::file::{BLOCK, seal_sums, sealed};
use second::generate::order::Order;
use second::generate::{self, Draft};
use second::job::{DROP, OPERATIONS, STEPS};
use second::random::Random;
use second::speed::shapes;
use std::io::Write;
use std::os::unix::fs::PermissionsExt;
use std::path::{Path, PathBuf};
use std::process::{Command, Stdio};
use std::{env, fs};

/// The top of the checkout.
pub fn top() -> PathBuf {
    Path::new(env!("CARGO_MANIFEST_DIR")).join("../..").canonicalize().unwrap()
}

/// The samples: name and job file.
pub fn samples() -> Vec<(String, Vec<u8>)> {
    let mut paths: Vec<PathBuf> = fs::read_dir(top().join("examples")).unwrap().map(|entry| entry.unwrap().path()).collect();
    paths.retain(|path| path.extension().is_some_and(|extension| extension == "job"));
    paths.sort();
    assert!(paths.len() > 8);
    paths.iter().map(|path| (path.file_stem().unwrap().to_str().unwrap().to_string(), fs::read(path).unwrap())).collect()
}

/// The job of a seed, and its file; seeds go round the styles of jobs.
pub fn generated(seed: u64) -> (Draft, Vec<u8>) {
    let draft = generate::job(seed);
    let file = sealed(&draft.stream());
    (draft, file)
}

/// The job of a seed with drops in place of some of its steps, and its file.
pub fn with_drops(seed: u64) -> (Draft, Vec<u8>) {
    let mut draft = generate::job(seed);
    let mut random = Random::new(seed);
    let one_in = random.between(2, 30);
    draft.schedule.iter_mut().filter(|_| random.chance(one_in)).for_each(|entry| *entry |= DROP);
    let file = sealed(&draft.stream());
    (draft, file)
}

/// A full-size job, and its file: 256 operations on 8 processes, 16,384 steps, the kinds in turn.
pub fn full_size(seed: u64) -> (Draft, Vec<u8>) {
    let draft = shapes::job(1 + (seed % 3) as u8, OPERATIONS, STEPS, &Order::Crowded, seed);
    let file = sealed(&draft.stream());
    (draft, file)
}

/// A block that the second replayer makes: of a run's windows, or with any fields in range.
pub fn block(seed: u64) -> [u8; BLOCK] {
    let mut random = Random::new(seed);
    let minute = |random: &mut Random| random.between(0, 1_440) as u16;
    let mut windows = generate::windows::windows(STEPS, &mut random);
    if random.chance(2) {
        for entry in &mut windows.entries {
            entry.weekdays = random.byte() & 0x7f;
            entry.opening = minute(&mut random);
            entry.closing = minute(&mut random);
        }
    }
    windows.block()
}

/// A job's files with a fault of each number and a second one of any, and these faults.
pub fn damaged(draft: &Draft, random: &mut Random) -> Vec<(Vec<Fault>, Vec<u8>)> {
    let mut files = vec![];
    for first in FILE_NUMBERS {
        let second = *random.pick(&FILE_NUMBERS);
        let faults: Vec<Fault> = [first, second].iter().filter_map(|&number| damage::fault(number, draft, random)).collect();
        files.push((faults.clone(), damage::file(draft, &faults)));
    }
    files
}

/// Writes a good value at the place that is told.
pub fn mended(file: &[u8], place: Place, number: u32, draft: &Draft) -> Vec<u8> {
    let good = sealed(&draft.stream());
    let mut file = file.to_vec();
    match place {
        Place::File => return good,
        Place::Block(block) => {
            let block_bytes = &mut file.as_chunks_mut::<BLOCK>().0[block];
            if number != 3 {
                block_bytes[..2].copy_from_slice(&(block as u16).to_be_bytes());
            }
            seal_sums(block_bytes);
        }
        _ => {
            let byte = place.in_stream().unwrap();
            let two = matches!(place, Place::Header(2 | 4) | Place::Record { field: 2, .. });
            for byte in byte..byte + 1 + usize::from(two) {
                let at = byte / PAYLOAD * BLOCK + 2 + byte % PAYLOAD;
                file[at] = good.get(at).copied().unwrap_or_default();
            }
            let block = byte / PAYLOAD;
            seal_sums(&mut file.as_chunks_mut::<BLOCK>().0[block]);
        }
    }
    file
}

/// What a run of the command gave.
pub struct Ran {
    pub status: i32,
    pub out: String,
    pub said: String,
}

/// A folder of a test's own, in which the command runs. It is left behind for whoever looks after a failure.
pub struct Room(pub PathBuf);

impl Room {
    pub fn new(name: &str) -> Room {
        Room::at(Path::new(env!("CARGO_TARGET_TMPDIR")).join(name))
    }

    /// One that another user can reach, wherever the checkout is, and write in.
    pub fn public(name: &str) -> Room {
        let room = Room::at(env::temp_dir().join(format!("bench-test-{name}")));
        fs::set_permissions(&room.0, fs::Permissions::from_mode(0o777)).unwrap();
        room
    }

    fn at(path: PathBuf) -> Room {
        let _ = fs::remove_dir_all(&path);
        fs::create_dir_all(&path).unwrap();
        Room(path)
    }

    pub fn write(&self, name: &str, bytes: impl AsRef<[u8]>) {
        let path = self.0.join(name);
        fs::create_dir_all(path.parent().unwrap()).unwrap();
        fs::write(path, bytes).unwrap();
    }

    pub fn read(&self, name: &str) -> Vec<u8> {
        fs::read(self.0.join(name)).unwrap_or_else(|why| panic!("{name}: {why}"))
    }

    pub fn text(&self, name: &str) -> String {
        String::from_utf8(self.read(name)).unwrap()
    }

    pub fn has(&self, name: &str) -> bool {
        self.0.join(name).exists()
    }

    /// A sample's job under its own name.
    pub fn sample(&self, name: &str) {
        fs::copy(top().join("examples").join(name), self.0.join(name)).unwrap();
    }

    pub fn bench(&self, arguments: &str) -> Ran {
        self.bench_with(arguments, b"")
    }

    /// Runs the command; arguments are separated by single spaces.
    pub fn bench_with(&self, arguments: &str, input: &[u8]) -> Ran {
        self.run(Command::new(env!("CARGO_BIN_EXE_bench")), arguments, input)
    }

    /// Runs it as a user whom permissions bind.
    pub fn bench_as_nobody(&self, arguments: &str) -> Ran {
        let program = self.0.join("bench");
        // by another process: a child that a test beside this one starts meanwhile would hold the copy open for writing, and it could not be run
        assert!(Command::new("cp").arg(env!("CARGO_BIN_EXE_bench")).arg(&program).status().unwrap().success());
        // only root has to become somebody else
        let mut command = Command::new("sh");
        let become_nobody =
            "[ \"$(id -u)\" -ne 0 ] || set -- setpriv --reuid=65534 --regid=65534 --clear-groups \"$@\"; exec \"$@\"";
        command.args(["-c", become_nobody, "sh"]).arg(program);
        self.run(command, arguments, b"")
    }

    fn run(&self, mut command: Command, arguments: &str, input: &[u8]) -> Ran {
        command.args(arguments.split(' ').filter(|word| !word.is_empty())).current_dir(&self.0);
        let mut child = command.stdin(Stdio::piped()).stdout(Stdio::piped()).stderr(Stdio::piped()).spawn().unwrap();
        // a command that does not read its input is no fault
        let _ = child.stdin.take().unwrap().write_all(input);
        let output = child.wait_with_output().unwrap();
        let text = |bytes: Vec<u8>| String::from_utf8_lossy(&bytes).into_owned();
        Ran { status: output.status.code().unwrap(), out: text(output.stdout), said: text(output.stderr) }
    }
}

/// Nothing stays below target/: a link there would have `rt ci` refuse the checkout.
impl Drop for Room {
    fn drop(&mut self) {
        let _ = fs::remove_dir_all(&self.0);
    }
}

impl Ran {
    /// This exit status and output, and these words on standard error; none there where no words are given.
    #[track_caller]
    pub fn is(&self, status: i32, out: &str, said: &str) {
        assert_eq!((self.status, self.out.as_str()), (status, out), "it says: {}", self.said);
        assert!(self.said.contains(said) && (self.said.is_empty() == said.is_empty()), "it says: {}", self.said);
    }

    /// This exit status, and these words on standard output.
    #[track_caller]
    pub fn tells(&self, status: i32, words: &str) {
        assert_eq!(self.status, status, "it says: {}", self.said);
        assert!(self.out.contains(words), "not in what it prints: {words}\n{}", self.out);
    }

    /// Wrong use, or something that cannot be read or written: nothing printed, these words said.
    #[track_caller]
    pub fn fails(&self, words: &str) {
        assert_eq!((self.status, self.out.as_str()), (2, ""), "it says: {}", self.said);
        assert!(self.said.contains(words), "not in what it says: {words}\n{}", self.said);
    }
}
