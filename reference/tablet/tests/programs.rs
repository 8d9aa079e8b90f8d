//! The two programs as they are run: `tablet` with its store, and `wishes`.

#![forbid(unsafe_code)]

mod common;
#[path = "../../module/tests/common/mod.rs"]
mod paper;

use common::{Cab, List};
use std::fs;
use std::io::{BufRead, BufReader, Write};
use std::path::{Path, PathBuf};
use std::process::{Child, ChildStdin, ChildStdout, Command, Stdio};
use std::sync::atomic::{AtomicUsize, Ordering};
use tablet::wishes;

const TABLET: &str = env!("CARGO_BIN_EXE_tablet");
const WISHES: &str = env!("CARGO_BIN_EXE_wishes");

/// A folder of a test's own, which goes with it.
struct Folder {
    path: PathBuf,
}

impl Folder {
    fn new() -> Folder {
        static COUNT: AtomicUsize = AtomicUsize::new(0);
        let number = COUNT.fetch_add(1, Ordering::Relaxed);
        let name = format!("tablet-{}-{}", std::process::id(), number);
        let path = Path::new(env!("CARGO_TARGET_TMPDIR")).join(name);
        fs::create_dir_all(&path).unwrap();
        Folder { path }
    }

    fn file(&self, name: &str) -> PathBuf {
        self.path.join(name)
    }

    fn names(&self) -> Vec<String> {
        let entries = fs::read_dir(&self.path).unwrap();
        entries.map(|entry| entry.unwrap().file_name().into_string().unwrap()).collect()
    }
}

impl Drop for Folder {
    fn drop(&mut self) {
        let _ = fs::remove_dir_all(&self.path);
    }
}

/// The program under way, with a module.
struct Running {
    child: Child,
    input: Option<ChildStdin>,
    output: BufReader<ChildStdout>,
    module: Cab,
}

impl Running {
    fn start(store: &Path, module: Cab) -> Running {
        let mut child = Command::new(TABLET)
            .arg(store)
            .stdin(Stdio::piped())
            .stdout(Stdio::piped())
            .spawn()
            .expect("the program starts");
        let input = child.stdin.take();
        let output = BufReader::new(child.stdout.take().unwrap());
        Running { child, input, output, module }
    }

    /// Sends a line and gives the one that comes back.
    fn say(&mut self, line: &[u8]) -> String {
        let input = self.input.as_mut().unwrap();
        input.write_all(&[line, b"\n"].concat()).unwrap();
        let mut answer = String::new();
        self.output.read_line(&mut answer).unwrap();
        assert_eq!(answer.pop(), Some('\n'));
        answer
    }

    /// Carries a wish through, and gives what is told.
    fn wish(&mut self, line: &[u8]) -> String {
        let mut told = self.say(line);
        while !told.starts_with('#') {
            let reply = self.module.reply(told.as_bytes());
            told = self.say(&reply);
        }
        told
    }

    /// Ends the input: the program's status, with nothing more said, and the module.
    fn end(mut self) -> (Option<i32>, Cab) {
        self.input = None;
        let mut rest = String::new();
        assert_eq!(self.output.read_line(&mut rest).unwrap(), 0);
        (self.child.wait().unwrap().code(), self.module)
    }
}

/// What the program writes to some input, and its status.
fn run(store: &Path, input: &[u8]) -> (String, Option<i32>) {
    let output = paper::run(TABLET, &[store.to_str().unwrap()], input);
    assert!(output.stderr.is_empty());
    (String::from_utf8(output.stdout).unwrap(), output.status.code())
}

#[test]
fn nothing_is_said_at_a_good_start_and_no_store_made() {
    let folder = Folder::new();
    let store = folder.file("store");
    assert_eq!(run(&store, b""), (String::new(), Some(0)));
    assert!(folder.names().is_empty());
    fs::write(&store, "").unwrap();
    assert_eq!(run(&store, b""), (String::new(), Some(0)));
    assert_eq!(fs::read(&store).unwrap(), b"");
}

#[test]
fn one_line_comes_for_each() {
    let folder = Folder::new();
    let store = folder.file("store");
    let input = b"what\n\ninsert 0\r\ninsert 0\ncounter 3\nask 7\n8f0000000000000007\n\
        ask 7\nask 7\nask 7\n0010\nask 7\n0011\nask 0";
    let told = "# what?\n# what?\n# what?\n# refused zero\n# done\n0f0000000000000007\n# none 7\n\
        0f0000000000000007\n# module spoke otherwise\n0f0000000000000007\n# module refused 16\n\
        0f0000000000000007\n# module spoke otherwise\n# refused zero\n";
    assert_eq!(run(&store, input), (told.to_string(), Some(0)));
    assert!(folder.names().is_empty());
}

#[test]
fn input_that_ends_while_a_reply_is_awaited() {
    let folder = Folder::new();
    let told = "0f0000000000000007\n".to_string();
    assert_eq!(run(&folder.file("store"), b"ask 7"), (told, Some(0)));
}

/// The store is on disk when `# done` is told, and nothing else is left beside it.
#[test]
fn the_store_is_kept_from_start_to_start() {
    let folder = Folder::new();
    let store = folder.file("store");
    let (mut expected, mut module) = (Cab::new(), Cab::new());
    let starts: [&[&str]; 3] = [
        &["insert 5", "insert 9", "insert 7", "set 9 61400 1250 3", "ask 9", "ask 6"],
        &["counter 1", "ask 9", "remove 5", "clear 9", "ask 5", "ask 9"],
        &["counter 2", "remove 9", "remove 7", "ask 7"],
    ];
    for start in starts {
        let mut running = Running::start(&store, module);
        for wish in start {
            assert_eq!(running.wish(wish.as_bytes()), expected.wish(wish), "{}", wish);
            assert_eq!(fs::read(&store).unwrap(), expected.store(), "{}", wish);
            assert_eq!(running.module.module, expected.module);
            assert_eq!(folder.names(), ["store"]);
        }
        let (status, after) = running.end();
        assert_eq!(status, Some(0));
        module = after;
    }
    assert_eq!(fs::read(&store).unwrap(), b"");
}

/// In a remove by way of a swap the store is on disk before the line behind the first adopt.
#[test]
fn the_store_is_written_between_two_adopts() {
    let folder = Folder::new();
    let store = folder.file("store");
    let mut running = Running::start(&store, Cab::new());
    for wish in ["insert 5", "insert 9"] {
        assert_eq!(running.wish(wish.as_bytes()), "# done");
    }
    let old = fs::read(&store).unwrap();
    let mut told = running.say(b"remove 5");
    for line in 1..=14 {
        assert_eq!(fs::read(&store).unwrap() == old, line <= 7, "line {}", line);
        let reply = running.module.reply(told.as_bytes());
        told = running.say(&reply);
    }
    assert_eq!(told, "# done");
    let swapped: String = format!("{:016x}{:016x}{:064x}\n", 9, 9, 0);
    assert_eq!(fs::read_to_string(&store).unwrap(), swapped);
    assert_eq!(running.end().0, Some(0));
}

#[test]
fn a_store_that_cannot_be_loaded_is_told_and_left() {
    let folder = Folder::new();
    let store = folder.file("store");
    let line = |item: u64, next: u64| format!("{:016x}{:016x}{:064x}\n", item, next, 0);
    let cases = [
        ("\n".to_string(), "# store line 1 cannot be read\n"),
        (line(5, 5) + "5", "# store line 2 cannot be read\n"),
        (line(5, 5).repeat(1025), "# store has more than 1024 lines\n"),
        (line(5, 9) + &line(9, 5) + &line(7, 9), "# store lines 1 and 3 break the ring\n"),
        (line(5, 9), "# store lines 1 and 1 break the ring\n"),
    ];
    for (bytes, told) in cases {
        fs::write(&store, &bytes).unwrap();
        assert_eq!(run(&store, b"insert 5\nask 5\n"), (told.to_string(), Some(1)));
        assert_eq!(fs::read_to_string(&store).unwrap(), bytes);
        assert_eq!(folder.names(), ["store"]);
    }
    let told = "# store cannot be read\n".to_string();
    assert_eq!(run(&folder.path, b"ask 5\n"), (told, Some(1)));
}

#[test]
fn a_store_that_cannot_be_written_is_told_without_done() {
    let folder = Folder::new();
    let (missing, store) = (folder.file("missing").join("store"), folder.file("store"));
    fs::create_dir(folder.file("store.new")).unwrap();
    for store in [&missing, &store] {
        let mut running = Running::start(store, Cab::new());
        assert_eq!(running.wish(b"ask 5"), "# none 5");
        assert_eq!(running.wish(b"insert 5"), "# store cannot be written");
        assert_eq!(running.end().0, Some(3));
        assert!(!store.exists());
    }
}

/// What an earlier run left under the other name is written over.
#[test]
fn an_old_piece_under_the_other_name_does_no_harm() {
    let folder = Folder::new();
    let store = folder.file("store");
    fs::write(folder.file("store.new"), "rubbish".repeat(100)).unwrap();
    let mut running = Running::start(&store, Cab::new());
    assert_eq!(running.wish(b"insert 5"), "# done");
    running.end();
    assert_eq!(fs::read_to_string(&store).unwrap(), format!("{:016x}{:016x}{:064x}\n", 5, 5, 0));
    assert_eq!(folder.names(), ["store"]);
}

#[test]
fn generated_wishes_through_the_program() {
    let folder = Folder::new();
    let store = folder.file("store");
    let output = paper::run(WISHES, &["3", "400"], b"");
    assert!(output.status.success());
    let generated = wishes::generate(3, 400);
    assert_eq!(output.stdout, [generated.join(&b'\n'), b"\n".to_vec()].concat());
    let mut list = List::default();
    let mut running = Running::start(&store, Cab::new());
    for line in &generated {
        assert_eq!(running.wish(line), list.wish(line));
    }
    let (status, _) = running.end();
    assert_eq!(status, Some(0));
    let leaves = tablet::store::read(&store).unwrap();
    assert_eq!(leaves.len(), list.items.len());
}

#[test]
fn faults_and_wrong_arguments_are_told() {
    for (program, wrong) in
        [(TABLET, &[&[][..], &["a", "b"]][..]), (WISHES, &[&["1"], &["a", "b"]])]
    {
        for arguments in wrong {
            let output = paper::run(program, arguments, b"");
            assert_eq!(output.status.code(), Some(2));
            assert!(output.stdout.is_empty());
            assert!(String::from_utf8(output.stderr).unwrap().starts_with("usage: "));
        }
    }
    let faults = |input: &str, output: &str| {
        let input = fs::File::open(input).unwrap();
        let output = fs::OpenOptions::new().write(true).open(output).unwrap();
        let run = Command::new(TABLET).arg("none").stdin(input).stdout(output).output().unwrap();
        assert_eq!(run.status.code(), Some(4));
        String::from_utf8(run.stderr).unwrap()
    };
    assert!(faults("/", "/dev/null").starts_with("tablet: the input could not be read: "));
    let words = concat!(env!("CARGO_MANIFEST_DIR"), "/Cargo.toml");
    assert!(faults(words, "/dev/full").starts_with("tablet: the output could not be written: "));
}
