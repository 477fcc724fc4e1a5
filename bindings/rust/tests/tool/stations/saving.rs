//! Where, when and how a state is saved.

use super::{contents, lines_read, wait_for};
use crate::following::Line;
use crate::program::{run_with, Ran, Scrap};
use crate::samples::W;
use std::io::Write;
use std::os::unix::fs::{chown, symlink, MetadataExt, PermissionsExt};
use std::os::unix::process::CommandExt;
use std::path::PathBuf;
use std::process::{Command, Stdio};

/// A folder of a test, which is gone when the test ends.
struct Folder(PathBuf);

impl Folder {
    fn new() -> Folder {
        let free = Scrap::free();
        let folder = PathBuf::from(free.name());
        std::fs::create_dir(&folder).expect("a folder of the test");
        Folder(folder)
    }

    /// One that every user comes to, which the folders above this package need not be.
    fn reachable() -> Folder {
        let free = PathBuf::from(Scrap::free().name());
        let name = free.file_name().expect("a name");
        let folder = std::env::temp_dir().join(name);
        std::fs::create_dir(&folder).expect("a folder of the test");
        let folder = Folder(folder);
        folder.set_mode(0o755);
        folder
    }

    /// A file that every user may read, and run.
    fn open_to_all(&self, name: &str, bytes: &[u8]) -> String {
        let file = self.file(name);
        std::fs::write(&file, bytes).expect("a file of the test is written");
        let mode = std::fs::Permissions::from_mode(0o755);
        std::fs::set_permissions(&file, mode).expect("a file of the test");
        file
    }

    fn file(&self, name: &str) -> String {
        let file = self.0.join(name);
        file.to_str().expect("a plain name").to_string()
    }

    fn set_mode(&self, mode: u32) {
        let mode = std::fs::Permissions::from_mode(mode);
        std::fs::set_permissions(&self.0, mode).expect("a folder of the test");
    }

    fn names(&self) -> Vec<String> {
        let entries = std::fs::read_dir(&self.0).expect("a folder of the test");
        let name = |entry: std::io::Result<std::fs::DirEntry>| {
            let name = entry.expect("an entry").file_name();
            name.into_string().expect("a plain name")
        };
        let mut names: Vec<String> = entries.map(name).collect();
        names.sort();
        names
    }
}

impl Drop for Folder {
    fn drop(&mut self) {
        self.set_mode(0o700);
        let _ = std::fs::remove_dir_all(&self.0);
    }
}

fn ran(command: &mut Command, input: &[u8]) -> Ran {
    let mut child = command
        .stdin(Stdio::piped())
        .stdout(Stdio::piped())
        .stderr(Stdio::piped())
        .spawn()
        .expect("the tool runs");
    let mut to = child.stdin.take().expect("a pipe");
    to.write_all(input).expect("the tool reads");
    drop(to);
    let output = child.wait_with_output().expect("the tool ends");
    Ran {
        status: output.status.code().expect("no signal ended it"),
        out: output.stdout,
        err: String::from_utf8(output.stderr).expect("messages are text"),
    }
}

#[test]
fn at_every_so_many_lines() {
    let (rule, state) = (Scrap::holding(W), Scrap::free());
    let words = [
        "follow",
        rule.name(),
        "--state",
        state.name(),
        "--save-every=3",
    ];
    let mut line = Line::open(&words);
    for (number, asked) in (1..).zip(["1", "mark", "bad", "0", "1", "0", "1"]) {
        line.ask(asked);
        // Line 3 is saved before line 4 is read, though it was refused.
        match number {
            1..=3 => {}
            4..=6 => assert_eq!(lines_read(&contents(&state)), 3),
            _ => assert_eq!(lines_read(&contents(&state)), 6),
        }
    }
    assert!(contents(&state).contains("\nmonitor 1 0\n"));
    assert_eq!(line.close(), 1);
    assert_eq!(lines_read(&contents(&state)), 7);
}

/// Also while no line comes.
#[test]
fn after_some_seconds() {
    let (rule, state) = (Scrap::holding(W), Scrap::free());
    let words = [
        "follow",
        rule.name(),
        "--state",
        state.name(),
        "--save-after",
        "1",
    ];
    let mut line = Line::open(&words);
    line.ask("1");
    wait_for(&state, "\nmonitor 64 1\ninput 1 ");
    line.ask("mark");
    wait_for(&state, "\nmonitor 1 64\ninput 2 ");
    assert_eq!(line.close(), 0);
}

#[test]
fn options_that_need_a_state() {
    let rule = Scrap::holding(W);
    for option in ["--resume", "--save-every=5", "--save-after=5"] {
        let words = ["follow", rule.name(), option];
        let name = option.split('=').next().expect("a name");
        run_with(&words, b"").said(3, &format!("`{name}` needs --state"));
    }
    for (option, why) in [
        ("--save-every=0", "a number from 1 to"),
        ("--save-after=0", "a number from 1 to"),
        ("--save-after=soon", "a number from 1 to"),
        ("--field=0", "a column from 1 on"),
        ("--field=x", "a column from 1 on"),
    ] {
        let words = ["follow", rule.name(), "--state", "unused", option];
        run_with(&words, b"").said(3, why);
    }
    run_with(&["follow", rule.name(), "--state", ""], b"").said(3, "the state file has no name");
}

/// A second process on a state is refused as long as the first has it, by whatever name.
#[test]
fn two_processes() {
    let (rule, folder) = (Scrap::holding(W), Folder::new());
    let [state, link] = ["state", "link"].map(|name| folder.file(name));
    symlink("state", &link).expect("a link");
    let mut first = Line::open(&["follow", rule.name(), "--state", &state]);
    first.ask("1");
    for name in [&state, &link] {
        let second = run_with(&["follow", rule.name(), "--state", name], b"0\n");
        second.said(2, "another process has this state");
    }
    assert!(!std::path::Path::new(&state).exists());
    assert_eq!(first.ask("save"), "saved");
    let saved = std::fs::read(&state).expect("the state");
    let second = run_with(&["follow", rule.name(), "--state", &link], b"0\n");
    second.said(2, "another process has this state");
    assert_eq!(std::fs::read(&state).expect("the state"), saved);
    assert_eq!(first.close(), 0);
    let third = run_with(&["follow", rule.name(), "--state", &link], b"0\n");
    assert_eq!(third.printed(0), "before none since 0\n");
    assert_eq!(folder.names(), ["link", "state", "state.lock"]);
}

/// A link stays one, and what it leads to keeps its mode and its owner.
#[test]
fn links_and_modes_stay() {
    let (rule, folder) = (Scrap::holding(W), Folder::new());
    std::fs::create_dir(folder.file("deep")).expect("a folder");
    let [real, link, second] = ["deep/state", "link", "second"].map(|name| folder.file(name));
    symlink("deep/state", &link).expect("a link");
    symlink(&link, &second).expect("a link");
    let words = ["follow", rule.name(), "--state", &second];
    // Before there is a file too.
    run_with(&words, b"1\n").printed(0);
    for mode in [0o600, 0o640, 0o666] {
        let set = std::fs::set_permissions(&real, std::fs::Permissions::from_mode(mode));
        set.expect("a mode");
        // Only root may give a file away.
        let given = chown(&real, Some(65_534), Some(65_534)).is_ok();
        let owner = std::fs::metadata(&real).expect("the state").uid();
        let before = std::fs::read(&real).expect("the state");
        run_with(&words, b"mark\n0\n").printed(0);
        assert_ne!(std::fs::read(&real).expect("the state"), before);
        let kept = std::fs::symlink_metadata(&real).expect("the state");
        assert!(kept.is_file());
        assert_eq!(kept.mode() & 0o7777, mode);
        assert_eq!(kept.uid(), owner);
        assert!(!given || owner == 65_534);
        run_with(&words, b"1\n").printed(0);
    }
    for name in [&link, &second] {
        let own = std::fs::symlink_metadata(name).expect("a link");
        assert!(own.file_type().is_symlink());
    }
    assert_eq!(folder.names(), ["deep", "link", "second"]);
}

/// A folder is no state, and gets no lock.
#[test]
fn folders() {
    let (rule, folder) = (Scrap::holding(W), Folder::new());
    let inner = folder.file("inner");
    std::fs::create_dir(&inner).expect("a folder");
    run_with(&["follow", rule.name(), "--state", &inner], b"1\n").said(3, "inner: is a directory");
    assert_eq!(folder.names(), ["inner"]);
}

/// A link that leads in a circle is a file that cannot be read.
#[test]
fn circles_of_links() {
    let (rule, folder) = (Scrap::holding(W), Folder::new());
    let [one, two] = ["one", "two"].map(|name| folder.file(name));
    symlink(&one, &two).expect("a link");
    symlink(&two, &one).expect("a link");
    run_with(&["follow", rule.name(), "--state", &one], b"1\n").said(3, "too many links");
}

#[test]
fn full_disk() {
    let (rule, folder) = (Scrap::holding(W), Folder::new());
    let state = folder.file("state");
    run_with(&["follow", rule.name(), "--state", &state], b"1\n").printed(0);
    let before = std::fs::read(&state).expect("the state");
    // No byte can be written to a file, as on a full disk.
    let script = format!(
        "trap '' XFSZ; ulimit -f 0; exec '{}' follow '{}' --state '{state}' --save-every 1",
        env!("CARGO_BIN_EXE_duknavet-tool"),
        rule.name(),
    );
    let full = ran(Command::new("sh").args(["-c", &script]), b"0\nsave\n1\n");
    let answers = "before none since 0\nnot saved\nbefore none since 0\n";
    assert_eq!((full.status, full.text()), (3, answers), "{full:?}");
    assert!(
        full.err.contains(&format!("not saved: {state}: ")),
        "{full:?}"
    );
    assert_eq!(std::fs::read(&state).expect("the state"), before);
    assert_eq!(folder.names(), ["state", "state.lock"]);
}

/// The same at a signal.
#[test]
fn full_disk_at_a_signal() {
    let (rule, folder) = (Scrap::holding(W), Folder::new());
    let state = folder.file("state");
    let script = format!(
        "trap '' XFSZ; ulimit -f 0; exec '{}' follow '{}' --state '{state}'",
        env!("CARGO_BIN_EXE_duknavet-tool"),
        rule.name(),
    );
    let mut line = Line::of(Command::new("sh").args(["-c", &script]));
    line.ask("1");
    line.signal("TERM");
    assert_eq!(line.ended().0, 3);
    assert_eq!(folder.names(), ["state.lock"]);
}

#[test]
fn read_only_folder() {
    let (programs, folder) = (Folder::reachable(), Folder::reachable());
    let binary = std::fs::read(env!("CARGO_BIN_EXE_duknavet-tool")).expect("the tool");
    let binary = programs.open_to_all("tool", &binary);
    let rule = programs.open_to_all("rule", W);
    let state = folder.file("state");
    run_with(&["follow", &rule, "--state", &state], b"1\n").printed(0);
    let before = std::fs::read(&state).expect("the state");
    folder.open_to_all("state", &before);
    folder.open_to_all("state.lock", b"");
    for has_lock in [true, false] {
        if !has_lock {
            std::fs::remove_file(folder.file("state.lock")).expect("the lock");
        }
        folder.set_mode(0o555);
        let mut command = Command::new(&binary);
        command.args(["follow", &rule, "--state", &state]);
        command.current_dir(&folder.0);
        // Root writes everywhere, so it is somebody else who tries.
        if std::fs::metadata("/proc/self").is_ok_and(|own| own.uid() == 0) {
            command.uid(65_534).gid(65_534);
        }
        let tried = ran(&mut command, b"0\nsave\n1\n");
        let answers = "before none since 0\nnot saved\nbefore none since 0\n";
        assert_eq!((tried.status, tried.text()), (3, answers), "{tried:?}");
        assert!(tried.err.contains("not saved: "), "{tried:?}");
        let unlocked = "a second process on this state would not be noticed";
        assert_eq!(tried.err.contains(unlocked), !has_lock, "{tried:?}");
        assert_eq!(std::fs::read(&state).expect("the state"), before);
        folder.set_mode(0o755);
    }
}

/// What is no regular file is written where it stands, and not read.
#[test]
fn devices() {
    let rule = Scrap::holding(W);
    let ran = run_with(
        &["follow", rule.name(), "--state", "/dev/null"],
        b"1\nsave\n",
    );
    assert_eq!(
        (ran.status, ran.text()),
        (0, "before none since 1\nsaved\n")
    );
    assert!(ran.err.contains("it is no regular file"), "{ran:?}");
    assert!(!std::path::Path::new("/dev/null.lock").exists());
    if std::path::Path::new("/dev/full").exists() {
        let ran = run_with(
            &["follow", rule.name(), "--state", "/dev/full"],
            b"1\nsave\n",
        );
        let answers = "before none since 1\nnot saved\n";
        assert_eq!((ran.status, ran.text()), (3, answers), "{ran:?}");
    }
}

/// Where many lines wait, their answers are written together.
#[test]
fn answers_are_written_together() {
    let (rule, state) = (Scrap::holding(W), Scrap::free());
    let words = ["follow", rule.name(), "--state", state.name()];
    let mut line = Line::open(&words);
    let writes = |line: &Line| {
        let told = std::fs::read_to_string(format!("/proc/{}/io", line.process())).ok()?;
        let count = told.lines().find_map(|own| own.strip_prefix("syscw: "))?;
        count.parse::<usize>().ok()
    };
    line.ask("1");
    let Some(before) = writes(&line) else {
        println!("the system does not tell how often a program writes");
        return;
    };
    let answers = line.ask_all(&"0\n1\n".repeat(5_000), 10_000);
    assert!(answers.iter().all(|answer| answer == "before none since 0"));
    let after = writes(&line).expect("it told before");
    assert!(after - before < 200, "{} writes", after - before);
    assert_eq!(line.close(), 0);
}
