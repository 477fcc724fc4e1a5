//! Habits of the shell: results to files, several files at once, lassos by lines, and no bytes to a terminal.

use crate::program::{run, run_with, tool, Scrap};
use crate::samples::{AUTOMATON, GRADED, NAMED, NOT_ASSOCIATIVE, W, Z};
use std::fs;
use std::os::unix::fs::{symlink, PermissionsExt as _};
use std::path::PathBuf;
use std::process::Command;

/// A directory of a test, which is gone when the test ends.
struct Folder(PathBuf);

impl Folder {
    fn new() -> Folder {
        let scrap = Scrap::free();
        fs::create_dir_all(scrap.name()).expect("a directory of the test");
        Folder(PathBuf::from(scrap.name()))
    }

    fn file(&self, name: &str) -> String {
        let file = self.0.join(name);
        file.to_str().expect("a plain name").to_string()
    }

    fn holding(&self, name: &str, bytes: &[u8]) -> String {
        let file = self.file(name);
        fs::write(&file, bytes).expect("a file of the test is written");
        file
    }

    fn names(&self) -> Vec<String> {
        let entries = fs::read_dir(&self.0).expect("the directory");
        let mut names: Vec<String> = entries
            .map(|entry| {
                entry
                    .expect("an entry")
                    .file_name()
                    .into_string()
                    .expect("a name")
            })
            .collect();
        names.sort();
        names
    }
}

impl Drop for Folder {
    fn drop(&mut self) {
        let _ = fs::remove_dir_all(&self.0);
    }
}

/// What goes to standard output goes to a file instead, to the last byte.
#[test]
fn results_go_to_files() {
    let folder = Folder::new();
    let (rule, automaton) = (
        folder.holding("a.rule", W),
        folder.holding("a.automaton", AUTOMATON),
    );
    let out = folder.file("out");
    for words in [
        vec!["complement", &rule],
        vec!["next", &rule],
        vec!["until", &rule, &rule],
        vec!["combine", "both", &rule, &rule],
        vec!["reduce", &rule],
        vec!["letters", &rule, "--name", "a,b"],
        vec!["convert", &rule],
        vec!["convert", &rule, "--to", "bytes"],
        vec!["convert", &rule, "--to", "hoa"],
        vec!["picture", &rule],
        vec!["page", &rule],
        vec!["automaton", &automaton],
        vec!["formula", "G a", "--letters", "a,b"],
    ] {
        let printed = run(&words);
        assert_eq!((printed.status, printed.err.as_str()), (0, ""), "{words:?}");
        for output in [
            vec!["-o", &out],
            vec!["--output", &out],
            vec![&format!("-o{out}")],
        ] {
            let ran = run(&[&words[..], &output].concat());
            assert_eq!(ran.printed(0), "", "{words:?}");
            assert_eq!(
                fs::read(&out).expect("it was written"),
                printed.out,
                "{words:?}"
            );
        }
        let dashed = run(&[&words[..], &["-o", "-"]].concat());
        assert_eq!(dashed.out, printed.out, "{words:?}");
        assert_eq!(folder.names(), ["a.automaton", "a.rule", "out"]);
    }
    run(&["strong", &rule, "-o", &out]).said(3, "there is no option `-o`");
    run(&["reduce", &rule, "-o"]).said(3, "`--output` needs FILE");
    run(&["reduce", &rule, "-o", &out, "--output", &out]).said(3, "`--output` stands twice");
}

/// Links are followed, modes stay, and what is no regular file is written where it stands.
#[test]
fn files_are_replaced_whole() {
    let folder = Folder::new();
    let rule = folder.holding("a.rule", W);
    let old = folder.holding("old", b"something else");
    fs::set_permissions(&old, fs::Permissions::from_mode(0o640)).expect("a mode");
    symlink(&old, folder.file("link")).expect("a link");
    run(&["reduce", &rule, "-o", &folder.file("link")]).printed(0);
    assert_eq!(fs::read(&old).expect("a file"), W);
    let mode = fs::metadata(&old).expect("a file").permissions().mode();
    assert_eq!(mode & 0o777, 0o640);
    assert!(fs::symlink_metadata(folder.file("link"))
        .expect("a link")
        .is_symlink());
    run(&["reduce", &rule, "-o", "/dev/null"]).printed(0);
    run(&["reduce", &rule, "-o", "/dev/full"]).said(3, "/dev/full: ");
    let nowhere = folder.file("none/out");
    run(&["reduce", &rule, "-o", &nowhere]).said(3, "none/out: ");
    run(&["complement", &rule, "-o", &folder.file("")]).said(3, "directory");
    // What is refused leaves what was there.
    let weak = folder.holding("weak", Z);
    run(&["reduce", &weak, "-o", &old]).said(2, "refusal 12");
    assert_eq!(fs::read(&old).expect("a file"), W);
    assert_eq!(folder.names(), ["a.rule", "link", "old", "weak"]);
}

/// No input is written over, whatever it is called.
#[test]
fn outputs_are_no_inputs() {
    let folder = Folder::new();
    let rule = folder.holding("a.rule", NAMED.as_bytes());
    let other = folder.holding("b.rule", NAMED.as_bytes());
    symlink(&rule, folder.file("link")).expect("a link");
    fs::hard_link(&rule, folder.file("same")).expect("a second name");
    let refused = "it is an input, and is not written over";
    let outs = ["a.rule", "link", "same", "./a.rule"].map(|out| folder.file(out));
    for out in &outs {
        run(&["reduce", &rule, "-o", out]).said(3, refused);
        run(&["combine", "both", &other, &rule, "-o", out]).said(3, refused);
        run(&["reduce", &rule, "--map", out]).said(3, refused);
    }
    let redirected = tool()
        .args(["reduce", "-", "-o", &rule])
        .stdin(fs::File::open(&rule).expect("the rule"))
        .output()
        .expect("the tool runs");
    assert_eq!(redirected.status.code(), Some(3));
    let map = folder.file("map");
    let words = ["reduce", &rule, "--map", &map, "-o", &map];
    run(&words).said(3, "the rule and its map go to two files");
    assert!(!PathBuf::from(&map).exists());
    assert_eq!(fs::read(&rule).expect("the rule"), NAMED.as_bytes());
    run(&["reduce", &rule, "--map", &map, "-o", &folder.file("out")]).printed(0);
    assert_eq!(fs::read(&map).expect("the map"), b"duknavet map 1\n  0 1\n");
}

#[test]
fn several_files() {
    let folder = Folder::new();
    let (good, weak, bad) = (
        folder.holding("good.rule", W),
        folder.holding("weak.rule", Z),
        folder.holding("bad.rule", NOT_ASSOCIATIVE),
    );
    let (graded, automaton) = (
        folder.holding("graded.rule", GRADED),
        folder.holding("a", AUTOMATON),
    );
    let ran = run(&["strong", &good, &graded]);
    assert_eq!(
        ran.printed(0),
        format!("{good}: strong\n{graded}: strong\n")
    );
    let ran = run(&["strong", &good, &weak, &graded]);
    assert_eq!(
        ran.printed(1),
        format!("{good}: strong\n{weak}: weak\n{graded}: strong\n")
    );
    let ran = run(&["strong", &bad, &good, "/there/is/none"]);
    assert_eq!(
        (ran.status, ran.text()),
        (3, format!("{good}: strong\n").as_str())
    );
    let lines: Vec<&str> = ran.err.lines().collect();
    assert!(
        lines.len() == 2 && lines[0].contains("refusal 5"),
        "{ran:?}"
    );
    let ran = run(&["check", &good, &automaton]);
    let lines = format!("{good}: rule elements 2 letters 2 marks 1\n{automaton}: automaton states 2 letters 2 transitions 4\n");
    assert_eq!(ran.printed(0), lines);
    let ran = run(&["summary", &good, &bad]);
    let line =
        format!("{good}: elements 2 letters 2 marks 1 linked 3 classes 3 strong 1 reduced 2\n");
    assert_eq!((ran.status, ran.text()), (2, line.as_str()));
    let ran = run(&["strong", "f:G a", "f:F a", "--letters", "a,b"]);
    assert_eq!(ran.printed(0), "f:G a: strong\nf:F a: strong\n");
    let ran = run_with(&["strong", "-", &good], W);
    assert_eq!(ran.printed(0), format!("-: strong\n{good}: strong\n"));
}

#[test]
fn reductions_into_a_directory() {
    let folder = Folder::new();
    let translated = run_with(&["automaton", "-"], AUTOMATON);
    let (first, text, weak) = (
        folder.holding("first.rule", &translated.out),
        folder.holding("named.txt", NAMED.as_bytes()),
        folder.holding("weak.rule", Z),
    );
    let out = Folder::new();
    let into = out.0.to_str().expect("a plain name").to_string();
    let ran = run(&["reduce", &first, &text, "-o", &into]);
    assert_eq!(
        ran.printed(0),
        format!("{first}: elements 2\n{text}: elements 2\n")
    );
    assert_eq!(out.names(), ["first.rule", "named.txt"]);
    assert_eq!(fs::read(out.file("first.rule")).expect("a rule"), W);
    let named = run(&["reduce", &text]);
    assert_eq!(fs::read(out.file("named.txt")).expect("a text"), named.out);
    let ran = run(&["reduce", &weak, &first, "-o", &into, "--to", "text"]);
    assert_eq!(
        (ran.status, ran.text()),
        (2, format!("{first}: elements 2\n").as_str())
    );
    assert_eq!(out.names(), ["first.rule", "named.txt"]);
    assert!(fs::read(out.file("first.rule"))
        .expect("a text")
        .starts_with(b"duknavet rule 1"));
    let alone = run(&["reduce", &first, "-o", &into]);
    assert_eq!(alone.printed(0), "elements 2\n");
    let several = "several rules need `-o DIR`";
    run(&["reduce", &first, &text]).said(3, several);
    run(&["reduce", &first, &text, "-o", &folder.file("none")]).said(3, several);
    run(&["reduce", &first, &first, "-o", &into])
        .said(3, "two rules would be written to `first.rule`");
    run(&["reduce", &first, "-", "-o", &into]).said(3, "standard input has no name");
    run(&["reduce", &first, &text, "-o", &into, "--map", "m"]).said(3, "a map is of one rule");
    // A link there leads to a rule that is still to be read.
    symlink(&text, out.file("weak.rule")).expect("a link");
    fs::write(&weak, &translated.out).expect("another rule");
    let ran = run(&["reduce", &weak, &text, "-o", &into]);
    assert_eq!(
        (ran.status, ran.text()),
        (3, format!("{text}: elements 2\n").as_str())
    );
    assert_eq!(fs::read(&text).expect("a text"), NAMED.as_bytes());
    // The directory that the rules stand in: each would be written over itself.
    let home = folder.0.to_str().expect("a plain name");
    let ran = run(&["reduce", &first, &text, "-o", home]);
    assert_eq!((ran.status, ran.text()), (3, ""), "{ran:?}");
    assert_eq!(fs::read(&first).expect("a rule"), translated.out);
}

#[test]
fn lassos_by_lines() {
    let rule = Scrap::holding(NAMED.as_bytes());
    let asked = |lines: &str| run_with(&["member", rule.name(), "--lassos", "-"], lines.as_bytes());
    assert_eq!(
        asked("v: open\nu: shut  v: 0\n").printed(0),
        "grade 3 turns 1\ngrade 3 turns 1\n"
    );
    assert_eq!(
        asked("# none\n\n  v: shut\r\nv: open").printed(1),
        "grade 0 turns 1\ngrade 3 turns 1\n"
    );
    assert_eq!(asked("").printed(0), "");
    let ran = asked("v: open\nv: ajar\nv: 7\n\u{fffd}\nv: shut\n");
    let lines = "grade 3 turns 1\nnot understood\nrefused 10 input 2 place 0\nnot understood\ngrade 0 turns 1\n";
    assert_eq!((ran.status, ran.text()), (2, lines));
    assert!(
        ran.err
            .contains("duknavet-tool: standard input: line 2: `ajar` is no letter's name"),
        "{ran:?}"
    );
    assert!(
        ran.err.contains("line 3: letter 7 at position 0 of v"),
        "{ran:?}"
    );
    let file = Scrap::holding(b"v: open\nv: shut open\n");
    let ran = run(&[
        "member",
        rule.name(),
        "--lassos",
        file.name(),
        "--least",
        "3",
    ]);
    assert_eq!(ran.printed(0), "grade 3 turns 1\ngrade 3 turns 1\n");
    let formula = [
        "member",
        "f:F open",
        "--letters",
        "open,shut",
        "--lassos",
        file.name(),
    ];
    assert_eq!(
        run(&formula).printed(0),
        "grade 3 turns 1\ngrade 3 turns 1\n"
    );
    let takes = "it takes RULE and LASSO, or RULE and --lassos FILE";
    run(&["member", rule.name()]).said(3, takes);
    run(&["member", rule.name(), "v: 0", "--lassos", file.name()]).said(3, takes);
    run(&["member", rule.name(), "--lassos", "/there/is/none"]).said(3, "/there/is/none: ");
    run_with(&["member", "-", "--lassos", "-"], W).said(3, "`-` stands twice");
    let bad = Scrap::holding(NOT_ASSOCIATIVE);
    run(&["member", bad.name(), "--lassos", file.name()]).said(2, "refusal 5");
}

/// What the tool says to a terminal, by Python's pseudo-terminals.
fn at_a_terminal(words: &[&str]) -> (i32, String) {
    let script = r#"
import os, pty, sys
child, terminal = pty.fork()
if child == 0:
    os.execv(sys.argv[1], sys.argv[1:])
told = b""
while True:
    try:
        part = os.read(terminal, 4096)
    except OSError:
        break
    if not part:
        break
    told += part
_, status = os.waitpid(child, 0)
sys.stdout.buffer.write(told)
sys.exit(os.waitstatus_to_exitcode(status))
"#;
    let ended = Command::new("python3")
        .args(["-c", script, env!("CARGO_BIN_EXE_duknavet-tool")])
        .args(words)
        .output()
        .expect("python3 runs");
    let told = String::from_utf8_lossy(&ended.stdout).into_owned();
    (ended.status.code().expect("no signal"), told)
}

#[test]
fn no_bytes_to_a_terminal() {
    let rule = Scrap::holding(W);
    let named = Scrap::holding(NAMED.as_bytes());
    for words in [
        vec!["reduce", rule.name()],
        vec!["complement", rule.name()],
        vec!["combine", "both", rule.name(), rule.name()],
        vec!["convert", named.name()],
        vec!["reduce", named.name(), "--to", "bytes"],
    ] {
        let (status, told) = at_a_terminal(&words);
        assert_eq!(status, 3, "{told}");
        assert!(
            told.contains("bytes are not written to a terminal"),
            "{told}"
        );
    }
    for words in [
        vec!["reduce", named.name()],
        vec!["reduce", rule.name(), "--to", "text"],
        vec!["convert", rule.name()],
    ] {
        let (status, told) = at_a_terminal(&words);
        assert_eq!(status, 0, "{told}");
        assert!(told.starts_with("duknavet rule 1"), "{told}");
    }
}

/// The package installs the tool and nothing else.
#[test]
fn only_the_tool_is_installed() {
    let manifest = include_str!("../../Cargo.toml");
    assert_eq!(manifest.matches("[[bin]]").count(), 1);
    assert!(manifest.contains("[[bin]]\nname = \"duknavet-tool\"\n"));
    assert!(manifest.contains("\nautobins = false\n"));
}
