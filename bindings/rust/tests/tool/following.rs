//! Following events: lines as they come, answers as they come.

use crate::program::{run_with, send, tool, tool_with_signals, Scrap};
use crate::random::Random;
use crate::samples::{rule, NAMED, W, Z};
use duknavet::{Monitor, RuleMonitor, NONE};
use std::io::{BufRead, BufReader, Write};
use std::process::{Child, ChildStdin, ChildStdout, Command, Stdio};
use std::time::{Duration, Instant};

/// A tool that answers line by line, with a line to it and a line from it.
pub struct Line {
    child: Child,
    to: ChildStdin,
    from: BufReader<ChildStdout>,
}

impl Line {
    pub fn open(words: &[&str]) -> Line {
        Line::of(tool_with_signals().args(words))
    }

    /// A command that comes to run the tool.
    pub fn of(command: &mut Command) -> Line {
        let mut child = command
            .stdin(Stdio::piped())
            .stdout(Stdio::piped())
            .stderr(Stdio::null())
            .spawn()
            .expect("the tool runs");
        Line {
            to: child.stdin.take().expect("a pipe"),
            from: BufReader::new(child.stdout.take().expect("a pipe")),
            child,
        }
    }

    /// Sends a line, and waits for its answer before anything else is sent.
    pub fn ask(&mut self, line: &str) -> String {
        writeln!(self.to, "{line}").expect("the tool reads");
        let mut answer = String::new();
        self.from.read_line(&mut answer).expect("the tool answers");
        answer.trim_end().to_string()
    }

    /// Sends lines at once, and waits for so many answers.
    pub fn ask_all(&mut self, lines: &str, answers: usize) -> Vec<String> {
        let (to, from) = (&mut self.to, &mut self.from);
        std::thread::scope(|threads| {
            threads.spawn(|| to.write_all(lines.as_bytes()).expect("the tool reads"));
            let answers = from.lines().take(answers);
            answers.map(|line| line.expect("an answer")).collect()
        })
    }

    pub fn process(&self) -> u32 {
        self.child.id()
    }

    /// Sends a signal, by its name without SIG.
    pub fn signal(&self, name: &str) {
        send(name, self.process());
    }

    /// The status of a tool that a signal ends, with its input left open, and how long that took.
    pub fn ended(self) -> (i32, Duration) {
        let begin = Instant::now();
        let Line { mut child, to, .. } = self;
        while begin.elapsed() < Duration::from_secs(60) {
            if let Some(status) = child.try_wait().expect("a process") {
                drop(to);
                return (status.code().expect("no signal"), begin.elapsed());
            }
            std::thread::sleep(Duration::from_millis(2));
        }
        child.kill().expect("a process");
        panic!("it does not end");
    }

    pub fn close(self) -> i32 {
        let Line {
            mut child,
            to,
            from,
        } = self;
        drop((to, from));
        child.wait().expect("it ends").code().expect("no signal")
    }
}

#[test]
fn answers_come_line_by_line() {
    let rule = Scrap::holding(NAMED.as_bytes());
    let mut line = Line::open(&["follow", rule.name()]);
    for (asked, answer) in [
        ("verdict", "refused 11 input 1 place 0"),
        ("shut", "before none since 1"),
        ("verdict", "grade 0 turns 1"),
        ("keep 3", "before none since 1"),
        ("mark", "before 1 since none"),
        ("mark", "before 1 since none"),
        ("0", "before 1 since 0"),
        ("verdict", "grade 3 turns 1"),
        ("# a comment\n\nopen # again", "before 1 since 0"),
        ("7", "refused 10 input 1 place 0"),
        ("return 3", "before none since 1"),
        ("return 5", "refused 16 input 1 place 0"),
        ("keep 8", "refused 15 input 1 place 0"),
        ("keep x", "not understood"),
        ("open shut", "not understood"),
        ("left", "not understood"),
        ("save", "not understood"),
        ("verdict", "grade 0 turns 1"),
    ] {
        assert_eq!(line.ask(asked), answer, "{asked}");
    }
    // Some lines were refused.
    assert_eq!(line.close(), 1);
}

/// A long random history, against the calls themselves.
#[test]
fn histories() {
    let mut random = Random::new(901);
    for _ in 0..6 {
        let own = rule(&mut random, 8);
        let (bytes, letters) = (own.bytes(), own.morphism.letters());
        let file = Scrap::holding(&bytes);
        let mut watched = RuleMonitor::new(&bytes);
        let mut input = String::new();
        let mut expected = String::new();
        for _ in 0..400 {
            let name = random.below(9);
            let (line, moved) = match random.below(8) {
                0 => ("mark".to_string(), watched.mark()),
                1 => (format!("keep {name}"), watched.keep(name)),
                2 => (format!("return {name}"), watched.return_to(name)),
                3 => {
                    input += "verdict\n";
                    expected += &match watched.verdict() {
                        Ok(verdict) => format!("grade {} turns {}\n", verdict.grade, verdict.turns),
                        Err(refused) => format!(
                            "refused {} input 1 place 0\n",
                            refused.refused.refusal.number()
                        ),
                    };
                    continue;
                }
                _ => {
                    let letter = random.below(letters + 1) as u8;
                    (letter.to_string(), watched.event(letter))
                }
            };
            input += &(line + "\n");
            expected += &match moved {
                Ok(Monitor { before, since }) => {
                    let value = |value: usize| match value {
                        NONE => "none".to_string(),
                        element => element.to_string(),
                    };
                    format!("before {} since {}\n", value(before), value(since))
                }
                Err(refused) => format!(
                    "refused {} input 1 place 0\n",
                    refused.refused.refusal.number()
                ),
            };
        }
        let ran = run_with(&["follow", file.name()], input.as_bytes());
        let refused = expected.matches("refused").count();
        let status = i32::from(refused > 0);
        assert_eq!((ran.status, ran.text()), (status, expected.as_str()));
        let count = format!("duknavet-tool: {refused} lines refused\n");
        assert_eq!(ran.err.ends_with(&count), refused > 1, "{}", ran.err);
    }
}

#[test]
fn states_are_taken_up_again() {
    let (rule, state) = (Scrap::holding(W), Scrap::free());
    let words = ["follow", rule.name(), "--state", state.name()];
    let mut line = Line::open(&words);
    for asked in ["1", "keep 2", "mark", "0"] {
        line.ask(asked);
    }
    assert_eq!(line.ask("save"), "saved");
    let saved = std::fs::read_to_string(state.name()).expect("the state was written");
    assert!(saved.starts_with("duknavet state 2\nrule "), "{saved}");
    // The line that saved is not among those whose answers were given before.
    let values = "\nmonitor 1 0\npoint 2 64 1\ninput 4 ";
    assert!(saved.contains(values), "{saved}");
    assert_eq!(line.ask("1"), "before 1 since 0");
    assert_eq!(line.ask("mark"), "before 0 since none");
    // The end of the input writes it too.
    assert_eq!(line.close(), 0);
    let mut again = Line::open(&words);
    assert_eq!(again.ask("1"), "before 0 since 1");
    assert_eq!(again.ask("return 2"), "before none since 1");
    assert_eq!(again.close(), 0);
    let other = Scrap::holding(Z);
    run_with(&["follow", other.name(), "--state", state.name()], b"0\n")
        .said(2, "it is the state of another rule");
    for damage in [
        "",
        "duknavet state 1\n",
        &saved.replace("monitor", "minotaur"),
        &saved.replace("point 2", "point 8"),
        &saved.replace("monitor 1 0\n", ""),
    ] {
        std::fs::write(state.name(), damage).expect("a file of the test is written");
        let ran = run_with(&words, b"0\n");
        assert_eq!(ran.status, 2, "{ran:?}");
        assert_eq!(
            std::fs::read_to_string(state.name()).expect("the file"),
            damage
        );
    }
}

#[test]
fn states_that_cannot_be_written() {
    let rule = Scrap::holding(W);
    let nowhere = "/there/is/no/such/place/state";
    let ran = run_with(
        &["follow", rule.name(), "--state", nowhere],
        b"0\nsave\n1\n",
    );
    let answers = "before none since 0\nnot saved\nbefore none since 0\n";
    assert_eq!((ran.status, ran.text()), (3, answers));
    assert!(
        ran.err.contains("/there/is/no/such/place/state: "),
        "{ran:?}"
    );
}

/// Where nobody reads the answers any more, it ends without a word, and the state is not lost.
#[test]
fn closed_pipes() {
    let (rule, state) = (Scrap::holding(W), Scrap::free());
    let mut child = tool()
        .args(["follow", rule.name(), "--state", state.name()])
        .stdin(Stdio::piped())
        .stdout(Stdio::piped())
        .stderr(Stdio::piped())
        .spawn()
        .expect("the tool runs");
    let mut to = child.stdin.take().expect("a pipe");
    let mut from = BufReader::new(child.stdout.take().expect("a pipe"));
    writeln!(to, "1").expect("the tool reads");
    from.read_line(&mut String::new())
        .expect("the tool answers");
    drop(from);
    // Another test that starts a program just now may hold the pipe a little longer: a line or some later the tool sees it closed.
    let lines = (0..100_000).take_while(|_| writeln!(to, "mark").is_ok());
    assert!(lines.count() < 100_000, "the tool went on");
    drop(to);
    let output = child.wait_with_output().expect("it ends");
    assert_eq!(output.status.code(), Some(3));
    assert_eq!(String::from_utf8_lossy(&output.stderr), "");
    let saved = std::fs::read_to_string(state.name()).expect("the state was written");
    assert!(saved.contains("\nmonitor 1 64\ninput "), "{saved}");
}

#[test]
fn lines_of_any_kind() {
    let rule = Scrap::holding(W);
    let long = "0".repeat(5_000_000);
    let input = format!("{long}\n1\n{}\n\u{0}\n1", " ".repeat(300));
    let ran = run_with(
        &["follow", rule.name()],
        &[input.as_bytes(), b"\n\xff\xfe\n0"].concat(),
    );
    assert_eq!(ran.status, 1);
    let expected = "not understood\nbefore none since 1\nnot understood\nnot understood\nbefore none since 1\nnot understood\nbefore none since 0\n";
    assert_eq!(ran.text(), expected);
    assert!(ran.err.contains("line 1: the line is too long"), "{ran:?}");
    run_with(&["follow", "-"], W).said(3, "the rule is a file");
    run_with(&["follow", rule.name()], b"").printed(0);
}

/// The memory that a tool has in use, in kilobytes, where the system tells it.
pub fn memory(line: &Line) -> Option<usize> {
    let status = std::fs::read_to_string(format!("/proc/{}/status", line.child.id())).ok()?;
    let resident = status.lines().find(|own| own.starts_with("VmRSS:"))?;
    resident.split_whitespace().nth(1)?.parse().ok()
}

#[test]
fn memory_stays() {
    let rule = Scrap::holding(W);
    let mut line = Line::open(&["follow", rule.name()]);
    let events = |line: &mut Line, count: usize| {
        for number in 0..count {
            line.ask(["0", "1", "mark", "verdict"][number % 4]);
        }
    };
    events(&mut line, 2_000);
    let Some(before) = memory(&line) else {
        println!("the system does not tell how much memory a program has");
        return;
    };
    events(&mut line, 60_000);
    let after = memory(&line).expect("it told before");
    assert!(after <= before + 200, "{before} kB, then {after} kB");
    // A verdict right behind a mark is refused.
    assert_eq!(line.close(), 1);
}
