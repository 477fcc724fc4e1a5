//! Signals: the state is saved, and the status says which came.

use super::{contents, lines_read};
use crate::following::Line;
use crate::program::{send, tool_with_signals, Scrap};
use crate::samples::W;
use std::io::{BufRead, BufReader, Read, Write};
use std::process::{Command, Stdio};
use std::time::{Duration, Instant};

/// Each signal ends it within a second, once in five tries at least: a slow disk may hold up some of them.
#[test]
fn saved_while_no_line_comes() {
    for (name, status) in [("HUP", 129), ("INT", 130), ("TERM", 143)] {
        for resume in [false, true] {
            let times = (0..5).map(|_| time_to_save(name, status, resume));
            let soon = times.into_iter().any(|time| time < Duration::from_secs(1));
            assert!(soon, "{name}, resume {resume}");
        }
    }
}

/// How long the end at a signal takes, where the state is saved as it should be.
fn time_to_save(name: &str, status: i32, resume: bool) -> Duration {
    let (rule, state) = (Scrap::holding(W), Scrap::free());
    let mut words = vec!["follow", rule.name(), "--state", state.name()];
    words.extend(resume.then_some("--resume"));
    let mut line = Line::open(&words);
    assert_eq!(line.ask("1"), "before none since 1");
    assert_eq!(line.ask("mark"), "before 1 since none");
    assert!(!std::path::Path::new(state.name()).exists());
    line.signal(name);
    let (ended, time) = line.ended();
    assert_eq!(ended, status, "{name}");
    let saved = contents(&state);
    assert!(saved.contains("\nmonitor 1 64\ninput 2 "), "{saved}");
    time
}

/// Without a state there is nothing to save, and signals do what they do.
#[test]
fn without_a_state() {
    let rule = Scrap::holding(W);
    let mut child = tool_with_signals()
        .args(["follow", rule.name()])
        .stdin(Stdio::piped())
        .stdout(Stdio::null())
        .spawn()
        .expect("the tool runs");
    send("TERM", child.id());
    assert_eq!(child.wait().expect("it ends").code(), None);
}

/// Under nohup SIGHUP is ignored, and stays so; the others end it as ever.
#[test]
fn ignored_signals_stay_ignored() {
    let (rule, state) = (Scrap::holding(W), Scrap::free());
    let tool = env!("CARGO_BIN_EXE_duknavet-tool");
    let words = [tool, "follow", rule.name(), "--state", state.name()];
    let mut line = Line::of(Command::new("nohup").args(words));
    assert_eq!(line.ask("1"), "before none since 1");
    for _ in 0..3 {
        line.signal("HUP");
        assert_eq!(line.ask("1"), "before none since 1");
    }
    assert!(!std::path::Path::new(state.name()).exists());
    line.signal("TERM");
    assert_eq!(line.ended().0, 143);
    assert_eq!(lines_read(&contents(&state)), 4);
}

/// A reader that has stopped reading does not keep the state from being saved.
#[test]
fn saved_while_nobody_reads() {
    for resume in [false, true] {
        let (rule, state) = (Scrap::holding(W), Scrap::free());
        let mut words = vec!["follow", rule.name(), "--state", state.name()];
        words.extend(resume.then_some("--resume"));
        let mut child = tool_with_signals()
            .args(words)
            .stdin(Stdio::piped())
            .stdout(Stdio::piped())
            .spawn()
            .expect("the tool runs");
        let mut to = child.stdin.take().expect("a pipe");
        let mut from = child.stdout.take().expect("a pipe");
        writeln!(to, "1").expect("the tool reads");
        let mut first = [0; "before none since 1\n".len()];
        from.read_exact(&mut first).expect("the tool answers");
        // These answers nearly fill the pipe, and those of the next lines do not fit: the tool waits within a write.
        let filling = "0\n".repeat(3_000);
        to.write_all(filling.as_bytes()).expect("the tool reads");
        std::thread::sleep(Duration::from_millis(300));
        let writer = std::thread::spawn(move || {
            let _ = to.write_all("0\n".repeat(200_000).as_bytes());
            to
        });
        std::thread::sleep(Duration::from_millis(300));
        let begin = Instant::now();
        send("TERM", child.id());
        let status = child.wait().expect("it ends").code();
        assert_eq!(status, Some(143));
        assert!(begin.elapsed() < Duration::from_secs(30));
        drop(writer.join());
        let written = 1 + BufReader::new(from).lines().count();
        let saved = lines_read(&contents(&state));
        // Lines that can be read again count once their answers were written, others as soon as they were read.
        match resume {
            true => assert!(saved <= written && saved >= 1, "{saved} of {written}"),
            false => assert!(saved >= written, "{saved} of {written}"),
        }
    }
}
