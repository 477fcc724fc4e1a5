//! A long log, and a station that is killed and ended again and again: nothing is lost, and nothing counts twice.

use super::{contents, lines_read};
use crate::program::{run_with, send, tool_with_signals, Scrap};
use crate::random::Random;
use crate::samples::TWICE;
use std::io::{BufRead, BufReader, Write};
use std::os::unix::process::ExitStatusExt;
use std::process::Stdio;
use std::time::Duration;

const LINES: usize = 100_000;
const ENDS: usize = 100;

/// Lines of every kind, some of them refused.
fn log(random: &mut Random) -> String {
    let mut log = String::new();
    for _ in 0..LINES {
        let line = match random.below(20) {
            0 => "mark".to_string(),
            1 => format!("keep {}", random.below(8)),
            2 => format!("return {}", random.below(8)),
            3 => "verdict".to_string(),
            4 => "7".to_string(),
            _ => random.below(2).to_string(),
        };
        log += &line;
        log.push('\n');
    }
    log
}

/// When a run is ended: behind so many answers, or after so many microseconds, whatever was answered.
enum Moment {
    Answers(usize),
    Microseconds(usize),
}

/// One run over the first lines of the log, which is ended while it waits for more or before; the answers that
/// it wrote.
fn disturbed(words: &[&str], log: &[u8], moment: &Moment, kill: bool) -> Vec<String> {
    let mut child = tool_with_signals()
        .args(words)
        .stdin(Stdio::piped())
        .stdout(Stdio::piped())
        .stderr(Stdio::null())
        .spawn()
        .expect("the tool runs");
    let mut to = child.stdin.take().expect("a pipe");
    let from = BufReader::new(child.stdout.take().expect("a pipe"));
    let mut lines = from.lines().map(|line| line.expect("an answer"));
    std::thread::scope(|threads| {
        // It may be ended before it has read all of them.
        let writer = threads.spawn(move || {
            let _ = to.write_all(log);
            to
        });
        let mut answers: Vec<String> = Vec::new();
        match moment {
            Moment::Answers(count) => answers.extend(lines.by_ref().take(*count)),
            Moment::Microseconds(time) => {
                std::thread::sleep(Duration::from_micros(*time as u64));
            }
        }
        match kill {
            true => child.kill().expect("it is killed"),
            false => send("TERM", child.id()),
        }
        answers.extend(lines);
        let status = child.wait().expect("it ends");
        drop(writer.join());
        // A signal that comes before the tool looks for one ends it as ever.
        let by_signal = status.signal() == Some(if kill { 9 } else { 15 });
        assert!(
            by_signal || !kill && status.code() == Some(143),
            "{status:?}"
        );
        answers
    })
}

#[test]
fn a_hundred_ends() {
    let mut random = Random::new(1939);
    let rule = Scrap::holding(TWICE);
    let log = log(&mut random);
    let ends: Vec<usize> = log.match_indices('\n').map(|(at, _)| at + 1).collect();
    let (undisturbed, state) = (Scrap::free(), Scrap::free());
    let of = |state: &Scrap| {
        let words = ["follow", rule.name(), "--state", state.name(), "--resume"];
        let words = words.iter().chain(&["--save-every", "1000"]);
        words.map(|word| word.to_string()).collect::<Vec<String>>()
    };
    let (whole, ended) = (of(&undisturbed), of(&state));
    let [whole, ended] = [&whole, &ended].map(|words| words.iter().map(String::as_str));
    let (whole, ended): (Vec<&str>, Vec<&str>) = (whole.collect(), ended.collect());
    let expected = run_with(&whole, log.as_bytes());
    let expected: Vec<&str> = expected.text().lines().collect();
    assert_eq!(expected.len(), LINES);
    let mut begun = 0;
    for number in 0..ENDS {
        let kill = number % 2 == 0;
        let new = random.below(2 * LINES / ENDS);
        let moment = match random.below(2) {
            0 => Moment::Answers(random.below(new + 1)),
            _ => Moment::Microseconds(random.below(5_000)),
        };
        let there = (begun + new).min(LINES);
        let end = if there == 0 { 0 } else { ends[there - 1] };
        let answers = disturbed(&ended, &log.as_bytes()[..end], &moment, kill);
        // The answers are those of the lines behind the state, but for a last one that was cut as the process ended.
        assert!(answers.len() <= there - begun);
        for (answer, expected) in answers.iter().zip(&expected[begun..]) {
            assert!(
                expected.starts_with(answer.as_str()),
                "{answer}, not {expected}"
            );
        }
        let saved = std::path::Path::new(state.name()).exists();
        let next = if saved {
            lines_read(&contents(&state))
        } else {
            0
        };
        // No line counts whose answer nobody could see, and none that counted is forgotten.
        assert!(
            begun <= next && next <= begun + answers.len(),
            "{begun} {next}"
        );
        if let (false, Moment::Answers(count)) = (kill, &moment) {
            assert!(next >= begun + count, "{begun} {next} {count}");
        }
        begun = next;
    }
    // The log was long enough for all of them, and they came while there was something to lose.
    assert!(0 < begun && begun < LINES, "{begun}");
    let last = run_with(&ended, log.as_bytes());
    assert_eq!(last.text().lines().count(), LINES - begun);
    assert_eq!(contents(&state), contents(&undisturbed));
    assert_eq!(lines_read(&contents(&state)), LINES);
}
