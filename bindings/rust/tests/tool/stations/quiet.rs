//! `--quiet`: events that are done have no answers of their own, and nothing else is another.

use super::{contents, lines_read};
use crate::following::Line;
use crate::program::{run_with, Scrap};
use crate::samples::{GRADED, W};

#[test]
fn answered_where_asked_and_at_the_end() {
    let rule = Scrap::holding(GRADED);
    let words = ["follow", rule.name(), "--quiet"];
    let lines = b"0\n1\n\n# nothing\n1\nkeep 2\n1\nmark\n1\n1\nverdict\n0\n";
    let answers = [
        "before none since 0\n",
        "before 0 since none\n",
        "grade 2 turns 1\n",
        "before 0 since 0\n",
    ];
    assert_eq!(run_with(&words, lines).printed(0), answers.concat());
    // Where the last line moved nothing but was answered, there is nothing more to say.
    let moved = run_with(&words, b"0\nmark\n# the end\n");
    assert_eq!(moved.printed(0), "before 0 since none\n");
    assert_eq!(run_with(&words, b"").printed(0), "");
}

/// A refused event is told by its line, those before it and behind it are done.
#[test]
fn refused_events() {
    let rule = Scrap::holding(GRADED);
    let words = ["follow", rule.name(), "--quiet"];
    let ran = run_with(&words, b"1\n7\n8\n1\nleft\n0\n9\n");
    let refused = "refused 10 input 1 place 0\n";
    let answers = format!("{refused}{refused}not understood\n{refused}before none since 0\n");
    assert_eq!((ran.status, ran.text()), (1, answers.as_str()));
    let words = "letter 7: the rule has 2 letters (refusal 10, input 1, place 0)\n";
    assert!(ran.err.contains(words), "{ran:?}");
    assert!(ran.err.contains("line 5: `left` is no letter"), "{ran:?}");
    assert!(ran.err.ends_with("4 lines refused\n"), "{ran:?}");
    let skipping = ["follow", rule.name(), "--quiet", "--skip-unknown"];
    let ran = run_with(&skipping, b"1\n7\nleft\n1\n");
    assert_eq!((ran.status, ran.text()), (0, "before none since 1\n"));
}

#[test]
fn not_with_changes() {
    let rule = Scrap::holding(W);
    let words = ["follow", rule.name(), "--quiet", "--on-change"];
    run_with(&words, b"0\n").said(3, "`--quiet` and `--on-change` do not go together");
}

/// Numbers below a bound, the same in each run.
fn numbers(seed: u64) -> impl FnMut(usize) -> usize {
    let mut state = seed;
    move |bound| {
        state = state
            .wrapping_mul(6_364_136_223_846_793_005)
            .wrapping_add(1_442_695_040_888_963_407);
        (state >> 33) as usize % bound
    }
}

/// What is answered with `--quiet`, by the answers to each line: those of events that were done are left out but the last, where nothing that
/// moves came behind it.
fn quieter(lines: &[&str], answers: &str) -> String {
    let asked = lines
        .iter()
        .filter(|line| !line.is_empty() && !line.starts_with('#'));
    let (mut kept, mut last) = (String::new(), None);
    for (line, answer) in asked.zip(answers.lines()) {
        let event = line.starts_with("event") || line.parse::<u8>().is_ok();
        let done = answer.starts_with("before");
        if event && done {
            last = Some(answer);
            continue;
        }
        if done && !line.starts_with("keep") {
            last = None;
        }
        kept += &format!("{answer}\n");
    }
    kept + &last.map(|answer| format!("{answer}\n")).unwrap_or_default()
}

/// Lines at random, with and without `--quiet`: the same answers where there are some, and the same state.
#[track_caller]
fn confirm(words: &[&str], requests: &[&str], seed: u64) {
    let mut number = numbers(seed);
    for _ in 0..8 {
        let count = 1 + number(300);
        let lines: Vec<&str> = (0..count)
            .map(|_| requests[number(requests.len())])
            .collect();
        let input = format!("{}\n", lines.join("\n"));
        let (loud, quiet) = (Scrap::free(), Scrap::free());
        let [told, kept] = [(&loud, None), (&quiet, Some("--quiet"))].map(|(state, option)| {
            let mut words = [words, &["--state", state.name()]].concat();
            words.extend(option);
            run_with(&words, input.as_bytes())
        });
        assert_eq!(kept.status, told.status);
        assert_eq!(kept.text(), quieter(&lines, told.text()), "{input}");
        assert_eq!(contents(&quiet), contents(&loud), "{input}");
        // The same in two goes, of which the second passes over what the first has read.
        let (half, state) = (number(count), Scrap::free());
        let first: String = lines[..half]
            .iter()
            .map(|line| format!("{line}\n"))
            .collect();
        let words = [words, &["--quiet", "--resume", "--state", state.name()]].concat();
        run_with(&words, first.as_bytes());
        run_with(&words, input.as_bytes());
        assert_eq!(contents(&state), contents(&loud), "{input}");
    }
}

#[test]
fn a_rule_as_with_all_answers() {
    let rule = Scrap::holding(GRADED);
    let requests = [
        "0",
        "1",
        "0",
        "1",
        "event 1",
        "0",
        "1",
        "mark",
        "verdict",
        "keep 1",
        "return 1",
        "7",
        "left",
        "",
        "# no line",
        "return 9",
    ];
    confirm(&["follow", rule.name()], &requests, 3);
}

/// A board has no call for a word of events.
#[test]
fn not_of_a_board() {
    run_with(&["board", "--quiet"], b"").said(3, "there is no option `--quiet`");
}

/// Events that wait are done before the state is saved, also at a signal and while more input may come.
#[test]
fn saved_with_what_waits() {
    let (rule, state) = (Scrap::holding(W), Scrap::free());
    let mut line = Line::open(&["follow", rule.name(), "--quiet", "--state", state.name()]);
    let answers = line.ask_all("1\n1\n0\nsave\n", 1);
    assert_eq!(answers, ["saved"]);
    assert!(contents(&state).contains("\nmonitor 64 0\ninput 3 "));
    assert_eq!(line.ask_all("mark\n1\n", 1), ["before 0 since none"]);
    std::thread::sleep(std::time::Duration::from_millis(300));
    line.signal("TERM");
    assert_eq!(line.ended().0, 143);
    let saved = contents(&state);
    assert!(saved.contains("\nmonitor 0 1\n"), "{saved}");
    assert_eq!(lines_read(&saved), 6);
}
