//! `--resume`: the lines that a state stands for are passed over, and no others.

use super::{contents, lines_read, sealed, unsealed};
use crate::program::{run_with, Scrap};
use crate::samples::W;

#[test]
fn lines_are_passed_over() {
    let (rule, state) = (Scrap::holding(W), Scrap::free());
    let words = ["follow", rule.name(), "--state", state.name(), "--resume"];
    let log = "1\n\n# a comment\nbad\n7\nmark\n0\nverdict\n";
    let answers = [
        "before none since 1\n",
        "",
        "",
        "not understood\n",
        "refused 10 input 1 place 0\n",
        "before 1 since none\n",
        "before 1 since 0\n",
        "grade 3 turns 1\n",
    ];
    // The log grows line by line, and each run answers what is new.
    for (number, answer) in (1..).zip(answers) {
        let end = log.match_indices('\n').nth(number - 1).expect("a line").0;
        let ran = run_with(&words, &log.as_bytes()[..=end]);
        assert_eq!(ran.text(), answer, "{number}: {ran:?}");
        assert_eq!(lines_read(&contents(&state)), number);
    }
    let grown = contents(&state);
    assert_eq!(run_with(&words, log.as_bytes()).printed(0), "");
    assert_eq!(contents(&state), grown);
    // In one run the state is the same, byte for byte.
    let once = Scrap::free();
    let ran = run_with(
        &["follow", rule.name(), "--state", once.name()],
        log.as_bytes(),
    );
    assert_eq!((ran.status, ran.text()), (1, answers.concat().as_str()));
    assert_eq!(contents(&once), grown);
}

/// A log that is shorter, another or changed is refused, and the state is left alone.
#[test]
fn other_logs() {
    let (rule, state) = (Scrap::holding(W), Scrap::free());
    let plain = ["follow", rule.name(), "--state", state.name()];
    let resumed = ["follow", rule.name(), "--state", state.name(), "--resume"];
    run_with(&plain, b"1\nmark\n0\n").printed(0);
    let saved = contents(&state);
    for (log, why) in [
        ("", "it has 0 lines, and the state stands for 3"),
        ("1\nmark\n", "it has 2 lines, and the state stands for 3"),
        ("1\nmark\n0", "it has 2 lines, and the state stands for 3"),
        ("1\nmark\n1\n0\n", "its first 3 lines are not those"),
        ("1\n mark\n0\n0\n", "its first 3 lines are not those"),
        ("0\nmark\n1\n0\n", "its first 3 lines are not those"),
    ] {
        let ran = run_with(&resumed, log.as_bytes());
        ran.said(2, why);
        assert!(
            ran.err.contains("without --resume it is taken up"),
            "{ran:?}"
        );
        assert_eq!(contents(&state), saved, "{log}");
    }
    // A new log is begun without --resume, also one that is still empty.
    assert_eq!(run_with(&plain, b"").printed(0), "");
    assert_eq!(lines_read(&contents(&state)), 0);
    let ran = run_with(&resumed, b"1\n");
    assert_eq!(ran.printed(0), "before 1 since 0\n");
}

#[test]
fn last_lines_without_a_newline() {
    let (rule, state) = (Scrap::holding(W), Scrap::free());
    let plain = ["follow", rule.name(), "--state", state.name()];
    let resumed = ["follow", rule.name(), "--state", state.name(), "--resume"];
    // With --resume such a line is neither answered nor counted, since more of it may come.
    let ran = run_with(&resumed, b"1\n0");
    assert_eq!(ran.printed(0), "before none since 1\n");
    assert_eq!(lines_read(&contents(&state)), 1);
    let ran = run_with(&resumed, b"1\n0\n1");
    assert_eq!(ran.printed(0), "before none since 0\n");
    // Without it is answered, as ever, and then no log can be resumed.
    let answers = "before none since 0\nbefore none since 0\n";
    assert_eq!(run_with(&plain, b"1\n0").printed(0), answers);
    let saved = contents(&state);
    assert_eq!(lines_read(&saved), 1);
    for log in ["1\n0", "1\n0\n", "1\n01\n"] {
        run_with(&resumed, log.as_bytes())
            .said(2, "the last line that was answered had no newline");
        assert_eq!(contents(&state), saved);
    }
}

/// The count and the fingerprint are those of the lines with their ends.
#[test]
fn what_is_counted() {
    let (rule, state) = (Scrap::holding(W), Scrap::free());
    let words = ["follow", rule.name(), "--state", state.name()];
    let long = "1".repeat(70_000);
    let log = format!("1\r\n{long}\n\n0\n");
    assert_eq!(run_with(&words, log.as_bytes()).status, 1);
    let number = super::fingerprint(log.as_bytes());
    let lines = unsealed(&contents(&state));
    let values = "duknavet state 2\nrule 9b00692cc1d86283\nmonitor 64 0\n";
    assert_eq!(lines, format!("{values}input 4 {number:016x}\n"));
    assert_eq!(contents(&state), sealed(&lines));
}
