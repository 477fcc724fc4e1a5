//! Answers that a station can use: grades where they change, letters from a log, requests of one language, and
//! a status with a count.

use crate::program::{run_with, Scrap};
use crate::samples::{GRADED, NAMED, W, Z};

#[test]
fn grades_where_they_change() {
    let rule = Scrap::holding(GRADED);
    let words = ["follow", rule.name(), "--on-change"];
    let ran = run_with(
        &words,
        b"1\n1\n0\n0\nkeep 2\nmark\nmark\n1\nverdict\n1\nreturn 2\nreturn 2\nmark\n1\n",
    );
    let answers = [
        // The first one, whatever it is.
        "grade 1\n",
        "grade 3\n",
        // What moves nothing is answered as ever.
        "before none since 0\n",
        "grade none\n",
        "grade 2\n",
        "grade 2 turns 1\n",
        "grade 3\n",
        "grade none\n",
        "grade 2\n",
    ];
    assert_eq!(ran.printed(0), answers.concat());
    assert_eq!(run_with(&words, b"mark\nmark\n").printed(0), "grade none\n");
    // What is refused is answered as ever too, and changes nothing.
    let ran = run_with(&words, b"0\n7\n0\nleft\nreturn 3\n0\n");
    let answers =
        "grade 3\nrefused 10 input 1 place 0\nnot understood\nrefused 16 input 1 place 0\n";
    assert_eq!((ran.status, ran.text()), (1, answers));
    assert!(
        ran.err.ends_with("duknavet-tool: 3 lines refused\n"),
        "{ran:?}"
    );
}

/// A weak rule has no grades to tell of; else it is said that it is weak, and its events are followed.
#[test]
fn weak_rules() {
    let rule = Scrap::holding(Z);
    run_with(&["follow", rule.name(), "--on-change"], b"0\n")
        .said(2, "the rule is weak: u: 0  v: 0 0 has grade 3");
    let ran = run_with(&["follow", rule.name()], b"0\n0\nmark\n1\n");
    let answers =
        "before none since 1\nbefore none since 0\nbefore 0 since none\nbefore 0 since 0\n";
    assert_eq!((ran.status, ran.text()), (0, answers));
    let words = "(refusal 12, input 1, place 0): events are followed, and a verdict is refused\n";
    assert!(ran.err.ends_with(words), "{ran:?}");
    assert_eq!(ran.err.lines().count(), 1);
    let ran = run_with(&["follow", rule.name()], b"0\nverdict\nwho\n");
    let refused = "refused 12 input 1 place 0\n";
    let answers = format!("before none since 1\n{refused}{refused}");
    assert_eq!((ran.status, ran.text()), (1, answers.as_str()));
}

#[test]
fn letters_from_a_column() {
    let rule = Scrap::holding(NAMED.as_bytes());
    let log = "08:00 pump-3 open\n08:01 pump-3 #7 shut\n\n  08:02   x   open  \n08:03 y mark\n08:04 y shut\n";
    let answers = "before none since 0\nbefore none since 0\nbefore none since 0\nbefore 0 since none\nbefore 0 since 1\n";
    let ran = run_with(&["follow", rule.name(), "--field", "-1"], log.as_bytes());
    assert_eq!(ran.printed(0), answers);
    let ran = run_with(&["follow", rule.name(), "--field=3"], log.as_bytes());
    assert_eq!((ran.status, ran.text().lines().count()), (1, 5));
    assert!(ran.err.contains("line 2: `#7` is no letter"), "{ran:?}");
    assert!(
        ran.err.ends_with("duknavet-tool: 1 line refused\n"),
        "{ran:?}"
    );
    for (field, line) in [
        ("1", "open x y"),
        ("2", "x open y"),
        ("-2", "x open y"),
        ("-3", "open x y"),
    ] {
        let ran = run_with(&["follow", rule.name(), "--field", field], line.as_bytes());
        assert_eq!(ran.printed(0), "before none since 0\n", "{field}");
    }
    for field in ["4", "-4", "9223372036854775807", "-9223372036854775808"] {
        let ran = run_with(
            &["follow", rule.name(), "--field", field],
            b"open shut open\n",
        );
        assert_eq!((ran.status, ran.text()), (1, "not understood\n"));
        let words = format!("line 1: there is no column {field}");
        assert!(ran.err.contains(&words), "{ran:?}");
    }
    // Only letters and marks come from a log, and a log has no comments.
    for word in ["verdict", "save", "who", "keep", "open#", "#"] {
        let ran = run_with(&["follow", rule.name(), "--field", "1"], word.as_bytes());
        assert_eq!((ran.status, ran.text()), (1, "not understood\n"), "{word}");
    }
}

/// Lines of a log have up to 65,536 bytes.
#[test]
fn long_lines_of_a_log() {
    let rule = Scrap::holding(W);
    for (length, status, answer) in [
        (65_536, 0, "before none since 1\n"),
        (65_537, 1, "not understood\n"),
        (1_000_000, 1, "not understood\n"),
    ] {
        let line = format!("{} 1\n", "x".repeat(length - 2));
        let ran = run_with(&["follow", rule.name(), "--field", "-1"], line.as_bytes());
        assert_eq!((ran.status, ran.text()), (status, answer), "{length}");
    }
}

#[test]
fn what_is_no_letter_is_passed_over() {
    let rule = Scrap::holding(NAMED.as_bytes());
    let log = b"open\nbell\n7\nevent bell\nkeep x\n300\nshut\n";
    let ran = run_with(&["follow", rule.name(), "--skip-unknown"], log);
    let answers = "before none since 0\nnot understood\nbefore none since 0\n";
    assert_eq!((ran.status, ran.text()), (1, answers), "{ran:?}");
    let words = "duknavet-tool: 1 line refused, 4 lines passed over that had no letter\n";
    assert!(ran.err.ends_with(words), "{ran:?}");
    let words = ["follow", rule.name(), "--skip-unknown", "--field=2"];
    let ran = run_with(&words, b"a open\nb bell\nc\n\nd shut\n");
    let answers = "before none since 0\nbefore none since 0\n";
    assert_eq!((ran.status, ran.text()), (0, answers), "{ran:?}");
    let words = "duknavet-tool: 2 lines passed over that had no letter\n";
    assert_eq!(ran.err, words);
}

/// Letters that are called like requests are written behind `event`.
#[test]
fn letters_called_like_requests() {
    let text = NAMED
        .replace("open 0", "who 0")
        .replace("shut 1", "\"mark\" 1");
    let rule = Scrap::holding(text.as_bytes());
    let ran = run_with(
        &["follow", rule.name()],
        b"event mark\nevent who\nmark\nwho\nevent 1\nevent \"mark\" # once more\n\"who\"\nwho\n",
    );
    let answers = [
        "before none since 1\n",
        "before none since 0\n",
        "before 0 since none\n",
        "who 9b00692cc1d86283 grade none\n",
        "before 0 since 1\n",
        "before 0 since 1\n",
        "before 0 since 0\n",
        "who 9b00692cc1d86283 grade 3\n",
    ];
    assert_eq!(ran.printed(0), answers.concat());
    let text = NAMED
        .replace("open 0", "leave 0")
        .replace("shut 1", "event 1");
    let rule = Scrap::holding(text.as_bytes());
    let ran = run_with(&["follow", rule.name()], b"event\nleave\nevent event\n");
    let answers = "before none since 1\nbefore none since 0\nbefore none since 0\n";
    assert_eq!(ran.printed(0), answers);
}

/// Letters that are valuations of propositions.
#[test]
fn events_by_propositions() {
    let text = "duknavet rule 1\npropositions 1 \"a b\"\nelements 2\n  0 0\n  0 1\nletters 2\n  0\n  1\nmarks 1\n  0 0 proper\n";
    let (rule, state) = (Scrap::holding(text.as_bytes()), Scrap::free());
    let words = ["follow", rule.name(), "--state", state.name()];
    let ran = run_with(&words, b"\"a b\"\nevent !\"a b\" # none\n1\n");
    let answers = "before none since 1\nbefore none since 0\nbefore none since 0\n";
    assert_eq!(ran.printed(0), answers);
    let saved = super::contents(&state);
    assert!(
        saved.contains("\npropositions \"a b\"\nmonitor "),
        "{saved}"
    );
    run_with(&words, b"").printed(0);
}
