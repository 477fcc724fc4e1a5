//! State files that are damaged, of another version, of another rule or of other names.

use super::{contents, sealed, unsealed};
use crate::program::{run_with, Scrap};
use crate::samples::{NAMED, W, Z};

/// That a state is refused before any line is answered, and left as it is.
#[track_caller]
fn is_refused(words: &[&str], state: &Scrap, bytes: &[u8], why: &str) {
    std::fs::write(state.name(), bytes).expect("a file of the test is written");
    let ran = run_with(words, b"0\nmark\nsave\n");
    ran.said(2, why);
    assert!(ran.err.contains("move it away to begin anew"), "{ran:?}");
    assert_eq!(std::fs::read(state.name()).expect("the file"), bytes);
}

/// Every prefix of a state file and every single flipped bit is refused.
pub fn every_damage_is_refused(words: &[&str], state: &Scrap) {
    let whole = std::fs::read(state.name()).expect("the state was written");
    run_with(words, b"").printed(0);
    let mut tried = 0;
    for length in 0..whole.len() {
        is_refused(words, state, &whole[..length], "");
        tried += 1;
    }
    for bit in 0..8 * whole.len() {
        let mut flipped = whole.clone();
        flipped[bit / 8] ^= 1 << (bit % 8);
        is_refused(words, state, &flipped, "");
        tried += 1;
    }
    assert!(tried == 9 * whole.len() && tried > 900, "{tried}");
    std::fs::write(state.name(), &whole).expect("a file of the test is written");
    run_with(words, b"").printed(0);
}

#[test]
fn every_prefix_and_every_flipped_bit() {
    let (rule, state) = (Scrap::holding(NAMED.as_bytes()), Scrap::free());
    let words = ["follow", rule.name(), "--state", state.name()];
    run_with(&words, b"shut\nkeep 3\nmark\nopen\n").printed(0);
    let saved = contents(&state);
    assert!(saved.contains("\nletters \"open\" \"shut\"\n"), "{saved}");
    every_damage_is_refused(&words, &state);
}

#[test]
fn every_prefix_and_every_flipped_bit_of_a_board() {
    // The smallest rule that there is.
    let (rule, state) = (Scrap::holding(&[1, 0, 1, 0, 0, 0]), Scrap::free());
    let words = ["board", "--state", state.name()];
    let lines = format!("enter 3 {}\nevent 0\n", rule.name());
    run_with(&words, lines.as_bytes()).printed(0);
    every_damage_is_refused(&words, &state);
}

#[test]
fn versions() {
    let (rule, state) = (Scrap::holding(W), Scrap::free());
    let words = ["follow", rule.name(), "--state", state.name()];
    run_with(&words, b"1\nkeep 2\n0\n").printed(0);
    let second = contents(&state);
    // Version 1 is read, and written back as version 2 of an input of which nothing was read.
    let first = "duknavet state 1\nrule 9b00692cc1d86283\nmonitor 64 0\npoint 2 64 1\n";
    std::fs::write(state.name(), first).expect("a file of the test is written");
    run_with(&words, b"").printed(0);
    let values = unsealed(&second);
    let values = values.split("input ").next().expect("some lines");
    let empty = "input 0 cbf29ce484222325\n";
    assert_eq!(contents(&state), sealed(&format!("{values}{empty}")));
    // What version 1 does not say is asked for by --resume.
    std::fs::write(state.name(), first).expect("a file of the test is written");
    let resumed = ["follow", rule.name(), "--state", state.name(), "--resume"];
    run_with(&resumed, b"1\n").said(2, "its version, 1, does not say what was read");
    assert_eq!(contents(&state), first);
    let cut = "duknavet state 1\nrule 9b00692cc1d86283\nmonitor 64 0";
    is_refused(&words, &state, cut.as_bytes(), "the state is damaged");
    for version in ["0", "3", "10", "99999999999999999999999"] {
        let other = second.replace("state 2", &format!("state {version}"));
        let why = format!("its version is {version}, and versions 1 and 2 are read");
        is_refused(&words, &state, other.as_bytes(), &why);
    }
}

#[test]
fn what_is_no_state() {
    let (rule, state) = (Scrap::holding(W), Scrap::free());
    let words = ["follow", rule.name(), "--state", state.name()];
    is_refused(&words, &state, b"", "it is empty");
    is_refused(&words, &state, W, "it is no state");
    is_refused(&words, &state, b"\xff\xfe", "it is no state");
    is_refused(&words, &state, b"duknavet board 2\n", "it is no state");
    is_refused(&words, &state, b"duknavet state 2\n\xff", "damaged");
}

/// Lines that are whole, and yet say what no state says.
#[test]
fn lines_that_no_state_has() {
    let (rule, state) = (Scrap::holding(W), Scrap::free());
    let words = ["follow", rule.name(), "--state", state.name()];
    run_with(&words, b"1\nkeep 2\n").printed(0);
    let lines = unsealed(&contents(&state));
    for (from, to) in [
        ("monitor", "minotaur"),
        ("point 2", "point 8"),
        ("point 2 64 1", "point 2 64"),
        ("point 2 64 1", "point 2 64 256"),
        ("monitor 64 1\n", ""),
        ("input 2", "input x"),
        ("input 2", "input -2"),
        ("rule 9b", "rule 9B"),
    ] {
        assert!(lines.contains(from), "{lines}");
        let text = sealed(&lines.replace(from, to));
        is_refused(&words, &state, text.as_bytes(), "the state is damaged");
    }
    let text = sealed(&format!("{lines}point 1 0 0\n"));
    is_refused(&words, &state, text.as_bytes(), "the state is damaged");
}

#[test]
fn another_rule_and_other_names() {
    let [plain, other, named] = [W, Z, NAMED.as_bytes()].map(Scrap::holding);
    let exchanged = NAMED.replace("open 0\n  shut", "shut 0\n  open");
    let exchanged = Scrap::holding(exchanged.as_bytes());
    let state = Scrap::free();
    let words = |rule: &Scrap| {
        let words = ["follow", rule.name(), "--state", state.name()];
        words.map(str::to_string)
    };
    fn refused(words: [String; 4], state: &Scrap, why: &str) {
        let words: Vec<&str> = words.iter().map(String::as_str).collect();
        is_refused(&words, state, contents(state).as_bytes(), why);
    }
    let written = words(&named);
    let written: Vec<&str> = written.iter().map(String::as_str).collect();
    run_with(&written, b"open\n").printed(0);
    refused(words(&other), &state, "it is the state of another rule");
    let why =
        "other names: it has letters \"open\" \"shut\", and the rule letters \"shut\" \"open\"";
    refused(words(&exchanged), &state, why);
    refused(words(&plain), &state, "and the rule no names");
}

/// Values that a rule does not have are refused by the call, and told by it.
#[test]
fn values_that_the_library_refuses() {
    let (rule, state) = (Scrap::holding(W), Scrap::free());
    let words = ["follow", rule.name(), "--state", state.name()];
    run_with(&words, b"1\nkeep 2\n").printed(0);
    let lines = unsealed(&contents(&state));
    for (from, to) in [
        ("monitor 64 1", "monitor 9 9"),
        ("monitor 64 1", "monitor 2 1"),
        ("monitor 64 1", "monitor 64 65"),
        ("monitor 64 1", "monitor 64 18446744073709551615"),
        ("point 2 64 1", "point 2 64 7"),
    ] {
        let text = sealed(&lines.replace(from, to));
        is_refused(
            &words,
            &state,
            text.as_bytes(),
            "(refusal 3, input 1, place 0)",
        );
    }
    let first = "duknavet state 1\nrule 9b00692cc1d86283\nmonitor 9 9\n";
    is_refused(&words, &state, first.as_bytes(), "(refusal 3, ");
}
