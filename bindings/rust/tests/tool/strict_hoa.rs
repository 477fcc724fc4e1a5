//! Texts in the Hanoi format that the format does not allow, or that say what is not read: each is refused where it stands.

use crate::program::run_with;
use duknavet::exchange::read;

/// A text of two states over two propositions, with one part of it changed.
fn changed(from: &str, to: &str) -> String {
    let text = "HOA: v1\nStates: 2\nStart: 0\nAP: 2 \"a\" \"b\"\nAcceptance: 1 Inf(0)\n--BODY--\nState: 0\n[0] 1\n[!0] 0\nState: 1 {0}\n[t] 1\n--END--\n";
    assert_eq!(text.matches(from).count(), 1, "{from}");
    text.replacen(from, to, 1)
}

/// That the text is refused with such words, through the tool.
#[track_caller]
fn refused(text: &str, words: &str) {
    let ran = run_with(&["automaton", "-"], text.as_bytes());
    ran.said(2, "standard input: ");
    let expected = format!("duknavet-tool: standard input: {words}\n");
    assert_eq!(ran.err, expected, "{text}");
}

#[test]
fn as_it_stands_it_is_read() {
    let text = changed("State: 0", "State: 0");
    run_with(&["automaton", "-"], text.as_bytes()).printed(0);
}

#[test]
fn lines_that_may_stand_once() {
    for line in [
        "AP: 2 \"a\" \"b\"",
        "Acceptance: 1 Inf(0)",
        "States: 2",
        "acc-name: Buchi",
        "tool: \"one\"",
        "name: \"one\"",
        "duknavet-letters: 4",
    ] {
        let name = line.split(' ').next().expect("a name");
        let twice = format!("HOA: v1\n{line}\nStart: 0\n  {line}\n");
        refused(&twice, &format!("line 4, column 3: `{name}` stands twice"));
    }
    // Even where the second says something else, the first does not lose silently.
    let other = changed("--BODY--", "Acceptance: 0 t\n--BODY--");
    refused(&other, "line 6, column 1: `Acceptance:` stands twice");
    let twice = changed("--BODY--", "Alias: @x 0\nAlias: @x 1\n--BODY--");
    refused(&twice, "line 7, column 8: @x stands twice");
    // These may stand again.
    let again = changed(
        "--BODY--",
        "Start: 1\nproperties: complete\nproperties: deterministic\n--BODY--",
    );
    run_with(&["automaton", "-"], again.as_bytes()).printed(0);
}

#[test]
fn states_beyond_their_count() {
    let words = "there is no state 2: `States:` says 2";
    let start = changed("Start: 0", "Start: 2");
    refused(&start, &format!("line 3, column 8: {words}"));
    // `Start:` may stand before `States:`.
    let before = "HOA: v1\nStart: 2\nStates: 2\nAcceptance: 0 t\n--BODY--\n--END--";
    refused(before, &format!("line 2, column 8: {words}"));
    let edge = changed("[!0] 0", "[!0] 2");
    refused(&edge, &format!("line 9, column 6: {words}"));
    let state = changed("State: 1", "State: 2");
    refused(&state, &format!("line 10, column 8: {words}"));
    let far = changed("[!0] 0", "[!0] 9");
    refused(
        &far,
        "line 9, column 6: there is no state 9: `States:` says 2",
    );
    // Without a count every number is a state.
    let uncounted = changed("States: 2\n", "").replace("[!0] 0", "[!0] 9");
    run_with(&["automaton", "-"], uncounted.as_bytes()).printed(0);
}

#[test]
fn a_state_that_is_defined_twice() {
    let twice = changed("State: 1", "State: [0] 0");
    refused(&twice, "line 10, column 12: state 0 was defined before");
}

#[test]
fn transitions_without_labels() {
    let few = changed("[0] 1\n[!0] 0", "1 0 0");
    let words = "state 0 has 3 transitions without a label, and there are 4 valuations";
    refused(&few, &format!("line 7, column 8: {words}"));
    let many = changed("[0] 1\n[!0] 0", "1 0 0\n1 0");
    refused(
        &many,
        "line 9, column 3: more than 4 transitions without a label",
    );
    let right = changed("[0] 1\n[!0] 0", "1 0 0\n1");
    run_with(&["automaton", "-"], right.as_bytes()).printed(0);
}

#[test]
fn labels_mixed() {
    let later = changed("[0] 1\n[!0] 0", "1 0 0\n [0] 1");
    let words = "a label, but a transition before has none";
    refused(&later, &format!("line 9, column 2: {words}"));
    let earlier = changed("[!0] 0", " 0");
    let words = "no label, but a transition before has one";
    refused(&earlier, &format!("line 9, column 2: {words}"));
    // Of two states one may have labels and the other none.
    let each = changed("[0] 1\n[!0] 0", "1 0 0 1");
    run_with(&["automaton", "-"], each.as_bytes()).printed(0);
}

#[test]
fn labels_of_a_state_and_of_its_transition() {
    let both = changed("State: 0", "State: [t] 0");
    let words = "a label, but the state has one for all its transitions";
    refused(&both, &format!("line 8, column 1: {words}"));
}

#[test]
fn a_proposition_that_is_named_twice() {
    let twice = changed("\"a\" \"b\"", "\"a\" \"a\"");
    refused(
        &twice,
        "line 4, column 11: the proposition \"a\" stands twice",
    );
    let more = changed("\"a\" \"b\"", "\"a\" \"b\" \"c\"");
    let words = "expected a line of the header or `--BODY--`";
    refused(&more, &format!("line 4, column 15: {words}"));
    let fewer = changed("\"a\" \"b\"", "\"a\"");
    refused(&fewer, "line 5, column 1: expected `\"`");
}

#[test]
fn sets_that_acceptance_does_not_name() {
    let words = "there is only the acceptance set 0";
    let state = changed("1 {0}", "1 {0 1}");
    refused(&state, &format!("line 10, column 13: {words}"));
    let edge = changed("[t] 1", "[t] 1 {1}");
    refused(&edge, &format!("line 11, column 8: {words}"));
    let none = changed("1 Inf(0)", "0 t");
    let words = "there is no acceptance set: `Acceptance:` says `0 t`";
    refused(&none, &format!("line 10, column 11: {words}"));
}

/// Everything but Büchi acceptance, however it begins.
#[test]
fn other_acceptance() {
    for acceptance in [
        "2 Inf(0)&Inf(1)",
        "1 Inf(0)&Inf(0)",
        "1 Inf(0) | Inf(0)",
        "(1 Inf(0)",
        "1 (Inf(0)",
        "1 (Inf(0)|Fin(0))",
        "1 Inf(!0)",
        "1 Inf(1)",
        "1 Fin(0)",
        "1 t",
        "1 f",
        "0 f",
        "0 Inf(0)",
    ] {
        let text = changed("1 Inf(0)", acceptance);
        let words = match acceptance.starts_with('(') {
            true => "expected the count of the acceptance sets, a number",
            false => "only Büchi acceptance is read: `1 Inf(0)`, or `0 t`",
        };
        refused(&text, &format!("line 5, column 13: {words}"));
    }
    let none = changed("Acceptance: 1 Inf(0)\n", "");
    refused(&none, "line 5, column 1: there is no `Acceptance:`");
}

/// What the format allows is read, and as what it says.
#[test]
fn other_ways_to_write_the_same() {
    let plain = changed("[0] 1", "[0] 1");
    let read = |text: &str| read(text.as_bytes()).expect(text);
    for (from, to) in [
        ("1 Inf(0)", "1 (Inf(0))"),
        ("1 Inf(0)", "1 ( ( Inf ( 0 ) ) )"),
        ("Start: 0", "Start: 0 Start: 0"),
        ("[0] 1", "[(0)] 1"),
        ("[0] 1", "/* one /* in */ another */ [0] 1"),
        ("[!0] 0", "[!t|!0] 0"),
        ("--BODY--", "properties: state-acc t 7 \"x:\" --BODY--"),
    ] {
        assert_eq!(read(&changed(from, to)), read(&plain), "{to}");
    }
    // Aliases may stand before the propositions that they name, and name other aliases.
    let aliases = plain.replace("AP:", "Alias: @not-a !0\nAlias: @0 !@not-a & (1 | !1)\nAP:");
    let aliases = aliases
        .replace("[0] 1", "[@0] 1")
        .replace("[!0] 0", "[@not-a] 0");
    assert_eq!(read(&aliases), read(&plain));
    let all = changed("1 Inf(0)", "0 (t)").replace("1 {0}", "1");
    assert_eq!(read(&all).automaton.kinds, [3, 2]);
}

#[test]
fn aliases() {
    let words = "expected `t`, `f`, an alias or the number of a proposition";
    let beyond = changed("AP:", "Alias: @x 0 & 2\nAP:");
    refused(&beyond, &format!("line 4, column 15: {words}"));
    let far = changed("AP:", "Alias: @x 4\nAP:");
    refused(&far, &format!("line 4, column 11: {words}"));
    let none = changed("AP: 2 \"a\" \"b\"", "Alias: @x 0");
    refused(&none, &format!("line 4, column 11: {words}"));
    let unknown = changed("[0] 1", "[@x] 1");
    refused(&unknown, "line 8, column 2: there is no alias @x");
    let later = changed("AP:", "Alias: @x @y\nAlias: @y 0\nAP:");
    refused(&later, "line 4, column 11: there is no alias @y");
    let nameless = changed("AP:", "Alias: @ x 0\nAP:");
    refused(
        &nameless,
        "line 4, column 10: expected the name of an alias",
    );
}

/// Signs that are not where the format has them.
#[test]
fn other_forms() {
    let words = "expected a line of the header or `--BODY--`";
    let apart = changed("States: 2", "States : 2");
    refused(&apart, &format!("line 2, column 1: {words}"));
    let sign = changed("States: 2", "name: \"x\" ! States: 2");
    refused(&sign, &format!("line 2, column 11: {words}"));
    let zeros = changed("[0] 1", "[0] 01");
    let words = "expected a state, a number that does not begin with 0";
    refused(&zeros, &format!("line 8, column 5: {words}"));
    let aborted = changed("--END--", "--ABORT--");
    refused(&aborted, "line 12, column 1: expected `State:`");
    let comment = changed("--END--", "/* one --END--");
    refused(&comment, "line 12, column 1: a comment does not end");
    let behind = changed("--END--", "--END-- /* one /* two */");
    refused(&behind, "line 12, column 9: a comment does not end");
    let second = changed("--END--", "--END--\nHOA: v1");
    refused(
        &second,
        "line 13, column 1: expected the end: one automaton a file",
    );
}
