//! Automata in the Hanoi format, held against what their texts say.

use crate::inputs::automata;
use crate::marked::Marked;
use crate::program::run_with;
use crate::random::Random;
use crate::samples::AUTOMATON;
use duknavet::exchange::{print_hoa, read};
use duknavet::files::{Automaton, Lasso};
use duknavet::owned;
use duknavet::text::Names;
use duknavet::witness::{compare, Comparison};
use std::fmt::Write;

#[test]
fn transitions_that_accept() {
    let mut random = Random::new(1001);
    let (mut read_well, mut yes, mut no, mut trimmed) = (0, 0, 0, 0);
    for _ in 0..400 {
        let marked = Marked::random(&mut random);
        let foreign = read(marked.text().as_bytes()).expect("a text of the format");
        assert_eq!(
            usize::from(foreign.automaton.letters),
            1 << marked.propositions
        );
        trimmed += usize::from(foreign.automaton.kinds.len() < marked.states);
        let Ok(rule) = owned::automaton_rule(&foreign.automaton.bytes()) else {
            continue;
        };
        read_well += 1;
        for _ in 0..20 {
            let lengths = (random.below(4), random.within(1, 4));
            let letters = 1 << marked.propositions;
            let lasso = Lasso {
                u: random.word(lengths.0, letters),
                v: random.word(lengths.1, letters),
            };
            let grade = owned::member(&rule, &lasso.u, &lasso.v)
                .expect("a lasso")
                .grade;
            let expected = marked.accepts(&lasso);
            assert_eq!(grade == 3, expected, "{lasso:?} of {}", marked.text());
            if expected {
                yes += 1;
            } else {
                no += 1;
            }
        }
    }
    assert!(
        read_well > 250 && yes > 300 && no > 300 && trimmed > 50,
        "{read_well} {yes} {no} {trimmed}"
    );
}

/// What is written in the format reads back as the same language, with the letters that its propositions have room for.
#[test]
fn automata_round_trip() {
    let mut random = Random::new(1002);
    let mut compared = 0;
    for _ in 0..200 {
        let (states, letters) = (random.within(1, 4), random.within(1, 5));
        let bytes = automata::automaton(&mut random, states, letters, 35).bytes();
        let automaton = Automaton::take_apart(&bytes).expect("an automaton");
        let again =
            read(print_hoa(&automaton, &Names::none()).as_bytes()).expect("what was written");
        assert_eq!(again.automaton.letters, automaton.letters);
        let rules = (
            owned::automaton_rule(&bytes),
            owned::automaton_rule(&again.automaton.bytes()),
        );
        if let (Ok(first), Ok(second)) = rules {
            let comparison = compare(&first, &second).expect("two rules");
            assert!(
                matches!(comparison, Comparison::EqualReductions(_)),
                "{comparison:?}"
            );
            compared += 1;
        }
    }
    assert!(compared > 100, "{compared}");
}

/// Labels on states, no labels at all, aliases, and the acceptance of every run.
#[test]
fn forms_of_the_format() {
    let letters = |text: &str| {
        let automaton = read(text.as_bytes()).expect(text).automaton;
        let transitions = automaton.transitions.iter();
        transitions
            .map(|own| (own.from, own.letter, own.to))
            .collect::<Vec<_>>()
    };
    let head = "HOA: v1 Start: 0 AP: 2 \"a\" \"b\" Acceptance: 1 Inf(0)";
    let on_state = format!("{head} --BODY-- State: [0 & !1] 0 {{0}} 0 --END--");
    assert_eq!(letters(&on_state), [(0, 1, 0)]);
    let implicit = format!("{head} --BODY-- State: 0 {{0}} 0 1 1 0 State: 1 0 0 0 0 --END--");
    let expected = [
        (0, 0, 0),
        (0, 1, 1),
        (0, 2, 1),
        (0, 3, 0),
        (1, 0, 0),
        (1, 1, 0),
        (1, 2, 0),
        (1, 3, 0),
    ];
    assert_eq!(letters(&implicit), expected);
    let alias = format!("{head} Alias: @x 0|1 --BODY-- State: 0 {{0}} [@x & !(0 & 1)] 0 --END--");
    assert_eq!(letters(&alias), [(0, 1, 0), (0, 2, 0)]);
    let all =
        "HOA: v1 Start: 0 AP: 0 acc-name: all Acceptance: 0 t --BODY-- State: 0 [t] 0 --END--";
    assert_eq!(read(all.as_bytes()).expect("all").automaton.kinds, [3]);
    // Nothing useful is left: one state that accepts nothing.
    let idle =
        "HOA: v1 Start: 0 AP: 0 Acceptance: 1 Inf(0) --BODY-- State: 0 [t] 1 State: 1 {0} --END--";
    let automaton = read(idle.as_bytes()).expect("idle").automaton;
    assert_eq!((automaton.kinds, automaton.transitions), (vec![1], vec![]));
}

/// Seven states of which six are useful pass; seven useful ones are refused by the library's count.
#[test]
fn useless_states_do_not_count() {
    let chain = |states: usize, last: usize| {
        let mut text =
            format!("HOA: v1 States: {states} Start: 0 AP: 0 Acceptance: 1 Inf(0) --BODY--\n");
        for state in 0..states {
            let next = if state == last {
                0
            } else {
                (state + 1) % states
            };
            let _ = writeln!(
                text,
                "State: {state} {} [t] {next}",
                if state == 0 { "{0}" } else { "" }
            );
        }
        text + "--END--"
    };
    let printed = run_with(&["check", "-"], chain(7, 5).as_bytes());
    assert_eq!(
        printed.printed(0),
        "automaton states 6 letters 1 transitions 6\n"
    );
    run_with(&["check", "-"], chain(7, 6).as_bytes()).said(2, "standard input: after trimming 7 states are left, more than 6 (refusal 2, input 1, place 0)");
    run_with(&["check", "-"], chain(300, 299).as_bytes()).said(
        2,
        "line 1, column 1: after trimming 300 states are left, more than 6",
    );
    // One of the seven may be left out, but of an automaton file nothing is.
    let bytes: Vec<u8> = [[7].as_slice(), &[1; 7], &[1, 0, 0]].concat();
    run_with(&["check", "--as", "automaton", "-"], &bytes).said(
        2,
        "standard input: the file has 7 states, not 1 to 6 (refusal 2, input 1, place 0)",
    );
    let many = chain(4097, 4096);
    run_with(&["check", "-"], many.as_bytes()).said(2, "there are 4097 states, more than 4096");
    let idle = chain(4096, 0);
    let printed = run_with(&["check", "-"], idle.as_bytes());
    assert_eq!(
        printed.printed(0),
        "automaton states 1 letters 1 transitions 1\n"
    );
}

/// What is no automaton is written too, with as many propositions as its letters need.
#[test]
fn letters_out_of_range() {
    for letters in [0, 17, 128, 129, 255] {
        let automaton = Automaton {
            kinds: vec![3],
            letters,
            transitions: Vec::new(),
        };
        assert!(print_hoa(&automaton, &Names::none()).ends_with("State: 0 {0}\n--END--\n"));
    }
}

#[test]
fn through_the_tool() {
    let hoa = run_with(&["convert", "--to", "hoa", "-"], AUTOMATON);
    let text = run_with(&["convert", "--to", "text", "-"], hoa.printed(0).as_bytes());
    assert!(text.printed(0).starts_with(
        "duknavet automaton 1\npropositions 1 \"b0\"\n# letter 0: !b0\n# letter 1: b0\nstates 2\n"
    ));
    let bytes = run_with(&["convert", "-"], hoa.printed(0).as_bytes());
    assert_eq!((bytes.status, bytes.out.as_slice()), (0, AUTOMATON));
}
