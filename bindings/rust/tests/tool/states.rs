//! A rule's own automaton, state by state, end to end and against the engine written apart.

use crate::definitions::acceptance::Marking;
use crate::definitions::rule_automaton::{is_state, kind, successors};
use crate::program::run_with;
use crate::random::Random;
use crate::samples::{rule, AUTOMATON, GRADED, NAMED, NOT_ASSOCIATIVE, UNMARKED, W, Z};
use duknavet::{owned, Refusal, RuleAutomaton, RuleState, StateKind, NONE};
use std::collections::BTreeSet;

const FROM_W: &str = "states 3 initial 1 final 1
State (0, 0), initial
  0 to (0, 0) (1, 0) (none, 0)
  1 to (0, 0)
State (1, 0), plain
  0 to (0, 0) (1, 0) (none, 0)
  1 to (0, 0) (1, 0) (none, 0)
State (none, 0), final
  0 to (0, 0) (1, 0) (none, 0)
  1 to (0, 0)
";

#[test]
fn lists() {
    assert_eq!(run_with(&["states", "-"], W).printed(0), FROM_W);
    let named = FROM_W.replace("\n  0 ", "\n  open ");
    let named = named.replace("\n  1 ", "\n  shut ");
    let found = run_with(&["states", "-"], NAMED.as_bytes());
    assert_eq!(found.printed(0), named);
    let all = run_with(&["states", "-", "--all"], W);
    let others = "State (0, 1), plain\n  0 to (0, 1) (1, 1) (none, 1)\n  1 to (0, 1)\n";
    let last = "State (none, 1), final\n  0 nowhere\n  1 to (1, 1) (none, 1)\n";
    let all = all.printed(0);
    assert!(all.starts_with("states 6 initial 1 final 2\nState (0, 0), initial\n"));
    assert!(all.contains(others) && all.ends_with(last), "{all}");
    let weak = "states 3 initial 1 final 1\nState (0, 0), initial\n  0 to (1, 0)\n";
    assert!(run_with(&["states", "-"], Z).printed(0).starts_with(weak));
    let least = |least: &str| run_with(&["states", "-", "--least", least, "--all"], GRADED);
    for (grade, initial) in [("1", 3), ("2", 2), ("3", 1)] {
        let head = format!("states 6 initial {initial} final 2\n");
        assert!(least(grade).printed(0).starts_with(&head));
    }
    let none = run_with(&["states", "-"], UNMARKED);
    assert_eq!(none.printed(0), "states 0 initial 0 final 0\n");
    let all = run_with(&["states", "-", "--all"], UNMARKED);
    assert!(all.printed(0).starts_with("states 6 initial 0 final 2\n"));
}

#[test]
fn single_states_and_letters() {
    let asked = |words: &[&str], bytes: &[u8]| run_with(&[&["states", "-"], words].concat(), bytes);
    let printed = "State (none, 0), final\n  0 to (0, 0) (1, 0) (none, 0)\n  1 to (0, 0)\n";
    for state in ["none,0", "64,0", " none , 0"] {
        assert_eq!(asked(&["--state", state], W).printed(0), printed);
    }
    let one = asked(&["--state", "1,1", "--letter", "0"], W);
    assert_eq!(one.printed(0), "State (1, 1), plain\n  0 nowhere\n");
    let one = asked(&["--state=0,1", "--least=2", "--letter=1"], GRADED);
    assert_eq!(one.printed(0), "State (0, 1), initial\n  1 to (0, 1)\n");
    let one = asked(&["--state=0,1", "--least=3", "--letter=1"], GRADED);
    assert_eq!(one.printed(0), "State (0, 1), plain\n  1 to (0, 1)\n");
    let list = asked(&["--letter", "shut"], NAMED.as_bytes());
    let kept = FROM_W.lines().filter(|line| !line.starts_with("  0 "));
    let kept: String = kept
        .map(|line| line.replace("  1 ", "  shut ") + "\n")
        .collect();
    assert_eq!(list.printed(0), kept);
}

#[test]
fn refused() {
    let asked = |words: &[&str], bytes: &[u8]| run_with(&[&["states", "-"], words].concat(), bytes);
    let words = "standard input: (0, 1) is no state: 1·1 = 0, so 1 is not idempotent (refusal 17, input 1, place 0)";
    asked(&["--state", "0,1"], Z).said(2, words);
    let words = "(none, 7) is no state: e is 7, but there are 2 elements (refusal 17";
    asked(&["--state", "none,7"], Z).said(2, words);
    let words = "(63, 0) is no state: s is 63, but there are 2 elements (refusal 17";
    asked(&["--state", "63,0"], NAMED.as_bytes()).said(2, words);
    asked(&["--state", "0,18446744073709551615"], W).said(2, "refusal 17");
    asked(&["--state", "0,1", "--letter", "9"], Z).said(2, "refusal 17");
    let words = "letter 2: the rule has 2 letters (refusal 10, input 1, place 0)";
    asked(&["--state", "0,0", "--letter", "2"], Z).said(2, words);
    asked(&["--letter", "2"], Z).said(2, words);
    // Also where no state is listed, and where element 0 is no idempotent.
    asked(&["--letter", "2"], UNMARKED).said(2, words);
    asked(&["--letter", "2"], &[2, 1, 0, 0, 1, 2, 0, 1, 0, 0]).said(2, words);
    for (least, bytes) in [("0", W), ("4", Z), ("255", NAMED.as_bytes())] {
        let words = format!(
            "standard input: the least grade is {least}, not 1 to 3 (refusal 3, input 1, place 0)"
        );
        asked(&["--least", least], bytes).said(2, &words);
        asked(&["--least", least, "--state", "0,7"], bytes).said(2, &words);
    }
    for words in [&[][..], &["--all"], &["--state", "0,0"], &["--letter", "9"]] {
        asked(words, NOT_ASSOCIATIVE).said(2, "(0·0)·1 = 0 but 0·(0·1) = 1 (refusal 5");
        asked(words, &W[..12]).said(2, "within the marks: 2 of 3 bytes are there");
        asked(words, b"").said(2, "the file is empty");
        asked(words, AUTOMATON).said(2, "refusal 3");
    }
    let text = b"duknavet automaton 1\nstates 1\n both\nletters 1\ntransitions 0\n";
    asked(&[], text).said(2, "expected a rule, found an automaton");
}

#[test]
fn wrong_use() {
    let asked = |words: &[&str]| run_with(&[&["states", "-"], words].concat(), NAMED.as_bytes());
    for state in ["0", "0,", ",0", "x,0", "0,none", "0,0,0", "-1,0"] {
        asked(&["--state", state]).said(3, "`--state` takes two numbers as in 0,1 or none,1");
    }
    asked(&["--state", "0,0", "--all"]).said(3, "`--all` and `--state` do not go together");
    asked(&["--all=yes"]).said(3, "`--all` takes no value");
    asked(&["--least", "256"]).said(3, "`--least` takes a number from 0 to 255, not `256`");
    for letter in ["left", "256", "-1"] {
        asked(&["--letter", letter]).said(3, "is no letter's name and no number from 0 to 255");
    }
}

/// All states, their kinds and steps are those of the definition, and those reached are the closure of the initial ones.
#[test]
fn against_the_engine() {
    let mut random = Random::new(1301);
    let (mut fewer, mut initial, mut nothing) = (0, 0, 0);
    for _ in 0..150 {
        let expected = rule(&mut random, 10);
        let (bytes, m) = (expected.bytes(), &expected.morphism);
        let marking = Marking::new(m.n, &expected.marks);
        let least = random.within(1, 3) as u8;
        let whole = RuleAutomaton::whole(&bytes, least).expect("a rule");
        assert_eq!(usize::from(whole.letters), m.letters());
        let pairs = (0..m.n).flat_map(|e| (0..=64).map(move |s| RuleState { e, s }));
        let states: Vec<RuleState> = pairs.filter(|own| is_state(m, own.s, own.e)).collect();
        let found: Vec<RuleState> = whole.states.iter().map(|own| own.state).collect();
        assert_eq!(found, states, "{bytes:?}");
        for own in &whole.states {
            let RuleState { e, s } = own.state;
            let kind = [StateKind::Plain, StateKind::Initial, StateKind::Final]
                [usize::from(kind(&marking, s, e, least))];
            assert_eq!(own.kind, kind, "{} of {bytes:?}", own.state);
            assert_eq!(own.leads.len(), m.letters());
            for (letter, leads) in (0..).zip(&own.leads) {
                assert_eq!(*leads, successors(m, s, e, letter), "{}", own.state);
                assert_eq!(owned::successors(&bytes, s, e, letter).as_ref(), Ok(leads));
            }
            initial += usize::from(kind == StateKind::Initial);
        }
        let starts = whole
            .states
            .iter()
            .filter(|own| own.kind == StateKind::Initial);
        let mut closure: BTreeSet<RuleState> = starts.map(|own| own.state).collect();
        loop {
            let inside = whole
                .states
                .iter()
                .filter(|own| closure.contains(&own.state));
            let next: Vec<RuleState> = inside
                .flat_map(|own| (0..whole.letters).flat_map(|letter| own.next(letter)))
                .collect();
            let before = closure.len();
            closure.extend(next);
            if closure.len() == before {
                break;
            }
        }
        let reached = RuleAutomaton::reached(&bytes, least).expect("a rule");
        let kept = whole
            .states
            .iter()
            .filter(|own| closure.contains(&own.state));
        assert!(reached.states.iter().eq(kept), "{bytes:?}");
        fewer += usize::from(reached.states.len() < whole.states.len());
        nothing += usize::from(reached.states.is_empty());
    }
    assert!(
        fewer > 50 && initial > 100 && nothing > 10,
        "{fewer} {initial} {nothing}"
    );
}

#[test]
fn each_pair_that_is_no_state() {
    let mut random = Random::new(1302);
    for _ in 0..60 {
        let expected = rule(&mut random, 6);
        let (bytes, m) = (expected.bytes(), &expected.morphism);
        for (s, e) in (0..70).flat_map(|s| (0..70).map(move |e| (s, e))) {
            let answer = owned::state_kind(&bytes, s, e, 1);
            assert_eq!(answer.is_ok(), is_state(m, s, e), "({s}, {e}) of {bytes:?}");
            if let Err(explained) = answer {
                assert_eq!(explained.refused.refusal, Refusal::NoSuchState);
                let name = if s == NONE {
                    "none".to_string()
                } else {
                    s.to_string()
                };
                let words = format!("({name}, {e}) is no state: ");
                assert!(explained.words.starts_with(&words), "{explained}");
            }
        }
    }
}
