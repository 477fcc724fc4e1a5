//! Rules in the Hanoi format: what runs of the written automaton accept, against the call `member`.

use crate::definitions::runs;
use crate::program::{run, run_with, Scrap};
use crate::random::Random;
use crate::samples::{rule, GRADED, NAMED, NOT_ASSOCIATIVE, UNMARKED, W, Z};
use duknavet::exchange::{print_rule_hoa, read};
use duknavet::files::Rule;
use duknavet::text::Names;
use duknavet::witness::{compare, Comparison};
use duknavet::{owned, RuleAutomaton, Strength};

/// What a written text says, taken line by line without the library's reader.
#[derive(Default)]
struct Written {
    initial: Vec<usize>,
    finals: Vec<bool>,
    /// From, letter, to.
    steps: Vec<(usize, u8, usize)>,
}

impl Written {
    fn of(text: &str) -> Written {
        let mut written = Written::default();
        let number = |word: &str| word.parse().expect("a number");
        for line in text.lines() {
            if let Some(state) = line.strip_prefix("Start: ") {
                written.initial.push(number(state));
            } else if let Some(state) = line.strip_prefix("State: ") {
                let own = state.split(' ').next().expect("a number");
                assert_eq!(number(own), written.finals.len(), "{text}");
                written.finals.push(state.ends_with(" {0}"));
            } else if let Some(step) = line.strip_prefix('[') {
                let (label, to) = step.split_once("] ").expect("a label and a state");
                let holding = label.split('&').filter(|own| !own.starts_with(['!', 't']));
                let letter = holding.map(|own| 1 << number(own)).sum();
                written
                    .steps
                    .push((written.finals.len() - 1, letter, number(to)));
            }
        }
        written
    }

    fn accepts(&self, u: &[u8], v: &[u8]) -> bool {
        let next = |state: usize, letter: u8| {
            let steps = self.steps.iter();
            let own = steps.filter(|(from, by, _)| (*from, *by) == (state, letter));
            own.map(|(_, _, to)| *to).collect()
        };
        runs::accepted(
            self.finals.len(),
            |state| self.initial.contains(&state),
            |state| self.finals[state],
            next,
            (u, v),
        )
    }
}

fn hoa(bytes: &[u8], least: u8) -> String {
    let automaton = RuleAutomaton::reached(bytes, least).expect("a rule");
    print_rule_hoa(&automaton, &Names::none())
}

#[test]
fn runs_against_member() {
    let mut random = Random::new(1401);
    let mut seen = [[0; 2]; 2];
    for round in 0..240 {
        let bytes = rule(&mut random, 7).bytes();
        let letters = Rule::take_apart(&bytes).expect("a rule").images.len();
        let least = random.within(1, 3) as u8;
        let text = hoa(&bytes, least);
        if round % 12 == 0 {
            let grade = least.to_string();
            let tool = run_with(&["convert", "--to", "hoa", "--least", &grade, "-"], &bytes);
            assert_eq!(tool.printed(0), text);
        }
        let written = Written::of(&text);
        let strong = owned::strong(&bytes) == Ok(Strength::Strong);
        for _ in 0..16 {
            let lengths = (random.below(4), random.within(1, 4));
            let (u, v) = (
                random.word(lengths.0, letters),
                random.word(lengths.1, letters),
            );
            let grade = owned::member(&bytes, &u, &v).expect("a lasso").grade;
            let expected = grade >= least;
            assert_eq!(
                written.accepts(&u, &v),
                expected,
                "{u:?}, then {v:?} for ever, least {least} of {bytes:?}"
            );
            seen[usize::from(strong)][usize::from(expected)] += 1;
        }
    }
    assert!(seen.as_flattened().iter().all(|own| *own > 150), "{seen:?}");
}

/// No state that is reached is useless, so that the reader leaves none out; and what it reads has just the lassos of the least grade or more.
#[test]
fn what_is_written_reads_back() {
    let mut random = Random::new(1402);
    let (mut strong, mut weak, mut larger) = (0, 0, 0);
    for _ in 0..400 {
        let bytes = rule(&mut random, 5).bytes();
        let least = random.within(1, 3) as u8;
        let automaton = RuleAutomaton::reached(&bytes, least).expect("a rule");
        let foreign =
            read(print_rule_hoa(&automaton, &Names::none()).as_bytes()).expect("what was written");
        assert_eq!(foreign.automaton.letters, automaton.letters);
        let states = automaton.states.len();
        assert_eq!(foreign.automaton.kinds.len(), states.max(1), "{bytes:?}");
        let Ok(back) = owned::automaton_rule(&foreign.automaton.bytes()) else {
            larger += 1;
            continue;
        };
        // The same lassos as one grade: that of automata.
        let mut level = Rule::take_apart(&bytes).expect("a rule");
        level.marks.retain(|mark| mark.grade >= least);
        level.marks.iter_mut().for_each(|mark| mark.grade = 3);
        match compare(&level.bytes(), &back).expect("two rules") {
            Comparison::EqualReductions(_) => strong += 1,
            Comparison::EqualGrades => weak += 1,
            other => panic!("{other:?} of {bytes:?}, least {least}"),
        }
    }
    assert!(
        strong > 100 && weak > 10 && larger > 20,
        "{strong} {weak} {larger}"
    );
}

#[test]
fn through_the_tool() {
    let written = run_with(&["convert", "--to", "hoa", "-"], W);
    let expected = "HOA: v1\nStates: 3\nStart: 0\nAP: 1 \"b0\"\n";
    let state = "State: 2 \"(none, 0)\" {0}\n[!0] 0\n[!0] 1\n[!0] 2\n[0] 0\n--END--\n";
    let text = written.printed(0);
    assert!(
        text.starts_with(expected) && text.ends_with(state),
        "{text}"
    );
    let named = run_with(&["convert", "--to", "hoa", "-"], NAMED.as_bytes());
    let letters = "duknavet-letters: 2 \"open\" \"shut\"\n";
    assert_eq!(named.printed(0).replace(letters, ""), text);
    let again = run_with(
        &["convert", "--to", "text", "-"],
        named.printed(0).as_bytes(),
    );
    assert!(again
        .printed(0)
        .contains("letters 2\n  open shut\ntransitions "));
    for (bytes, said) in [
        (W, "equal: both reduce to the same 2 elements\n"),
        (Z, "equal: neither grades a lasso higher\n"),
    ] {
        let own = Scrap::holding(bytes);
        let written = run(&["convert", "--to=hoa", own.name()]);
        let compared = run_with(&["compare", own.name(), "-"], written.printed(0).as_bytes());
        let by_number = format!(
            "{} names no letters, so they go by their numbers",
            own.name()
        );
        assert_eq!(compared.noted(0, &by_number), said);
    }
    // A lasso of grade 2 is accepted where the least grade is 2, and not where it is 3.
    for (least, grade) in [("1", 3), ("2", 3), ("3", 0)] {
        let written = run_with(&["convert", "--to=hoa", "--least", least, "-"], GRADED);
        let rule = run_with(&["automaton", "-"], written.printed(0).as_bytes());
        let rule = Scrap::holding(rule.printed(0).as_bytes());
        let member = run(&["member", rule.name(), "u: 0  v: 1"]);
        let printed = member.printed(i32::from(grade == 0));
        assert!(printed.starts_with(&format!("grade {grade} ")), "{printed}");
    }
}

#[test]
fn nothing_is_accepted_where_no_state_is_initial() {
    let written = run_with(&["convert", "--to", "hoa", "-"], UNMARKED);
    let text = written.printed(0);
    assert!(text.contains("States: 1\nStart: 0\n"), "{text}");
    assert!(text.ends_with("--BODY--\nState: 0\n--END--\n"), "{text}");
    let tolerable = [2, 0, 0, 0, 1, 2, 0, 1, 1, 0, 0, 0, 2];
    let above = run_with(&["convert", "--to=hoa", "--least=3", "-"], &tolerable);
    assert_eq!(above.printed(0), text);
    assert!(!Written::of(text).accepts(&[0], &[0, 1]));
    let own = Scrap::holding(UNMARKED);
    let compared = run_with(&["compare", own.name(), "-"], text.as_bytes());
    let by_number = format!(
        "{} names no letters, so they go by their numbers",
        own.name()
    );
    assert_eq!(
        compared.noted(0, &by_number),
        "equal: both reduce to the same 1 element\n"
    );
}

#[test]
fn refused() {
    let asked = |words: &[&str], bytes: &[u8]| {
        run_with(&[&["convert", "-", "--to", "hoa"], words].concat(), bytes)
    };
    asked(&[], NOT_ASSOCIATIVE).said(2, "standard input: (0·0)·1 = 0 but 0·(0·1) = 1 (refusal 5");
    asked(&["--as", "rule"], &W[..12]).said(2, "within the marks: 2 of 3 bytes are there");
    asked(&["--as", "automaton"], &W[..12]).said(2, "refusal 2");
    let words = "the least grade is 4, not 1 to 3 (refusal 3, input 1, place 0)";
    asked(&["--least", "4"], W).said(2, &format!("standard input: {words}"));
    asked(&["--least", "4"], NAMED.as_bytes()).said(2, &format!("standard input: {words}"));
    let placed = NAMED.replace("0 0 proper", "1 0 proper");
    let words = "standard input: line 10, column 3: mark 0, the pair (1, 0), is not linked";
    asked(&[], placed.as_bytes()).said(2, words);
    asked(&["--as", "marks"], &[0, 0]).said(3, "only automata and rules have the Hanoi format");
    let only = "`--least` is for a rule with `--to hoa`";
    asked(&["--least", "2"], crate::samples::AUTOMATON).said(3, only);
    run_with(&["convert", "-", "--least", "2"], W).said(3, only);
    run_with(&["convert", "-", "--least", "2"], b"u: 0 v: 1").said(3, only);
}
