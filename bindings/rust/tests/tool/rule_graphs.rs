//! Rules' automata as DOT: what runs along the written edges accept, against the call `member`.

use crate::definitions::runs;
use crate::program::run_with;
use crate::random::Random;
use crate::samples::{rule, AUTOMATON, NAMED, NOT_ASSOCIATIVE, UNMARKED};
use duknavet::exchange::print_rule_dot;
use duknavet::files::Rule;
use duknavet::text::Names;
use duknavet::{owned, RuleAutomaton};

/// What a written graph says, taken line by line.
#[derive(Default)]
struct Written {
    initial: Vec<usize>,
    finals: Vec<bool>,
    steps: Vec<(usize, u8, usize)>,
}

impl Written {
    fn of(text: &str) -> Written {
        let mut written = Written::default();
        for line in text.lines().filter_map(|line| line.strip_prefix("  ")) {
            let words: Vec<&str> = line.split([' ', ';']).collect();
            let number = |word: &str| word.parse().expect("a number");
            match words[..] {
                ["rankdir=LR", ..] | ["node", ..] | [_, "[shape=point]", ..] => {}
                [_, "->", to, ""] => written.initial.push(number(to)),
                [from, "->", to, ..] => {
                    let label = line.split('"').nth(1).expect("letters");
                    for letter in label.split(", ") {
                        let letter = letter.parse().expect("a letter");
                        written.steps.push((number(from), letter, number(to)));
                    }
                }
                [state, ..] => {
                    assert_eq!(number(state), written.finals.len(), "{text}");
                    written.finals.push(line.ends_with(" shape=doublecircle];"));
                }
                [] => panic!("{text}"),
            }
        }
        written
    }

    fn accepts(&self, u: &[u8], v: &[u8]) -> bool {
        let next = |state: usize, letter: u8| {
            let steps = self.steps.iter();
            let own = steps.filter(|(from, by, _)| (*from, *by) == (state, letter));
            own.map(|(_, _, to)| *to).collect()
        };
        runs::accepted(
            self.finals.len(),
            |state| self.initial.contains(&state),
            |state| self.finals[state],
            next,
            (u, v),
        )
    }
}

#[test]
fn runs_against_member() {
    let mut random = Random::new(4708);
    let mut seen = [0; 2];
    for _ in 0..150 {
        let bytes = rule(&mut random, 7).bytes();
        let letters = Rule::take_apart(&bytes).expect("a rule").images.len();
        let least = random.within(1, 3) as u8;
        let automaton = RuleAutomaton::reached(&bytes, least).expect("a rule");
        let written = Written::of(&print_rule_dot(&automaton, &Names::none()));
        assert_eq!(written.finals.len(), automaton.states.len());
        for _ in 0..16 {
            let lengths = (random.below(4), random.within(1, 4));
            let u = random.word(lengths.0, letters);
            let v = random.word(lengths.1, letters);
            let grade = owned::member(&bytes, &u, &v).expect("a lasso").grade;
            assert_eq!(
                written.accepts(&u, &v),
                grade >= least,
                "{u:?} {v:?} of {bytes:?}"
            );
            seen[usize::from(grade >= least)] += 1;
        }
    }
    assert!(seen.iter().all(|own| *own > 300), "{seen:?}");
}

#[test]
fn written_and_refused() {
    let asked = |words: &[&str], bytes: &[u8]| {
        let words = [&["convert", "--to", "dot", "-"], words].concat();
        run_with(&words, bytes)
    };
    let named = asked(&[], NAMED.as_bytes());
    let named = named.printed(0);
    for line in [
        "  0 [label=\"(0, 0)\"];\n  in0 [shape=point];\n  in0 -> 0;\n",
        "  2 [label=\"(none, 0)\" shape=doublecircle];\n",
        "  0 -> 0 [label=\"open, shut\"];\n  0 -> 1 [label=\"open\"];\n",
    ] {
        assert!(named.contains(line), "{named}");
    }
    let quoted = NAMED.replace("open 0", "\"o \\\"\\\\ n\" 0");
    let quoted = asked(&[], quoted.as_bytes());
    let label = "[label=\"\\\"o \\\\\\\"\\\\\\\\ n\\\"\"]";
    assert!(quoted.printed(0).contains(label), "{}", quoted.text());
    let nothing = "digraph {\n  rankdir=LR;\n  node [shape=circle];\n}\n";
    assert_eq!(asked(&["--least", "3"], UNMARKED).printed(0), nothing);
    asked(&[], NOT_ASSOCIATIVE).said(2, "refusal 5");
    asked(&["--as", "automaton"], AUTOMATON).said(3, "only a rule's own automaton");
}
