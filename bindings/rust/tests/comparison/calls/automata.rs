//! Automata to rules.

use super::{lengths, Comparison};
use crate::definitions::acceptance::{grade, Marking};
use crate::definitions::checks::{self, Automaton, Refusal};
use crate::definitions::rule::{Mark, Rule};
use duknavet::{RULE_OUT, SCRATCH};

pub const AUTOMATON_SIZES: [usize; 2] = [RULE_OUT, SCRATCH];

impl Comparison {
    /// The rule that was made, if one was.
    pub fn automaton_rule(&mut self, bytes: &[u8], sizes: [usize; 2]) -> Option<Vec<u8>> {
        let [mut out, mut scratch] = self.lend(sizes);
        let answer = duknavet::automaton_rule(bytes, out.slice(), scratch.slice());
        let read = || -> Result<_, Refusal> {
            lengths(sizes, AUTOMATON_SIZES)?;
            let automaton = checks::automaton(bytes)?;
            let matrices = automaton.matrices().ok_or((14, 1, 0))?;
            Ok((automaton, matrices.len()))
        };
        let found = self.agreed(
            "automaton_rule",
            &[bytes],
            answer,
            read(),
            (&[&out], &scratch),
        );
        let (answer, (automaton, count)) = found?;
        let written = out.written(answer.length).to_vec();
        let rule = checks::rule(&written).expect("a rule file");
        let ordered = self.ordered("automaton_rule", &rule, true);
        if let Err(fault) = compare(&automaton, count, &rule).and(ordered) {
            panic!("rule of the automaton {bytes:?}: {fault}");
        }
        self.translate_backwards(&automaton, &written);
        self.runs(&automaton, &rule);
        self.tally.count("automaton_rule", "written");
        if count == 64 {
            self.tally.count("automaton_rule", "64 matrices");
        }
        if automaton.states() == 2 {
            self.tally.count("automaton_rule", "two states");
        }
        Some(written)
    }

    /// The same automaton, with other numbers for its states and its transitions in another order, has the same bytes for its rule.
    fn translate_backwards(&mut self, automaton: &Automaton, written: &[u8]) {
        let last = automaton.states() as u8 - 1;
        let transitions = automaton.transitions.iter().rev();
        let other = Automaton {
            kinds: automaton.kinds.iter().rev().copied().collect(),
            letters: automaton.letters,
            transitions: transitions
                .map(|(p, a, q)| (last - p, *a, last - q))
                .collect(),
        };
        let bytes = other.bytes();
        let (mut out, mut scratch) = (vec![0; RULE_OUT], vec![0; SCRATCH]);
        let answer = duknavet::automaton_rule(&bytes, &mut out, &mut scratch);
        let length = answer.expect("as few matrices").length;
        assert_eq!(&out[..length], written, "rule of the automaton {bytes:?}");
        self.tally
            .count("automaton_rule", "the same from another numbering");
    }

    /// Of some lassos those on which the automaton has a run have grade 3 by the rule, and the others grade 0.
    fn runs(&mut self, automaton: &Automaton, rule: &Rule) {
        let marking = Marking::new(rule.morphism.n, &rule.marks);
        for _ in 0..6 {
            let lengths = (self.random.within(0, 5), self.random.within(1, 7));
            let u = self.random.word(lengths.0, automaton.letters);
            let v = self.random.word(lengths.1, automaton.letters);
            let accepted = automaton.accepts(&u, &v);
            let found = grade(&rule.morphism, &marking, &u, &v);
            let expected = if accepted { 3 } else { 0 };
            assert_eq!(found, expected, "{u:?} {v:?} of {:?}", automaton.bytes());
            let outcome = if accepted {
                "a run on a lasso"
            } else {
                "no run on a lasso"
            };
            self.tally.count("automaton_rule", outcome);
        }
    }
}

/// The rule's elements are the matrices, in some numbering, and its marks are the linked pairs that are to be marked, with grade 3, by s,
/// then by e.
fn compare(automaton: &Automaton, count: usize, rule: &Rule) -> Result<(), String> {
    let m = &rule.morphism;
    if m.letters() != automaton.letters || m.n != count {
        return Err(format!(
            "{} elements, {} letters; {count} matrices",
            m.n,
            m.letters()
        ));
    }
    let words: Vec<Vec<u8>> = m.words().into_iter().flatten().collect();
    let matrices: Vec<_> = words.iter().map(|word| automaton.matrix(word)).collect();
    for a in 0..automaton.letters as u8 {
        if automaton.matrix(&[a]) != matrices[m.images[a as usize] as usize] {
            return Err(format!("letter {a} has not the matrix of its element"));
        }
    }
    for (s, word) in words.iter().enumerate() {
        for a in 0..automaton.letters as u8 {
            let longer = [&word[..], &[a]].concat();
            let product = m.product(s as u8, m.images[a as usize]) as usize;
            if automaton.matrix(&longer) != matrices[product] {
                return Err(format!(
                    "the word {longer:?} has not the matrix of element {product}"
                ));
            }
        }
    }
    // The elements' matrices are as many as all matrices; if they are distinct, they are all.
    let repeated = |s: usize| matrices[..s].contains(&matrices[s]);
    if (0..m.n).any(repeated) {
        return Err("two elements have one matrix".to_string());
    }
    let marks = &rule.marks;
    let mut pairs = m.linked_pairs();
    pairs.retain(|(s, e)| automaton.marks(&matrices[*s as usize], &matrices[*e as usize]));
    let marked = pairs.into_iter().map(|pair| Mark { pair, grade: 3 });
    let expected: Vec<Mark> = marked.collect();
    match *marks == expected {
        true => Ok(()),
        false => Err(format!("marks {marks:?}, expected {expected:?}")),
    }
}
