//! The automaton of a rule, a state's kind and its successors.

use super::{lengths, Comparison};
use crate::definitions::checks::Refusal;
use crate::definitions::rule::Morphism;
use crate::definitions::rule_automaton;
use crate::subject::Subject;
use duknavet::{SCRATCH, SUCCESSORS_OUT};

pub const KIND_SIZES: [usize; 1] = [SCRATCH];
pub const SUCCESSORS_SIZES: [usize; 2] = [SUCCESSORS_OUT, SCRATCH];

impl Comparison {
    /// The kind of a state, 0 to 2, if nothing was refused.
    pub fn state_kind(
        &mut self,
        subject: &Subject,
        (s, e): (usize, usize),
        least: u8,
        sizes: [usize; 1],
    ) -> Option<u8> {
        let [mut scratch] = self.lend(sizes);
        let answer = duknavet::state_kind(&subject.bytes, s, e, least, scratch.slice());
        let expected = || -> Result<u8, Refusal> {
            lengths(sizes, KIND_SIZES)?;
            let known = subject.read.as_ref().map_err(|refusal| *refusal)?;
            if !(1..=3).contains(&least) {
                return Err((3, 1, 0));
            }
            state(known.morphism(), s, e)?;
            Ok(rule_automaton::kind(&known.marking, s, e, least))
        };
        let expected = expected();
        if let (Ok(known), Err((3, ..))) = (&subject.read, &expected) {
            let outcome = match rule_automaton::is_state(known.morphism(), s, e) {
                true => "a least grade refused",
                false => "3 before 17",
            };
            self.tally.count("state_kind", outcome);
        }
        let inputs: [&[u8]; 1] = [&subject.bytes];
        let found = self.agreed("state_kind", &inputs, answer, expected, (&[], &scratch));
        let (answer, expected) = found?;
        assert_eq!(answer as u8, expected, "kind of ({s}, {e}) of {inputs:?}");
        let outcome = ["plain", "initial", "final"][expected as usize];
        self.tally.count("state_kind", outcome);
        Some(expected)
    }

    /// The states that a letter leads to, if nothing was refused.
    pub fn successors(
        &mut self,
        subject: &Subject,
        (s, e): (usize, usize),
        letter: u8,
        sizes: [usize; 2],
    ) -> Option<Vec<u8>> {
        let [mut out, mut scratch] = self.lend(sizes);
        let answer =
            duknavet::successors(&subject.bytes, s, e, letter, out.slice(), scratch.slice());
        let expected = || -> Result<Vec<u8>, Refusal> {
            lengths(sizes, SUCCESSORS_SIZES)?;
            let known = subject.read.as_ref().map_err(|refusal| *refusal)?;
            state(known.morphism(), s, e)?;
            if letter as usize >= known.morphism().letters() {
                return Err((10, 1, 0));
            }
            Ok(rule_automaton::successors(known.morphism(), s, e, letter))
        };
        let inputs: [&[u8]; 1] = [&subject.bytes];
        let found = self.agreed(
            "successors",
            &inputs,
            answer,
            expected(),
            (&[&out], &scratch),
        );
        let (answer, expected) = found?;
        assert_eq!(
            out.written(answer.count),
            expected,
            "from ({s}, {e}) by {letter} of {inputs:?}"
        );
        let outcome = match expected.len() {
            0 => "none",
            1 => "one",
            _ => "two or more",
        };
        self.tally.count("successors", outcome);
        Some(expected)
    }
}

/// Check 17.
fn state(m: &Morphism, s: usize, e: usize) -> Result<(), Refusal> {
    match rule_automaton::is_state(m, s, e) {
        true => Ok(()),
        false => Err((17, 1, 0)),
    }
}
