//! The rules of temporal formulas, byte for byte, and the grades of some lassos by their endless words.

use super::combinations::half;
use super::{lengths, Comparison};
use crate::definitions::acceptance::grade;
use crate::definitions::checks::{self, Refusal};
use crate::definitions::rule::Rule;
use crate::definitions::temporal::{self, TooMany};
use crate::lending::Lent;
use crate::subject::Subject;
use duknavet::{Formed, Refused, RULE_OUT, SCRATCH, UNTIL_CLASSES};

pub const NEXT_SIZES: [usize; 2] = [RULE_OUT, SCRATCH];
pub const UNTIL_SIZES: [usize; 3] = [RULE_OUT, UNTIL_CLASSES, SCRATCH];

/// Three numbers of a rule of a first letter.
#[derive(Clone, Copy, Debug)]
pub struct Numbers {
    pub letters: usize,
    pub set: usize,
    pub grade: usize,
}

impl Comparison {
    pub fn first_letter(&mut self, numbers: Numbers, size: usize) {
        let Numbers {
            letters,
            set,
            grade,
        } = numbers;
        let [mut out] = self.lend([size]);
        let answer = duknavet::first_letter(letters, set, grade, out.slice());
        let foreign = (letters..64).find(|a| set >> a & 1 == 1);
        let expected = ranges(size, letters, grade).and_then(|()| match foreign {
            Some(foreign) => Err((10, 1, foreign as u64)),
            None => Ok(temporal::first_letter(letters, set, grade as u8)),
        });
        let of = |u: &[u8], v: &[u8]| temporal::first_letter_grade(set, grade.min(3) as u8, u, v);
        self.made_of_numbers("first_letter", numbers, &out, (answer, expected), of);
    }

    pub fn constant(&mut self, numbers: Numbers, size: usize) {
        let Numbers { letters, grade, .. } = numbers;
        let [mut out] = self.lend([size]);
        let answer = duknavet::constant(letters, grade, out.slice());
        let expected = ranges(size, letters, grade);
        let expected = expected.map(|()| temporal::constant(letters, grade as u8));
        let of = |_: &[u8], _: &[u8]| grade as u8;
        self.made_of_numbers("constant", numbers, &out, (answer, expected), of);
    }

    /// A call without a scratch.
    fn made_of_numbers(
        &mut self,
        call: &str,
        numbers: Numbers,
        out: &Lent,
        (answer, expected): (Result<Formed, Refused>, Result<Rule, Refusal>),
        of: impl Fn(&[u8], &[u8]) -> u8,
    ) {
        match (answer, expected) {
            (Ok(answer), Ok(expected)) => {
                let written = out.written(answer.length).to_vec();
                assert_eq!(written, expected.bytes(), "{call} of {numbers:?}");
                self.grades(call, &written, of);
            }
            (Err(refused), Err(expected)) => {
                let found = (refused.refusal.number(), refused.input, refused.place);
                assert_eq!(found, expected, "{call} of {numbers:?}");
                out.kept();
                self.tally
                    .count(call, crate::tally::refusal(found.0, found.1));
            }
            (answer, expected) => {
                panic!("{call} of {numbers:?}: {answer:?}, expected {expected:?}")
            }
        }
    }

    pub fn next(&mut self, rule: &Subject, sizes: [usize; 2]) -> Option<Vec<u8>> {
        let [mut out, mut scratch] = self.lend(sizes);
        let answer = duknavet::next(&rule.bytes, out.slice(), scratch.slice());
        let expected = lengths(sizes, NEXT_SIZES).and_then(|()| self.expected_next(rule));
        let inputs: [&[u8]; 1] = [&rule.bytes];
        let found = self.agreed("next", &inputs, answer, expected, (&[&out], &scratch));
        let (answer, expected) = found?;
        let written = out.written(answer.length).to_vec();
        assert_eq!(written, expected.bytes(), "next of {inputs:?}");
        let known = rule.known();
        let of = |u: &[u8], v: &[u8]| temporal::next_grade(&half(known), u, v);
        for (u, v) in self.grades("next", &written, of) {
            if of(&u, &v) != grade(known.morphism(), &known.marking, &u, &v) {
                self.tally.count("next", "another grade than the rule");
            }
        }
        Some(written)
    }

    fn expected_next(&mut self, rule: &Subject) -> Result<Rule, Refusal> {
        let known = rule.read.as_ref().map_err(|refusal| *refusal)?;
        if !self.settled(rule) {
            return Err((12, 1, 0));
        }
        temporal::next(&half(known)).ok_or((23, 1, 0))
    }

    pub fn until(
        &mut self,
        (first, second): (&Subject, &Subject),
        sizes: [usize; 3],
    ) -> Option<Vec<u8>> {
        let [mut out, mut classes, mut scratch] = self.lend(sizes);
        let (one, two) = (&first.bytes, &second.bytes);
        let (lent, scratch_lent) = (classes.slice(), scratch.slice());
        let answer = duknavet::until(one, two, out.slice(), lent, scratch_lent);
        let expected = lengths(sizes, UNTIL_SIZES);
        let expected = expected.and_then(|()| self.expected_until(first, second));
        match expected {
            Err((13, ..)) => classes.kept(),
            _ => classes.zeroed(),
        }
        let inputs: [&[u8]; 2] = [one, two];
        let found = self.agreed("until", &inputs, answer, expected, (&[&out], &scratch));
        let (answer, expected) = found?;
        let written = out.written(answer.length).to_vec();
        assert_eq!(written, expected.bytes(), "until of {inputs:?}");
        let (one, two) = (half(first.known()), half(second.known()));
        let of = |u: &[u8], v: &[u8]| temporal::until_grade(&one, &two, u, v);
        for (u, v) in self.grades("until", &written, of) {
            let own = of(&u, &v);
            let grades = [&one, &two].map(|rule| grade(rule.morphism, rule.marking, &u, &v));
            let others = [
                (own != grades[0], "another grade than the first"),
                (own != grades[1], "another grade than the second"),
                (!grades.contains(&own), "another grade than both rules"),
            ];
            for (_, outcome) in others.into_iter().filter(|(differs, _)| *differs) {
                self.tally.count("until", outcome);
            }
        }
        if expected.morphism.n > 16 {
            self.tally.count("until", "17 elements or more");
        }
        Some(written)
    }

    fn expected_until(&mut self, first: &Subject, second: &Subject) -> Result<Rule, Refusal> {
        let one = first.read.as_ref().map_err(|refusal| *refusal)?;
        let two = second.read.as_ref();
        let two = two.map_err(|(number, _, place)| (*number, 2, *place))?;
        if one.morphism().letters() != two.morphism().letters() {
            return Err((18, 1, 0));
        }
        for (subject, input) in [(first, 1), (second, 2)] {
            if !self.settled(subject) {
                return Err((12, input, 0));
            }
        }
        temporal::until(&half(one), &half(two)).map_err(|too_many| match too_many {
            TooMany::Pairs => (19, 1, 0),
            TooMany::Classes => (23, 1, 0),
        })
    }

    /// Some lassos have their grade by the rule that was written; these lassos.
    fn grades(
        &mut self,
        call: &str,
        written: &[u8],
        of: impl Fn(&[u8], &[u8]) -> u8,
    ) -> Vec<(Vec<u8>, Vec<u8>)> {
        assert!(checks::rule(written).is_ok(), "a rule file");
        let rule = Subject::new(written.to_vec());
        let rule = rule.known();
        let letters = rule.morphism().letters();
        let mut lassos = Vec::new();
        for _ in 0..4 {
            let lengths = (self.random.below(6), self.random.within(1, 6));
            let u = self.random.word(lengths.0, letters);
            let v = self.random.word(lengths.1, letters);
            let found = grade(rule.morphism(), &rule.marking, &u, &v);
            assert_eq!(found, of(&u, &v), "{call} of {u:?} {v:?}: {written:?}");
            lassos.push((u, v));
        }
        self.tally.count(call, "written");
        lassos
    }
}

/// 13, 2 and 3 of the numbers.
fn ranges(size: usize, letters: usize, grade: usize) -> Result<(), Refusal> {
    lengths([size], [RULE_OUT])?;
    if !(1..=16).contains(&letters) {
        return Err((2, 1, 0));
    }
    if grade > 3 {
        return Err((3, 1, 0));
    }
    Ok(())
}
