//! Two rules made one, byte for byte.

use super::{lengths, Comparison};
use crate::definitions::acceptance::grade;
use crate::definitions::checks::{self, Refusal};
use crate::definitions::combined::{combined, grade_of, Half};
use crate::definitions::rule::Rule;
use crate::subject::{Known, Subject};
use duknavet::{Operation, RULE_OUT, SCRATCH};

pub const COMBINE_SIZES: [usize; 2] = [RULE_OUT, SCRATCH];

impl Comparison {
    /// The rule that was written, if nothing was refused.
    pub fn combine(
        &mut self,
        (first, second): (&Subject, &Subject),
        operation: Operation,
        sizes: [usize; 2],
    ) -> Option<Vec<u8>> {
        let [mut out, mut scratch] = self.lend(sizes);
        let (one, two) = (&first.bytes, &second.bytes);
        let answer = duknavet::combine(one, two, operation, out.slice(), scratch.slice());
        let expected = lengths(sizes, COMBINE_SIZES);
        let expected = expected.and_then(|()| self.expected(first, second, operation));
        let inputs: [&[u8]; 2] = [one, two];
        let found = self.agreed("combine", &inputs, answer, expected, (&[&out], &scratch));
        let (answer, expected) = found?;
        let written = out.written(answer.length).to_vec();
        assert_eq!(written, expected.bytes(), "{operation:?} of {inputs:?}");
        self.lassos((first.known(), second.known()), operation, &written);
        self.tally.count("combine", format!("{operation:?}"));
        if expected.morphism.n == 64 {
            self.tally.count("combine", "64 pairs");
        }
        Some(written)
    }

    fn expected(
        &mut self,
        first: &Subject,
        second: &Subject,
        operation: Operation,
    ) -> Result<Rule, Refusal> {
        let one = first.read.as_ref().map_err(|refusal| *refusal)?;
        let two = second.read.as_ref();
        let two = two.map_err(|(number, _, place)| (*number, 2, *place))?;
        if one.morphism().letters() != two.morphism().letters() {
            return Err((18, 1, 0));
        }
        for (subject, input) in [(first, 1), (second, 2)] {
            if !self.settled(subject) {
                return Err((12, input, 0));
            }
        }
        combined(&half(one), &half(two), operation).ok_or((19, 1, 0))
    }

    /// Some lassos have the combined grade by the rule that was written.
    fn lassos(&mut self, (one, two): (&Known, &Known), operation: Operation, written: &[u8]) {
        let rule = Subject::new(written.to_vec());
        let rule = rule.known();
        let letters = one.morphism().letters();
        for _ in 0..3 {
            let lengths = (self.random.below(6), self.random.within(1, 6));
            let u = self.random.word(lengths.0, letters);
            let v = self.random.word(lengths.1, letters);
            let of = |known: &Known| grade(known.morphism(), &known.marking, &u, &v);
            let expected = grade_of(operation, of(one), of(two));
            assert_eq!(of(rule), expected, "{operation:?} of {u:?} {v:?}");
        }
        assert!(checks::rule(written).is_ok(), "a rule file");
    }
}

pub fn half(known: &Known) -> Half<'_> {
    Half {
        morphism: known.morphism(),
        marking: &known.marking,
    }
}
