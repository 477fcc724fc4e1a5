//! Reductions that were made elsewhere: yes or no, by each condition of the definition.

use super::markings::outcomes;
use super::{lengths, Comparison};
use crate::definitions::acceptance::grade;
use crate::definitions::checks::Refusal;
use crate::definitions::confirmed::{self, Fault};
use crate::subject::{Known, Subject};
use duknavet::{Confirmation, SCRATCH};

pub const CONFIRM_SIZES: [usize; 1] = [SCRATCH];

/// Up to how many elements every lasso of two values' words is graded by both rules.
const EVERY_LASSO: usize = 14;

impl Comparison {
    /// Whether the second rule is the first reduced by the map, if nothing was refused.
    pub fn confirm(
        &mut self,
        (first, second): (&Subject, &Subject),
        map: &[u8],
        sizes: [usize; 1],
    ) -> Option<bool> {
        let [mut scratch] = self.lend(sizes);
        let answer = duknavet::confirm(&first.bytes, &second.bytes, map, scratch.slice());
        let expected = lengths(sizes, CONFIRM_SIZES);
        let expected = expected.and_then(|()| self.confirm_faults(first, second, map));
        let inputs: [&[u8]; 3] = [&first.bytes, &second.bytes, map];
        let enough = sizes >= CONFIRM_SIZES;
        if enough && second.read.is_err() && first.read.is_ok() && !self.settled(first) {
            self.tally
                .count("confirm", "the second file before 12 for the first");
        }
        let found = self.agreed("confirm", &inputs, answer, expected, (&[], &scratch));
        let (answer, faults) = found?;
        let yes = faults.is_empty();
        assert_eq!(
            answer == Confirmation::Yes,
            yes,
            "confirm of {inputs:?}: {faults:?}"
        );
        if yes {
            self.any_lassos(first.known(), second.known());
        }
        let outcome = match faults[..] {
            [] => "yes".to_string(),
            [fault] => format!("no by {fault:?} alone"),
            [fault, ..] => format!("no by {fault:?}"),
        };
        self.tally.count("confirm", outcome);
        if yes && first.known().morphism().n == 64 {
            self.tally.count("confirm", "yes to 64 elements");
        }
        Some(yes)
    }

    /// The conditions that do not hold, or the refusal that comes before any of them.
    fn confirm_faults(
        &mut self,
        first: &Subject,
        second: &Subject,
        map: &[u8],
    ) -> Result<Vec<Fault>, Refusal> {
        let one = first.read.as_ref().map_err(|refusal| *refusal)?;
        let two = second.read.as_ref();
        let two = two.map_err(|(number, _, place)| (*number, 2, *place))?;
        if !self.settled(first) {
            return Err((12, 1, 0));
        }
        let (m, r) = (one.morphism(), two.morphism());
        let mut faults = confirmed::of_map(m, r, map);
        if !self.settled(second) {
            faults.push(Fault::Weak);
            return Ok(faults);
        }
        let (own, other) = (outcomes(one), outcomes(two));
        // Lassos have grades by both rules only over the same letters, and values that go to none have no grade to compare.
        let beside = [Fault::Letters, Fault::Outside];
        if !beside.iter().any(|fault| faults.contains(fault)) {
            let carried = faults.iter().all(|fault| *fault == Fault::Length);
            let same = confirmed::same_grades((m.n, own), (r.n, other), map);
            let by_lassos = one.words.len() <= EVERY_LASSO && differ(one, two);
            // Only a map that carries words' values over says which values a lasso has by the second rule.
            if carried && one.words.len() <= EVERY_LASSO {
                assert_eq!(same, !by_lassos, "the definitions disagree");
                self.tally
                    .count("confirm", "grades by values and by lassos");
            }
            if by_lassos || carried && !same {
                faults.push(Fault::Grades);
            }
        }
        if !confirmed::smallest(r, other) {
            faults.push(Fault::Size);
        }
        Ok(faults)
    }

    /// Some lassos have one grade by both rules, without a start too.
    fn any_lassos(&mut self, one: &Known, two: &Known) {
        let letters = one.morphism().letters();
        for _ in 0..3 {
            let lengths = (self.random.below(6), self.random.within(1, 8));
            let u = self.random.word(lengths.0, letters);
            let v = self.random.word(lengths.1, letters);
            let [own, other] =
                [one, two].map(|known| grade(known.morphism(), &known.marking, &u, &v));
            assert_eq!(own, other, "grades of {u:?} {v:?} by {:?}", one.rule);
        }
    }
}

/// Whether a lasso of words for two values of the first rule, or of one word for ever, has two grades.
fn differ(one: &Known, two: &Known) -> bool {
    let grades = |u: &[u8], v: &[u8]| {
        let [own, other] = [one, two].map(|known| grade(known.morphism(), &known.marking, u, v));
        own != other
    };
    let starts = || one.words.iter().map(Vec::as_slice).chain([&[][..]]);
    one.words.iter().any(|v| starts().any(|u| grades(u, v)))
}
