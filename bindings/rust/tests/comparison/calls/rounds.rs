//! Reduction by rounds: the blocks of the round that the limit allows, and at the end the syntactic classes.

use super::markings::outcomes;
use super::{lengths, Comparison};
use crate::definitions::checks::Refusal;
use crate::definitions::contexts;
use crate::definitions::rounds;
use crate::subject::Subject;
use duknavet::{BLOCKS, MOST_ROUNDS, SCRATCH};

pub const ROUNDS_SIZES: [usize; 2] = [BLOCKS, SCRATCH];

impl Comparison {
    /// How many rounds were done, and whether they are finished, if nothing was refused.
    pub fn reduce_rounds(
        &mut self,
        subject: &Subject,
        limit: usize,
        sizes: [usize; 2],
    ) -> Option<(usize, bool)> {
        let call = "reduce_rounds";
        let [mut blocks, mut scratch] = self.lend(sizes);
        let answer =
            duknavet::reduce_rounds(&subject.bytes, limit, blocks.slice(), scratch.slice());
        let expected = lengths(sizes, ROUNDS_SIZES).and_then(|()| {
            subject.read.as_ref().map_err(|refusal| *refusal)?;
            within_range(limit)?;
            self.asked_strong(subject).map(|_| ())
        });
        let inputs: [&[u8]; 1] = [&subject.bytes];
        let found = self.agreed(call, &inputs, answer, expected, (&[&blocks], &scratch));
        let (answer, ()) = found?;
        let (m, outcomes) = (subject.known().morphism(), outcomes(subject.known()));
        let (together, rounds, finished) = rounds::within(m, outcomes, limit);
        assert_eq!(
            (answer.rounds, answer.finished),
            (rounds, finished),
            "{call} of {inputs:?} within {limit}"
        );
        assert_eq!(
            blocks.written(m.n),
            together.least(m),
            "{call} of {inputs:?} within {limit}"
        );
        if finished {
            // the blocks are then the classes of elements that no context tells apart
            let (class, _) = contexts::classes(m, outcomes);
            for (s, t) in m.elements().flat_map(|s| m.elements().map(move |t| (s, t))) {
                let same = class[s as usize] == class[t as usize];
                assert_eq!(together.holds(m, s, t), same, "{s} and {t} of {inputs:?}");
            }
        }
        let outcome = match (finished, rounds) {
            (false, _) => "not finished".to_string(),
            (true, 0 | 1) => format!("finished in {rounds}"),
            (true, 2..=9) => "finished in 2 to 9".to_string(),
            (true, _) => "finished in 10 or more".to_string(),
        };
        self.tally.count(call, outcome);
        if finished && rounds == limit {
            self.tally.count(call, "finished at the limit");
        }
        Some((rounds, finished))
    }
}

/// Check 20, after those of the rule and before 12.
fn within_range(limit: usize) -> Result<(), Refusal> {
    match limit > MOST_ROUNDS {
        true => Err((20, 1, 0)),
        false => Ok(()),
    }
}
