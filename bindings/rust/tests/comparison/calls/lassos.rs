//! The grade of a lasso.

use super::{lengths, Comparison};
use crate::definitions::acceptance::{accepts_literally, grade, grade_literally};
use crate::definitions::checks::{self, Refusal};
use crate::definitions::rule::GRADES;
use crate::definitions::settling::turns;
use crate::subject::Subject;
use duknavet::{Stretch, SCRATCH, WORD};

pub const MEMBER_SIZES: [usize; 1] = [SCRATCH];

impl Comparison {
    /// What is left to read at a position, by the letters of the endless word from there to the end of its part.
    pub fn stretch(&mut self, u: &[u8], v: &[u8], position: usize) {
        let fits = (0..=WORD).contains(&u.len()) && (1..=WORD).contains(&v.len());
        let (expected, outcome) = match (fits, position < u.len()) {
            (false, _) => ((1, 0, 0), "nothing left"),
            (true, true) => ((1, position, u.len() - position), "of u"),
            (true, false) => {
                let turns = (position - u.len()) / v.len();
                let from = position - u.len() - turns * v.len();
                ((2, from, v.len() - from), "of v")
            }
        };
        let found = match duknavet::stretch(u, v, position) {
            Stretch::Start { from, letters } => (1, from, letters),
            Stretch::Cycle { from, letters } => (2, from, letters),
        };
        assert_eq!(found, expected, "{position} of {u:?}, then {v:?}");
        self.tally.count("stretch", outcome);
    }

    pub fn member(&mut self, subject: &Subject, u: &[u8], v: &[u8], sizes: [usize; 1]) {
        let position = self.random.within(0, 2 * (u.len() + v.len()) + 3);
        self.stretch(u, v, position);
        let [mut scratch] = self.lend(sizes);
        let answer = duknavet::member(&subject.bytes, u, v, scratch.slice());
        let read = || -> Result<_, Refusal> {
            lengths(sizes, MEMBER_SIZES)?;
            let known = subject.read.as_ref().map_err(|refusal| *refusal)?;
            checks::lasso(known.morphism(), u, v)?;
            Ok(grade(known.morphism(), &known.marking, u, v))
        };
        let inputs: [&[u8]; 3] = [&subject.bytes, u, v];
        let found = self.agreed("member", &inputs, answer, read(), (&[], &scratch));
        let Some((answer, expected)) = found else {
            return;
        };
        let known = subject.known();
        let (m, marking) = (known.morphism(), &known.marking);
        if m.n * v.len() <= 12 && u.len() <= 4 {
            let literally = grade_literally(m, marking, u, v);
            assert_eq!(
                literally, expected,
                "the definitions disagree on {inputs:?}"
            );
            for least in GRADES {
                let accepted = accepts_literally(m, marking.level(least), u, v);
                assert_eq!(
                    accepted,
                    least <= expected,
                    "the definitions disagree on {inputs:?} at {least}"
                );
            }
            self.tally
                .count("member", "every writing tried letter by letter");
        }
        let found = (answer.grade, answer.turns);
        assert_eq!(found, (expected, turns(m, v)), "grade of {inputs:?}");
        self.count_graded("member", found);
        if known.strong.get() == Some(&false) {
            self.count_graded("member of weak", found);
        }
        if u.is_empty() {
            self.tally.count("member", "no letter in u");
        }
        if u.len() == 4_224 || v.len() == 4_224 {
            self.tally.count("member", "a word of 4224 letters");
        }
    }
}
