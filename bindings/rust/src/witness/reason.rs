//! Why a lasso has its grade: the mark that accepts it with the writing that has its values, and that no mark of a higher grade does.
//!
//! What is found is asked again of the calls: the values of words of `feed`, and of `member` with the rule's table and other marks that the
//! mark accepts the lasso, that the marks of each higher grade do not, and that of all linked pairs just those listed accept it.

use super::writings::{letter, segment, writings, Writing};
use crate::files::{Lasso, Mark, Rule};
use crate::owned;
use crate::words::Explained;
use crate::{RuleMonitor, WORD};

/// Why a lasso has its grade.
#[derive(Clone, Debug, PartialEq, Eq)]
pub struct Reason {
    /// The grade that `member` gives to the lasso.
    pub grade: u8,
    /// How many turns of v together have an idempotent value.
    pub turns: usize,
    /// The values of u, none where it is empty, and of v.
    pub values: (Option<u8>, u8),
    /// The values (s, e) of u with those turns of v, and of those turns: e·e = e and s·e = s.
    pub pair: (u8, u8),
    /// The first writing with the values of a mark of the grade; none where the grade is 0.
    pub accepted: Option<Accepted>,
    /// Every linked pair that the lasso, written as p, then w for ever, can have for its values.
    pub pairs: Vec<(u8, u8)>,
    /// Each higher grade with how many marks it has, none of which accepts the lasso.
    pub higher: Vec<(u8, usize)>,
}

/// A mark that accepts a lasso, and how.
#[derive(Clone, Debug, PartialEq, Eq)]
pub struct Accepted {
    /// The mark: the values of p and w, and the grade.
    pub mark: Mark,
    /// The lasso written as p, then w for ever.
    pub writing: Lasso,
}

/// Why the lasso u, then v for ever has its grade. None where the calls do not confirm what was found.
pub fn why_grade(rule: &[u8], lasso: &Lasso) -> Result<Option<Reason>, Explained> {
    let member = owned::member(rule, &lasso.u, &lasso.v)?;
    let Some(parts) = Rule::take_apart(rule) else {
        return Ok(None);
    };
    let Some(found) = writings(&parts, lasso) else {
        return Ok(None);
    };
    let asked = Question {
        rule,
        parts: &parts,
        lasso,
    };
    let Some((values, pair)) = asked.values(member.turns)? else {
        return Ok(None);
    };
    let accepted = match member.grade {
        0 => None,
        grade => match asked.accepted(&found, grade)? {
            None => return Ok(None),
            accepted => accepted,
        },
    };
    let mut higher = Vec::new();
    for grade in member.grade + 1..=3 {
        let marks = parts.marks.iter().filter(|mark| mark.grade == grade);
        let marks: Vec<Mark> = marks.copied().collect();
        higher.push((grade, marks.len()));
        if asked.grade_by(marks)? != 0 {
            return Ok(None);
        }
    }
    let pairs: Vec<(u8, u8)> = found.iter().map(|writing| writing.pair).collect();
    if !pairs.contains(&pair) || !asked.are_all(&pairs)? {
        return Ok(None);
    }
    Ok(Some(Reason {
        grade: member.grade,
        turns: member.turns,
        values,
        pair,
        accepted,
        pairs,
        higher,
    }))
}

struct Question<'a> {
    rule: &'a [u8],
    parts: &'a Rule,
    lasso: &'a Lasso,
}

/// The values of u and v, and the linked pair of so many turns.
type Values = ((Option<u8>, u8), (u8, u8));

impl Question<'_> {
    /// The value of a word, as `feed` has it; none where the word is empty.
    fn value(&self, word: &[u8]) -> Result<Option<u8>, Explained> {
        let mut monitor = RuleMonitor::new(self.rule);
        monitor.feed(word)?;
        let since = u8::try_from(monitor.monitor().since).ok();
        Ok(since.filter(|value| *value < self.parts.elements))
    }

    fn values(&self, turns: usize) -> Result<Option<Values>, Explained> {
        let Lasso { u, v } = self.lasso;
        let (once, twice) = (v.repeat(turns), v.repeat(2 * turns));
        let e = self.value(&once)?;
        let s = self.value(&[u.as_slice(), &once].concat())?;
        let again = (
            self.value(&[u.as_slice(), &twice].concat())?,
            self.value(&twice)?,
        );
        let own = self.value(v)?.zip(s.zip(e)).filter(|_| again == (s, e));
        let start = self.value(u)?;
        Ok(own.map(|(cycle, pair)| ((start, cycle), pair)))
    }

    /// The lasso's grade by the rule's table with other marks.
    fn grade_by(&self, marks: Vec<Mark>) -> Result<u8, Explained> {
        let rule = Rule {
            marks,
            ..self.parts.clone()
        };
        let Lasso { u, v } = self.lasso;
        owned::member(&rule.bytes(), u, v).map(|member| member.grade)
    }

    /// The first writing with the values of a mark of the grade, if all that is said of it is so.
    fn accepted(&self, found: &[Writing], grade: u8) -> Result<Option<Accepted>, Explained> {
        let marks = self.parts.marks.iter().filter(|mark| mark.grade == grade);
        let written = marks.filter_map(|mark| {
            let own = found.iter().find(|own| own.pair == (mark.s, mark.e));
            own.map(|own| (*mark, *own))
        });
        let Some((mark, own)) = written.min_by_key(|(_, own)| own.start) else {
            return Ok(None);
        };
        let Writing { start, cycle, .. } = own;
        let writing = Lasso {
            u: segment(self.lasso, 0, start),
            v: segment(self.lasso, start, cycle),
        };
        // Endless words with these periods that are equal for so long are equal.
        let long = start.max(self.lasso.u.len()) + cycle + self.lasso.v.len();
        let same = (0..long).all(|place| letter(self.lasso, place) == letter(&writing, place));
        let values = (self.value(&writing.u)?, self.value(&writing.v)?);
        let mut holds = same && values == (Some(mark.s), Some(mark.e));
        holds &= self.grade_by(vec![mark])? == grade;
        if writing.u.len() <= WORD && writing.v.len() <= WORD {
            let other = Question {
                lasso: &writing,
                ..*self
            };
            holds &= other.grade_by(vec![mark])? == grade;
        }
        Ok(holds.then_some(Accepted { mark, writing }))
    }

    /// Whether of all linked pairs just these accept the lasso.
    fn are_all(&self, pairs: &[(u8, u8)]) -> Result<bool, Explained> {
        let of_pair = |(s, e): (u8, u8)| Mark { s, e, grade: 3 };
        for pair in pairs {
            if self.grade_by(vec![of_pair(*pair)])? != 3 {
                return Ok(false);
            }
        }
        let elements = self.parts.elements;
        let all = (0..elements).flat_map(|s| (0..elements).map(move |e| (s, e)));
        let linked = all.filter(|(s, e)| self.parts.linked(*s, *e));
        let others = linked.filter(|pair| !pairs.contains(pair)).map(of_pair);
        Ok(self.grade_by(others.collect())? == 0)
    }
}

#[cfg(test)]
mod tests {
    use super::{writings, Lasso, Question, Rule};

    /// What is not so is not confirmed: a cut at another place, a pair too many, a pair too few.
    #[test]
    fn wrong_findings_are_not_confirmed() {
        // Sums modulo 2: letter 0 stands for 1, and (0, 0) has grade 3.
        let rule = [2, 0, 1, 1, 0, 2, 1, 0, 1, 0, 0, 0, 3];
        let parts = Rule::take_apart(&rule).expect("a rule");
        let question = |lasso| Question {
            rule: &rule,
            parts: &parts,
            lasso,
        };
        let alternating = Lasso {
            u: vec![0],
            v: vec![1, 0],
        };
        let found = writings(&parts, &alternating).expect("letters of the rule");
        let asked = question(&alternating);
        assert!(asked.accepted(&found, 3).expect("a rule").is_some());
        for (start, cycle) in [(2, 0), (0, 1), (1, 1), (2, 1)] {
            let mut wrong = found.clone();
            for own in &mut wrong {
                own.start += start;
                own.cycle += cycle;
            }
            let accepted = asked.accepted(&wrong, 3).expect("a rule");
            assert_eq!(accepted, None, "{start} {cycle}");
        }
        let quiet = Lasso {
            u: vec![0],
            v: vec![1],
        };
        for (lasso, pairs, right) in [
            (&alternating, vec![(0, 0), (1, 0)], true),
            (&alternating, vec![(0, 0)], false),
            (&alternating, vec![], false),
            (&quiet, vec![(1, 0)], true),
            (&quiet, vec![(0, 0), (1, 0)], false),
            (&quiet, vec![(0, 0)], false),
        ] {
            let all = question(lasso).are_all(&pairs).expect("a rule");
            assert_eq!(all, right, "{lasso:?} {pairs:?}");
        }
    }
}
