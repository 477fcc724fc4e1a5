//! Why a rule is weak: two lassos with equal values and different grades.
//!
//! A rule is weak exactly if its marks, closed under conjugacy, grade some lasso higher than as they stand; `included` finds one. A
//! writing p, w of that lasso has a linked pair (s, e) for its values which some marked pair (t, f) with the higher grade is
//! conjugate to: s·x = t, x·y = e, y·x = f. With words P, X and Y for s, x and y the lasso P, then X Y for ever has the values (s, e)
//! too, and since it is P X, then Y X for ever, the grade of (t, f) or more.

use super::shorten::shortened;
use crate::files::{marks_bytes, Lasso, Mark, Rule};
use crate::owned::{self, ClassList};
use crate::text::{print_lasso, Names};
use crate::words::Explained;
use crate::{Strength, WORD};

/// Two lassos with equal values and different grades.
#[derive(Clone, Debug, PartialEq, Eq)]
pub struct Weakness {
    /// The value of both starts.
    pub start: u8,
    /// The value of both cycles.
    pub cycle: u8,
    /// The lasso with the higher grade, and the grade.
    pub higher: (Lasso, u8),
    /// The lasso with the lower grade, and the grade.
    pub lower: (Lasso, u8),
}

impl Weakness {
    /// The two lassos in words, with the letters by their names.
    pub fn in_words(&self, names: &Names) -> String {
        let shown = |(lasso, grade): &(Lasso, u8)| {
            format!("{} has grade {grade}", print_lasso(lasso, names))
        };
        let (start, cycle) = (self.start, self.cycle);
        let (higher, lower) = (shown(&self.higher), shown(&self.lower));
        format!("{higher}, but {lower}, both with the values {start} and {cycle}")
    }
}

/// Two lassos that show that a rule is weak. None where it is strong, and where the lassos would need more letters than `member`
/// takes.
pub fn why_weak(rule: &[u8]) -> Result<Option<Weakness>, Explained> {
    if owned::strong(rule)? == Strength::Strong {
        return Ok(None);
    }
    let Some(parts) = Rule::take_apart(rule) else {
        return Ok(None);
    };
    let classes = owned::classes(rule)?;
    let closed = Rule {
        marks: closed_marks(&parts, &classes),
        ..parts.clone()
    };
    let (closed_rule, second) = (closed.bytes(), marks_bytes(&parts.marks));
    let Some(found) = owned::included(&closed_rule, &second)? else {
        return Ok(None);
    };
    let grades = |lasso: &Lasso| -> Result<(u8, u8), Explained> {
        let by_closure = owned::member(&closed_rule, &lasso.u, &lasso.v)?.grade;
        let own = owned::member(rule, &lasso.u, &lasso.v)?.grade;
        Ok((by_closure, own))
    };
    let shows = |lasso: &Lasso| grades(lasso).map(|(by_closure, own)| by_closure > own);
    let found = shortened(found, shows)?;
    let (by_closure, own) = grades(&found)?;
    let search = Search {
        rule,
        closed: &closed,
        words: first_words(&parts),
        parts: &parts,
        by_closure,
        own,
    };
    // A start of the lasso has a value that linked pairs have after as many turns as there are elements.
    for turns in 0..=2 * usize::from(parts.elements) {
        if let Some(weakness) = search.after(&found, turns)? {
            return Ok(Some(weakness));
        }
    }
    Ok(None)
}

/// A lasso that the closed marks grade higher, and what is looked for: a writing of it with the values of a linked pair.
struct Search<'a> {
    rule: &'a [u8],
    parts: &'a Rule,
    closed: &'a Rule,
    words: Vec<Vec<u8>>,
    by_closure: u8,
    own: u8,
}

impl Search<'_> {
    /// Two lassos by a writing whose start is u, so many turns of v and a part of v.
    fn after(&self, found: &Lasso, turns: usize) -> Result<Option<Weakness>, Explained> {
        let start = [found.u.clone(), found.v.repeat(turns)].concat();
        for cut in 0..found.v.len() {
            let rotated = [&found.v[cut..], &found.v[..cut]].concat();
            let u = [start.as_slice(), &found.v[..cut]].concat();
            let value = self.parts.value(&rotated);
            let power = value.and_then(|value| self.parts.idempotent_power(value));
            let Some((e, times)) = power else {
                continue;
            };
            if u.len() > WORD || times * rotated.len() > WORD {
                continue;
            }
            let Some(s) = self.parts.value(&u).filter(|s| self.parts.linked(*s, e)) else {
                continue;
            };
            if self.closed.grade(s, e) < self.by_closure {
                continue;
            }
            let lower = Lasso {
                u,
                v: rotated.repeat(times),
            };
            if let Some(weakness) = self.checked(lower, s, e)? {
                return Ok(Some(weakness));
            }
        }
        Ok(None)
    }

    /// The lasso and one with the same values by conjugacy, if `member` gives them different grades.
    fn checked(&self, lower: Lasso, s: u8, e: u8) -> Result<Option<Weakness>, Explained> {
        let Some(higher) = self.conjugate_lasso(s, e).filter(|own| own.v.len() <= WORD) else {
            return Ok(None);
        };
        let grade = owned::member(self.rule, &higher.u, &higher.v)?.grade;
        let again = owned::member(self.rule, &lower.u, &lower.v)?.grade;
        let values = |lasso: &Lasso| (self.parts.value(&lasso.u), self.parts.value(&lasso.v));
        let shows = grade > again && again == self.own && values(&higher) == values(&lower);
        Ok(shows.then_some(Weakness {
            start: s,
            cycle: e,
            higher: (higher, grade),
            lower: (lower, again),
        }))
    }

    /// The shortest lasso of first words with the values (s, e) that also has those of a marked pair of the higher grade.
    fn conjugate_lasso(&self, s: u8, e: u8) -> Option<Lasso> {
        let rule = self.parts;
        let word = |element: u8| self.words.get(usize::from(element));
        let mut best: Option<Lasso> = None;
        for x in 0..rule.elements {
            for y in 0..rule.elements {
                let conjugate = rule.product(s, x).zip(rule.product(y, x));
                let grade = conjugate.map_or(0, |(t, f)| rule.grade(t, f));
                if rule.product(x, y) != Some(e) || grade < self.by_closure {
                    continue;
                }
                let lasso = Lasso {
                    u: word(s)?.clone(),
                    v: [word(x)?.as_slice(), word(y)?].concat(),
                };
                if best
                    .as_ref()
                    .is_none_or(|own| lasso.letters() < own.letters())
                {
                    best = Some(lasso);
                }
            }
        }
        best
    }
}

fn first_words(rule: &Rule) -> Vec<Vec<u8>> {
    let words = rule.first_words().into_iter();
    words.map(Option::unwrap_or_default).collect()
}

/// Every linked pair whose class has a mark, with the highest grade of its class.
fn closed_marks(rule: &Rule, classes: &ClassList) -> Vec<Mark> {
    let elements = usize::from(rule.elements);
    let class_of = |s: usize, e: usize| classes.least.get(s * elements + e).copied().flatten();
    let mut marks = Vec::new();
    for s in 0..rule.elements {
        for e in 0..rule.elements {
            let Some(class) = class_of(usize::from(s), usize::from(e)) else {
                continue;
            };
            let same =
                |mark: &&Mark| class_of(usize::from(mark.s), usize::from(mark.e)) == Some(class);
            let grades = rule.marks.iter().filter(same).map(|mark| mark.grade);
            if let Some(grade) = grades.max() {
                marks.push(Mark { s, e, grade });
            }
        }
    }
    marks
}
