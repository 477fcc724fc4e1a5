//! A short lasso of each grade that a rule gives.
//!
//! Of a strong rule the values decide, so that the words of fewest letters for them are all that is asked. Of a weak one the lassos with fewest letters are
//! tried with `member`, up to a number. Which grades occur does not depend on that: with the marks of a grade or more for its own, a rule grades some
//! lasso higher than with those of a higher grade exactly if a lasso has just that grade, and `included` finds one.

use super::prospects::prospects;
use super::shorten::shortened;
use crate::files::{marks_bytes, Lasso, Mark, Rule};
use crate::owned;
use crate::words::Explained;
use crate::{fresh, Strength};

/// The most lassos of a weak rule that are tried by their lengths.
pub const MOST_TRIED: usize = 4096;

/// What shows that a rule gives a grade.
#[derive(Clone, Debug, PartialEq, Eq)]
pub enum Example {
    /// No lasso has the grade.
    Missing,
    /// A lasso of the grade, and none with fewer letters has it.
    Shortest(Lasso),
    /// A lasso of the grade of which no letter can be left out alone. None with fewer letters was found among those that were tried.
    Short(Lasso),
}

/// For each grade, 0 to 3, a lasso of a rule that has it. None where the calls do not confirm what was found.
pub fn examples(rule: &[u8]) -> Result<Option<[Example; 4]>, Explained> {
    let found = match owned::strong(rule)? {
        Strength::Strong => of_strong(rule)?,
        Strength::Weak => of_weak(rule)?,
    };
    let Some(found) = found else { return Ok(None) };
    for (grade, example) in (0..).zip(&found) {
        if let Example::Shortest(lasso) | Example::Short(lasso) = example {
            if owned::member(rule, &lasso.u, &lasso.v)?.grade != grade {
                return Ok(None);
            }
        }
    }
    Ok(Some(found))
}

fn of_strong(rule: &[u8]) -> Result<Option<[Example; 4]>, Explained> {
    let Some(prospects) = prospects(rule, fresh())? else {
        return Ok(None);
    };
    let mut found = [const { Example::Missing }; 4];
    for (grade, lasso) in prospects.grades {
        found[usize::from(grade.min(3))] = Example::Shortest(lasso);
    }
    Ok(Some(found))
}

fn of_weak(rule: &[u8]) -> Result<Option<[Example; 4]>, Explained> {
    let Some(parts) = Rule::take_apart(rule) else {
        return Ok(None);
    };
    let mut found = [const { Example::Missing }; 4];
    let mut wanted: Vec<(u8, Lasso)> = Vec::new();
    for grade in 0..=3 {
        if let Some(lasso) = with_grade(&parts, grade)? {
            wanted.push((grade, lasso));
        }
    }
    let letters = parts.images.len();
    for lasso in by_length(letters).take(MOST_TRIED) {
        if wanted.is_empty() {
            break;
        }
        let grade = owned::member(rule, &lasso.u, &lasso.v)?.grade;
        if let Some(place) = wanted.iter().position(|(own, _)| *own == grade) {
            wanted.remove(place);
            found[usize::from(grade.min(3))] = Example::Shortest(lasso);
        }
    }
    for (grade, lasso) in wanted {
        let has = |lasso: &Lasso| Ok(owned::member(rule, &lasso.u, &lasso.v)?.grade == grade);
        found[usize::from(grade)] = Example::Short(shortened(lasso, has)?);
    }
    Ok(Some(found))
}

/// A lasso that has just a grade, if there is one.
fn with_grade(rule: &Rule, grade: u8) -> Result<Option<Lasso>, Explained> {
    let at_least = |least: u8| -> Vec<Mark> {
        let pairs = (0..rule.elements).flat_map(|s| (0..rule.elements).map(move |e| (s, e)));
        let own = pairs.filter(|(s, e)| rule.linked(*s, *e) && rule.grade(*s, *e) >= least);
        own.map(|(s, e)| Mark { s, e, grade: 3 }).collect()
    };
    let first = Rule {
        marks: at_least(grade),
        ..rule.clone()
    };
    owned::included(&first.bytes(), &marks_bytes(&at_least(grade + 1)))
}

/// The lassos over so many letters, those with fewer letters first.
fn by_length(letters: usize) -> impl Iterator<Item = Lasso> {
    (1..).flat_map(move |length: usize| {
        (1..=length).flat_map(move |cycle| {
            words(letters, length).map(move |word| {
                let (u, v) = word.split_at(length - cycle);
                let (u, v) = (u.to_vec(), v.to_vec());
                Lasso { u, v }
            })
        })
    })
}

/// The words of so many letters, in letter order.
fn words(letters: usize, length: usize) -> impl Iterator<Item = Vec<u8>> {
    let count = u32::try_from(length)
        .ok()
        .and_then(|length| letters.checked_pow(length));
    (0..count.unwrap_or(usize::MAX)).map(move |number| {
        let mut rest = number;
        let mut word: Vec<u8> = (0..length)
            .map(|_| {
                let letter = rest % letters;
                rest /= letters;
                u8::try_from(letter).unwrap_or(0)
            })
            .collect();
        word.reverse();
        word
    })
}
