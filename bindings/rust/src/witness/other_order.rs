//! Whether two rules are equal once the letters of one are put in another order.
//!
//! Equal strong rules have one reduction, and its elements are the values of words. So an order is found by giving
//! letters to letters one after the other, as long as the values of the words of these go together one to one. What
//! is found is checked by `compare`.

use super::differ::{compare, smallest, Comparison};
use crate::files::Rule;
use crate::words::Explained;
use std::collections::HashMap;

/// The most letters that are tried, one for another, before the search gives up.
const TRIED: usize = 1_000;

/// For each letter of the first strong rule a letter of the second, so that with this order they are equal. None
/// where there is none, where it was not found in bounded time, or where one of the rules is weak.
pub fn equal_in_order(first: &[u8], second: &[u8]) -> Result<Option<Vec<u8>>, Explained> {
    let (own, other) = (smallest(first)?, smallest(second)?);
    let sizes = |rule: &Rule| (rule.elements, rule.images.len(), rule.marks.len());
    if !own.strong || !other.strong || sizes(&own.parts) != sizes(&other.parts) {
        return Ok(None);
    }
    let mut search = Search {
        first: Graded::of(&own.parts),
        second: Graded::of(&other.parts),
        order: Vec::new(),
        tried: 0,
    };
    if !search.goes_on()? {
        return Ok(None);
    }
    Ok(Some(search.order))
}

/// A rule, and the grade of each pair of its elements.
struct Graded<'a> {
    rule: &'a Rule,
    grades: HashMap<(u8, u8), u8>,
}

impl Graded<'_> {
    fn of(rule: &Rule) -> Graded<'_> {
        let marks = rule.marks.iter();
        Graded {
            rule,
            grades: marks.map(|mark| ((mark.s, mark.e), mark.grade)).collect(),
        }
    }
}

struct Search<'a> {
    first: Graded<'a>,
    second: Graded<'a>,
    order: Vec<u8>,
    tried: usize,
}

impl Search<'_> {
    /// Whether the order can be gone on with to its end.
    fn goes_on(&mut self) -> Result<bool, Explained> {
        if self.order.len() == self.first.rule.images.len() {
            return self.is_equal();
        }
        let mut images = Vec::new();
        for (letter, image) in (0..=u8::MAX).zip(&self.second.rule.images) {
            // Of the letters that stand for one element it does not matter which is taken.
            if self.order.contains(&letter) || images.contains(image) {
                continue;
            }
            images.push(*image);
            self.tried += 1;
            if self.tried > TRIED {
                return Ok(false);
            }
            self.order.push(letter);
            if self.goes_together() && self.goes_on()? {
                return Ok(true);
            }
            self.order.pop();
        }
        Ok(false)
    }

    /// Whether the values of the words of the letters so far go together one to one, and their grades do.
    fn goes_together(&self) -> bool {
        let letter = |(own, other): (&u8, &u8)| {
            let other = self.second.rule.images.get(usize::from(*other))?;
            Some((*own, *other))
        };
        let letters = self.first.rule.images.iter().zip(&self.order);
        let letters: Option<Vec<(u8, u8)>> = letters.map(letter).collect();
        let Some(letters) = letters else {
            return false;
        };
        let mut found: Vec<(u8, u8)> = Vec::new();
        let mut waiting = letters.clone();
        while let Some(pair) = waiting.pop() {
            if found.contains(&pair) {
                continue;
            }
            if found.iter().any(|own| own.0 == pair.0 || own.1 == pair.1) {
                return false;
            }
            found.push(pair);
            for letter in &letters {
                let own = self.first.rule.product(pair.0, letter.0);
                let other = self.second.rule.product(pair.1, letter.1);
                waiting.extend(own.zip(other));
            }
        }
        self.have_equal_grades(&found)
    }

    /// Whether pairs of values that go together have equal grades.
    fn have_equal_grades(&self, values: &[(u8, u8)]) -> bool {
        values.iter().all(|s| {
            let mut pairs = values.iter().map(|e| ((s.0, e.0), (s.1, e.1)));
            pairs.all(|(own, other)| self.first.grades.get(&own) == self.second.grades.get(&other))
        })
    }

    fn is_equal(&self) -> Result<bool, Explained> {
        let Some(ordered) = self.second.rule.with_letters(&self.order) else {
            return Ok(false);
        };
        let compared = compare(&self.first.rule.bytes(), &ordered.bytes());
        let compared = compared.map_err(|(_, explained)| explained)?;
        Ok(matches!(compared, Comparison::EqualReductions(_)))
    }
}
