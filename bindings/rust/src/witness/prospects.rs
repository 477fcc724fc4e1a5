//! Which grades can still come: after events with given values, whatever comes then.

use super::value_grades::value_grades;
use crate::files::{Lasso, Rule};
use crate::owned;
use crate::words::Explained;
use crate::{Monitor, RuleMonitor, POINTS};

/// What can still come of events by a strong rule.
#[derive(Clone, Debug, PartialEq, Eq)]
pub struct Prospects {
    /// The value of all events so far; none where there were none.
    pub value: Option<u8>,
    /// Each grade that is still possible, from the lowest, with a shortest lasso that leads to it behind the events.
    pub grades: Vec<(u8, Lasso)>,
}

impl Prospects {
    /// The grade, where it is settled whatever comes.
    pub fn settled(&self) -> Option<u8> {
        match self.grades[..] {
            [(grade, _)] => Some(grade),
            _ => None,
        }
    }
}

/// Which grades the endless words have that begin with events of a monitor's values; the rule is strong. None where the calls do not confirm what
/// was found.
pub fn prospects(rule: &[u8], monitor: Monitor) -> Result<Option<Prospects>, Explained> {
    // A mark takes what came before and since together.
    let mut marked = RuleMonitor::resumed(rule, monitor, [0; POINTS]);
    marked.advance_mark()?;
    let (Some(parts), Some(grades)) = (Rule::take_apart(rule), value_grades(rule)?) else {
        return Ok(None);
    };
    let value = u8::try_from(marked.monitor().before).ok();
    let value = value.filter(|value| *value < parts.elements);
    let words = parts.first_words();
    let so_far = match value.map(|value| words[usize::from(value)].clone()) {
        None => Vec::new(),
        Some(Some(word)) => word,
        Some(None) => return Ok(None),
    };
    let mut best: [Option<Lasso>; 4] = Default::default();
    for (start, u) in continued(&parts, value) {
        for (cycle, v) in words.iter().enumerate() {
            let row = start.map_or(parts.elements, |start| start);
            let grade = grades[usize::from(row) * words.len() + cycle];
            let Some(v) = v else { return Ok(None) };
            let own = &mut best[usize::from(grade)];
            let letters = u.len() + v.len();
            if own.as_ref().is_none_or(|own| letters < own.letters()) {
                let (u, v) = (u.clone(), v.clone());
                *own = Some(Lasso { u, v });
            }
        }
    }
    let mut possible = Vec::new();
    for (grade, lasso) in (0..).zip(best) {
        let Some(lasso) = lasso else { continue };
        let whole = [so_far.as_slice(), &lasso.u].concat();
        if owned::member(rule, &whole, &lasso.v)?.grade != grade {
            return Ok(None);
        }
        possible.push((grade, lasso));
    }
    Ok(Some(Prospects {
        value,
        grades: possible,
    }))
}

/// Each value that words have which go on from a value, with the shortest word to go on with; the value itself with none.
fn continued(rule: &Rule, value: Option<u8>) -> Vec<(Option<u8>, Vec<u8>)> {
    let mut found = vec![(value, Vec::new())];
    let mut next = 0;
    while let Some((value, word)) = found.get(next).cloned() {
        for (letter, image) in (0..=u8::MAX).zip(&rule.images) {
            let longer = match value {
                Some(value) => rule.product(value, *image),
                None => Some(*image),
            };
            if longer.is_some() && found.iter().all(|(own, _)| *own != longer) {
                let word = word.iter().copied().chain([letter]);
                found.push((longer, word.collect()));
            }
        }
        next += 1;
    }
    found
}
