//! The grades of a strong rule by values.
//!
//! Lassos with equal values have equal grades, and conjugate pairs are the values of one endless word: so `member` is asked for one lasso of
//! each class.

use crate::files::Rule;
use crate::owned;
use crate::words::Explained;
use std::collections::HashMap;

/// The grade of the lassos whose u has the value s, or is empty, and whose v has the value x, for a strong rule: at s·n + x, the empty u behind
/// the elements. None where the bytes are no strong rule, though no call refuses them.
pub fn value_grades(rule: &[u8]) -> Result<Option<Vec<u8>>, Explained> {
    // Complements are of strong rules only, and a weak one is refused as every other call does.
    owned::complement(rule)?;
    let Some(parts) = Rule::take_apart(rule) else {
        return Ok(None);
    };
    let classes = owned::classes(rule)?;
    let words = parts.first_words();
    let word = |element: u8| words.get(usize::from(element)).cloned().flatten();
    let mut known: HashMap<u16, u8> = HashMap::new();
    let mut grades = Vec::new();
    let elements = parts.elements;
    for start in (0..elements).map(Some).chain([None]) {
        for cycle in 0..elements {
            let Some((e, _)) = parts.idempotent_power(cycle) else {
                return Ok(None);
            };
            let s = match start {
                Some(start) => parts.product(start, e),
                None => Some(e),
            };
            let Some((s, u, v)) = s.and_then(|s| Some((s, word(s)?, word(e)?))) else {
                return Ok(None);
            };
            let number = usize::from(s) * usize::from(elements) + usize::from(e);
            let Some(class) = classes.least.get(number).copied().flatten() else {
                return Ok(None);
            };
            let grade = match known.get(&class) {
                Some(grade) => *grade,
                None => owned::member(rule, &u, &v)?.grade,
            };
            known.insert(class, grade);
            grades.push(grade);
        }
    }
    Ok(Some(grades))
}
