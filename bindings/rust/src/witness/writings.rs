//! The writings of a lasso, p, then w for ever, whose values are linked pairs.
//!
//! A writing is a place behind p, not 0, from which on the endless word repeats, and a length of w, a multiple of the least period d. The
//! places of a rest modulo d have one idempotent power e of the value of d letters for w, and one after another the values s, s·r, s·r·r, ..
//! for p, of which n + 1 are all. A linked pair has an idempotent e, so that no other length of w has one.

use crate::files::{Lasso, Rule};

/// The first writing of a lasso with a linked pair for its values.
#[derive(Clone, Copy, Debug, PartialEq, Eq)]
pub struct Writing {
    /// The values of p and w.
    pub pair: (u8, u8),
    /// How many letters p has.
    pub start: usize,
    /// How many letters w has.
    pub cycle: usize,
}

/// Letter `place` of the endless word; v is not empty.
pub fn letter(lasso: &Lasso, place: usize) -> u8 {
    match lasso.u.get(place) {
        Some(letter) => *letter,
        None => lasso.v[(place - lasso.u.len()) % lasso.v.len()],
    }
}

/// The letters at some places of the endless word.
pub fn segment(lasso: &Lasso, from: usize, letters: usize) -> Vec<u8> {
    let places = from..from + letters;
    places.map(|place| letter(lasso, place)).collect()
}

/// The least place from which on the endless word repeats, and its least period.
fn shape(lasso: &Lasso) -> (usize, usize) {
    let v = &lasso.v;
    let repeats =
        |period: &usize| v.len().is_multiple_of(*period) && v[*period..] == v[..v.len() - *period];
    let period = (1..=v.len()).find(repeats).unwrap_or(v.len());
    let differs = |place: &usize| letter(lasso, *place) != letter(lasso, *place + period);
    let last = (0..lasso.u.len()).rev().find(differs);
    (last.map_or(0, |place| place + 1), period)
}

/// For each linked pair that a writing of the lasso has for its values the first such writing, by pairs. None where a letter is not the
/// rule's, or v has none.
pub fn writings(rule: &Rule, lasso: &Lasso) -> Option<Vec<Writing>> {
    if lasso.v.is_empty() {
        return None;
    }
    let (repeats, period) = shape(lasso);
    let first = repeats.max(1);
    let turn = segment(lasso, first, period);
    let mut before = rule.value(&segment(lasso, 0, first))?;
    let mut found: Vec<Writing> = Vec::new();
    // The values of what is left of the turn at each of its places.
    let mut ends = vec![rule.value(&turn[period - 1..])?];
    for own in turn[..period - 1].iter().rev() {
        ends.push(rule.product(rule.value(&[*own])?, ends[ends.len() - 1])?);
    }
    ends.reverse();
    let mut beginning: Option<u8> = None;
    for (place, end) in ends.into_iter().enumerate() {
        let rotated = match beginning {
            Some(beginning) => rule.product(end, beginning)?,
            None => end,
        };
        let (e, exponent) = rule.idempotent_power(rotated)?;
        let mut s = before;
        for turns in 0..=usize::from(rule.elements) {
            let writing = Writing {
                pair: (s, e),
                start: first + place + turns * period,
                cycle: exponent * period,
            };
            let own = found.iter_mut().find(|own| own.pair == writing.pair);
            match own {
                _ if !rule.linked(s, e) => {}
                Some(own) if own.start <= writing.start => {}
                Some(own) => *own = writing,
                None => found.push(writing),
            }
            s = rule.product(s, rotated)?;
        }
        let image = rule.value(&turn[place..=place])?;
        before = rule.product(before, image)?;
        beginning = match beginning {
            Some(beginning) => Some(rule.product(beginning, image)?),
            None => Some(image),
        };
    }
    found.sort_by_key(|writing| writing.pair);
    Some(found)
}
