//! A lasso as a Rust value.

use std::ops::Range;

use crate::Stretch;

/// A lasso: u, then v for ever.
#[derive(Clone, Debug, Default, PartialEq, Eq, Hash)]
pub struct Lasso {
    /// The start, a byte a letter; it may be empty.
    pub u: Vec<u8>,
    /// The cycle, a byte a letter; not empty.
    pub v: Vec<u8>,
}

impl Lasso {
    /// How many letters both words have.
    pub fn letters(&self) -> usize {
        self.u.len() + self.v.len()
    }

    /// The lasso without the letters at some places, those of u counted first, then those of v.
    pub fn without(&self, places: Range<usize>) -> Lasso {
        let kept = |from: usize, word: &[u8]| {
            let letters = (from..).zip(word);
            let kept = letters.filter(|(place, _)| !places.contains(place));
            kept.map(|(_, letter)| *letter).collect()
        };
        Lasso {
            u: kept(0, &self.u),
            v: kept(self.u.len(), &self.v),
        }
    }

    /// What is left to read of u, or of v once u is used up, at a position of the endless word: past u the place in v is the
    /// position less the length of u, modulo the length of v. Empty where v has no letter, or u or v more than
    /// [`WORD`](crate::WORD).
    pub fn stretch(&self, position: usize) -> &[u8] {
        match crate::stretch(&self.u, &self.v, position) {
            Stretch::Start { from, letters } => &self.u[from..from + letters],
            Stretch::Cycle { from, letters } => &self.v[from..from + letters],
        }
    }
}
