//! The grade of a lasso.

use crate::answer::{foreign, unpack, unpack_graded};
use crate::{raw, Refused};

/// The grade that a rule gives to a lasso, and how many turns settle its cycle.
#[derive(Clone, Copy, Debug, PartialEq, Eq, Hash)]
pub struct Membership {
    /// The highest grade, 1 to 3, of the marked pairs that some writing of the endless word has for its values; 0 if none has.
    pub grade: u8,
    /// How many turns of v together have a value that repeating no longer changes, whatever the grade: the least c, 1 to the number of
    /// elements, with x^c·x^c = x^c, where x is the value of v.
    pub turns: usize,
}

/// The grade of the lasso: `u`, then `v` for ever.
///
/// `u` has at most [`WORD`](crate::WORD) letters and `v` 1 to [`WORD`](crate::WORD), a byte a letter. Where `u` is empty the
/// lasso is `v` for ever. The rule may be weak.
///
/// ```
/// use duknavet::{member, Membership, SCRATCH};
///
/// // Sums modulo 2: letter 0 stands for 1, letter 1 for 0. Two turns of letter 0 have the value 1 + 1 = 0, and so has every
/// // even number of them. The pair (0, 0) has grade 2.
/// let rule = [2, 0, 1, 1, 0, 2, 1, 0, 1, 0, 0, 0, 2];
/// let mut scratch = vec![0; SCRATCH];
/// let answer = member(&rule, &[0], &[0], &mut scratch);
/// assert_eq!(answer, Ok(Membership { grade: 2, turns: 2 }));
/// let answer = member(&rule, &[0], &[1], &mut scratch);
/// assert_eq!(answer, Ok(Membership { grade: 0, turns: 1 }));
/// ```
pub fn member(rule: &[u8], u: &[u8], v: &[u8], scratch: &mut [u8]) -> Result<Membership, Refused> {
    let (grade, turns) = unpack_graded(raw::member(rule, u, v, scratch))?;
    Ok(Membership { grade, turns })
}

/// The part of a lasso's word that is left to read at a position.
#[derive(Clone, Copy, Debug, PartialEq, Eq, Hash)]
pub enum Stretch {
    /// Letters of u, to its end.
    Start {
        /// Where they begin in u.
        from: usize,
        /// How many they are.
        letters: usize,
    },
    /// Letters of v, to its end.
    Cycle {
        /// Where they begin in v.
        from: usize,
        /// How many they are.
        letters: usize,
    },
}

/// What is left of `u` at a position of the endless word, or of the turn of `v` that the position lies in.
///
/// Of words whose lengths [`member`] refuses nothing is left: the empty part at the beginning of `u`.
///
/// ```
/// use duknavet::{stretch, Stretch};
///
/// assert_eq!(stretch(&[0, 1, 0], &[1, 1], 1), Stretch::Start { from: 1, letters: 2 });
/// assert_eq!(stretch(&[0, 1, 0], &[1, 1], 6), Stretch::Cycle { from: 1, letters: 1 });
/// assert_eq!(stretch(&[0, 1, 0], &[], 6), Stretch::Start { from: 0, letters: 0 });
/// ```
pub fn stretch(u: &[u8], v: &[u8], position: usize) -> Stretch {
    let packed = raw::stretch(u, v, position);
    match unpack(packed) {
        Ok([1, from, letters]) if from + letters <= u.len() => Stretch::Start { from, letters },
        Ok([2, from, letters]) if from + letters <= v.len() => Stretch::Cycle { from, letters },
        _ => foreign(packed, "a stretch is a part of u or of v"),
    }
}
