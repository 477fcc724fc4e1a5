//! Rules of temporal formulas: of a first letter and of a constant, which all others are made of, of what comes next, and of until.

use crate::answer::unpack_length;
use crate::{raw, Refused};

/// The bytes that the buffer for the classes of [`until`] must have: 4,096 for each of 64 elements.
pub const UNTIL_CLASSES: usize = 262_144;

/// The bytes that the stack of [`formula_rule`] must have: nine rules, eight of the formula and one of an operation's own.
pub const FORMULA_STACK: usize = 147_636;

/// The most bytes that a formula may have.
pub const FORMULA: usize = 65_535;

/// A rule that was made of a formula.
#[derive(Clone, Copy, Debug, PartialEq, Eq, Hash)]
pub struct Formed {
    /// How many bytes it has, from the first byte of the buffer on.
    pub length: usize,
}

fn formed(packed: u64, room: usize) -> Result<Formed, Refused> {
    let length = unpack_length(packed, room)?;
    Ok(Formed { length })
}

/// The smallest rule over so many letters, 1 to 16, that gives a lasso the grade, 0 to 3, where its first letter is in the set, else 0.
/// Letter a is in the set if `set` / 2^a is odd.
///
/// `out` has [`RULE_OUT`](crate::RULE_OUT) bytes or more. Numbers of letters and grades out of their ranges are refused, and a set with a letter
/// that is not below `letters`; the least such letter is the place.
pub fn first_letter(
    letters: usize,
    set: usize,
    grade: usize,
    out: &mut [u8],
) -> Result<Formed, Refused> {
    let packed = raw::first_letter(letters, set, grade, out);
    formed(packed, out.len())
}

/// The smallest rule over so many letters, 1 to 16, that gives every lasso the grade, 0 to 3.
///
/// `out` has [`RULE_OUT`](crate::RULE_OUT) bytes or more.
pub fn constant(letters: usize, grade: usize, out: &mut [u8]) -> Result<Formed, Refused> {
    let packed = raw::constant(letters, grade, out);
    formed(packed, out.len())
}

/// The strong rule that gives each lasso the grade that a strong rule gives to its endless word without the first letter. Its elements are the
/// pairs (value of what is behind the first letter, or none; value of the word) that non-empty words have; it marks every linked pair whose lassos
/// it grades 1 or more, with that grade. It need not be the smallest: [`reduce`](crate::reduce) makes it so.
///
/// `out` has [`RULE_OUT`](crate::RULE_OUT) bytes or more. A weak rule, and one with more than 64 such pairs, is refused.
pub fn next(rule: &[u8], out: &mut [u8], scratch: &mut [u8]) -> Result<Formed, Refused> {
    let packed = raw::next(rule, out, scratch);
    formed(packed, out.len())
}

/// The strong rule of the first until the second, two strong rules over as many letters: the grade of a lasso is the highest, over the places of its
/// endless word, of the lowest of the second's grade from there on and the first's from each place before. It marks every linked pair whose lassos
/// it grades 1 or more, with that grade. It need not be the smallest: [`reduce`](crate::reduce) makes it so.
///
/// `out` has [`RULE_OUT`](crate::RULE_OUT) bytes or more and `classes` [`UNTIL_CLASSES`]; the latter may hold anything, and ends as zeros like the
/// scratch. Rules with different numbers of letters, weak rules, and rules with more than 64 pairs of values or elements of `until` are refused.
/// What is wrong with the second rule alone has input 2. The two files may be the same bytes.
pub fn until(
    first: &[u8],
    second: &[u8],
    out: &mut [u8],
    classes: &mut [u8],
    scratch: &mut [u8],
) -> Result<Formed, Refused> {
    let packed = raw::until(first, second, out, classes, scratch);
    formed(packed, out.len())
}

/// The smallest rule of a whole formula over so many letters, 1 to 16: each lasso has the grade that the formula gives it, and no strong rule that
/// grades alike has fewer elements. Formulas that mean the same on every lasso are written byte for byte alike, and no others.
///
/// The formula is a program of a stack, at most [`FORMULA`] bytes: a code with its operands for each operation. 0 puts the rule of a set on the stack
/// (its grade, then two bytes, low first, bit a for letter a), 1 that of a constant (its grade), 12 a copy (a byte: how far below the top, 0 the top).
/// 2 is not, 6 next, 8 eventually, 9 always of the top; 3 both, 4 either, 5 without, 7 until, 10 release, 11 weak until of the two on top, of which
/// the top is the second. The stack has room for eight rules, and one is left at the end.
///
/// `out` and `spare` have [`RULE_OUT`](crate::RULE_OUT) bytes or more, `stack` [`FORMULA_STACK`], `classes` [`UNTIL_CLASSES`]; all but `out` may hold
/// anything, and end as zeros. Refused is first what the bytes show: an unknown code or a grade above 3 (3), operands that lack (1), a letter that is
/// not below `letters` (10), too few rules, more than eight or not one at the end (24); and then 19 and 23 with the place of the operation whose tables
/// are too large.
///
/// ```
/// use duknavet::{constant, formula_rule, FORMULA_STACK, RULE_OUT, SCRATCH, UNTIL_CLASSES};
///
/// let mut out = vec![0; RULE_OUT];
/// let (mut stack, mut spare) = (vec![0; FORMULA_STACK], vec![0; RULE_OUT]);
/// let (mut classes, mut scratch) = (vec![0; UNTIL_CLASSES], vec![0; SCRATCH]);
/// // Letter 0 at every place, or not: each lasso has grade 3.
/// let formula = [0, 3, 1, 0, 9, 12, 0, 2, 4];
/// let made = formula_rule(2, &formula, &mut out, &mut stack, &mut spare, &mut classes, &mut scratch)?;
/// let mut proper = vec![0; RULE_OUT];
/// let length = constant(2, 3, &mut proper)?.length;
/// assert_eq!(out[..made.length], proper[..length]);
/// # Ok::<(), duknavet::Refused>(())
/// ```
pub fn formula_rule(
    letters: usize,
    formula: &[u8],
    out: &mut [u8],
    stack: &mut [u8],
    spare: &mut [u8],
    classes: &mut [u8],
    scratch: &mut [u8],
) -> Result<Formed, Refused> {
    let packed = raw::formula_rule(letters, formula, out, stack, spare, classes, scratch);
    formed(packed, out.len())
}
