//! Whether one strong rule grades no lasso higher than another, and else a lasso that it does.
//!
//! Yes is said where the rule of the lower grades, `combine` both, has the reduction of the first. A lasso for no
//! is one where these two differ. Where words have more pairs of values than a rule has room for, there is no such
//! rule, and only no can be shown.

use super::differ::{by_verdicts, compare, smallest, Comparison, Difference};
use super::pairs::pairs_of_values;
use super::shorten::shortened;
use crate::files::Lasso;
use crate::owned;
use crate::words::Explained;
use crate::{Operation, Refusal};

/// How the grades of one strong rule stand to those of another.
#[derive(Clone, Debug, PartialEq, Eq)]
pub enum Grades {
    /// The first rule grades no lasso higher.
    NoneHigher,
    /// A lasso that the first rule grades higher.
    Higher(Difference),
    /// Words have more than 64 pairs of values in both together, and no lasso of the words of these is graded
    /// higher.
    TooLarge(usize),
}

/// Whether the first strong rule grades no lasso higher than the second; a refusal comes as from `combine`.
pub fn included_in(first: &[u8], second: &[u8]) -> Result<Grades, Explained> {
    // What is refused of the two is refused of them as they are.
    owned::check_two(first, second, [true, true])?;
    let (own, other) = (smallest(first)?, smallest(second)?);
    let lasso = match owned::combine(&own.bytes, &other.bytes, Operation::Both) {
        Ok(both) => match compare(&both, &own.bytes).map_err(|(_, explained)| explained)? {
            Comparison::Different(difference) => difference.lasso,
            Comparison::EqualReductions(_) | Comparison::EqualGrades => {
                return Ok(Grades::NoneHigher)
            }
            _ => return Ok(Grades::TooLarge(pairs_of_values(&own.parts, &other.parts))),
        },
        Err(explained) if explained.refused.refusal == Refusal::TooManyPairs => {
            match by_verdicts(&own, &other, |own, other| own > other)? {
                Some(lasso) => lasso,
                None => {
                    let pairs = pairs_of_values(&own.parts, &other.parts);
                    return Ok(Grades::TooLarge(pairs));
                }
            }
        }
        Err(explained) => return Err(explained),
    };
    higher(first, second, lasso).map(Grades::Higher)
}

/// The lasso, shortened, with the grades that `member` gives it.
fn higher(first: &[u8], second: &[u8], lasso: Lasso) -> Result<Difference, Explained> {
    let grades = |lasso: &Lasso| {
        let grade = |rule: &[u8]| owned::member(rule, &lasso.u, &lasso.v).map(|own| own.grade);
        Ok((grade(first)?, grade(second)?))
    };
    let is_higher = |lasso: &Lasso| grades(lasso).map(|(own, other)| own > other);
    let lasso = shortened(lasso, is_higher)?;
    let (first, second) = grades(&lasso)?;
    Ok(Difference {
        lasso,
        first,
        second,
    })
}
