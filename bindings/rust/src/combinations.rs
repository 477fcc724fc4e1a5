//! Two rules made one.

use crate::answer::unpack_length;
use crate::{raw, Refused};

/// What is made of the grades that two rules give to a lasso.
#[derive(Clone, Copy, Debug, PartialEq, Eq, Hash)]
pub enum Operation {
    /// The lower of the two.
    Both,
    /// The higher of the two.
    Either,
    /// The lower of the first and of 3 less the second.
    Without,
}

/// A rule that was made of two.
#[derive(Clone, Copy, Debug, PartialEq, Eq, Hash)]
pub struct Combined {
    /// How many bytes it has, from the first byte of the buffer on.
    pub length: usize,
}

/// The strong rule whose elements are the pairs of values that non-empty words have in two strong rules over as many letters; it gives each
/// lasso the two grades combined, and marks every linked pair whose lassos it grades 1 or more, with that grade. It need not be the smallest:
/// [`reduce`](crate::reduce) makes it so.
///
/// `out` has [`RULE_OUT`](crate::RULE_OUT) bytes or more. Rules with different numbers of letters, weak rules, and rules with more than 64
/// such pairs are refused. What is wrong with the second rule alone has input 2. The two files may be the same bytes.
pub fn combine(
    first: &[u8],
    second: &[u8],
    operation: Operation,
    out: &mut [u8],
    scratch: &mut [u8],
) -> Result<Combined, Refused> {
    let call = match operation {
        Operation::Both => raw::both,
        Operation::Either => raw::either,
        Operation::Without => raw::without,
    };
    let packed = call(first, second, out, scratch);
    let length = unpack_length(packed, out.len())?;
    Ok(Combined { length })
}
