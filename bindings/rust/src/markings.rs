//! Calls on a rule's marks: conjugacy classes, strength, complement, inclusion.

use crate::answer::{foreign, unpack, unpack_bool, unpack_length};
use crate::{raw, Refused};

/// How many linked pairs and how many classes of them a rule has.
#[derive(Clone, Copy, Debug, PartialEq, Eq, Hash)]
pub struct Classes {
    /// The linked pairs.
    pub linked: usize,
    /// The conjugacy classes of linked pairs.
    pub classes: usize,
    /// The linked pairs less the classes.
    pub joins: usize,
}

/// Whether the values of u and v decide a lasso's grade.
#[derive(Clone, Copy, Debug, PartialEq, Eq, Hash)]
pub enum Strength {
    /// Any two lassos with equal values have equal grades.
    Strong,
    /// Some two have not.
    Weak,
}

/// A complement that was written.
#[derive(Clone, Copy, Debug, PartialEq, Eq, Hash)]
pub struct Complemented {
    /// How many bytes it has, from the first byte of the buffer on.
    pub length: usize,
}

/// Whether a first marking grades no lasso higher than a second.
#[derive(Clone, Copy, Debug, PartialEq, Eq, Hash)]
pub enum Inclusion {
    /// No lasso is graded higher by the first marking than by the second.
    Included,
    /// The lasso that was written is graded higher by the first.
    NotIncluded {
        /// How many letters of u were written.
        u: usize,
        /// How many letters of v were written.
        v: usize,
    },
}

/// The conjugacy classes of the rule's linked pairs.
///
/// Writes two bytes, low byte first, for each pair (s, e) of the n elements, from byte 2·(s·n+e) of `out` on: the least t·n+f with
/// (t, f) conjugate to it, or 65,535 where the pair is not linked. `out` has [`CLASSES_OUT`](crate::CLASSES_OUT) bytes or more.
pub fn classes(rule: &[u8], out: &mut [u8], scratch: &mut [u8]) -> Result<Classes, Refused> {
    let [linked, classes, joins] = unpack(raw::classes(rule, out, scratch))?;
    Ok(Classes {
        linked,
        classes,
        joins,
    })
}

/// Whether the rule is strong.
pub fn strong(rule: &[u8], scratch: &mut [u8]) -> Result<Strength, Refused> {
    Ok(match unpack_bool(raw::strong(rule, scratch))? {
        true => Strength::Strong,
        false => Strength::Weak,
    })
}

/// The complement of a strong rule: the same elements, and the grade 3 − g for each lasso of grade g. It marks every linked pair
/// whose lassos it grades 1 or more, with that grade.
///
/// `out` has [`RULE_OUT`](crate::RULE_OUT) bytes or more. A weak rule is refused.
pub fn complement(
    rule: &[u8],
    out: &mut [u8],
    scratch: &mut [u8],
) -> Result<Complemented, Refused> {
    let length = unpack_length(raw::complement(rule, out, scratch), out.len())?;
    Ok(Complemented { length })
}

/// Whether no lasso is graded higher by the rule's own marks than by the marks section `second` in their place.
///
/// Otherwise one that is graded higher is written to `u` ([`U_OUT`](crate::U_OUT) bytes or more, 1 to n letters
/// written) and `v` ([`V_OUT`](crate::V_OUT) bytes or more, 1 to (n+1)² − 1 letters written). The rule may be weak.
pub fn included(
    rule: &[u8],
    second: &[u8],
    u: &mut [u8],
    v: &mut [u8],
    scratch: &mut [u8],
) -> Result<Inclusion, Refused> {
    let packed = raw::included(rule, second, u, v, scratch);
    match unpack(packed)? {
        [1, 0, 0] => Ok(Inclusion::Included),
        [0, u_letters, v_letters] if u_letters <= u.len() && v_letters <= v.len() => {
            Ok(Inclusion::NotIncluded {
                u: u_letters,
                v: v_letters,
            })
        }
        _ => foreign(
            packed,
            "neither an inclusion nor a lasso within the buffers",
        ),
    }
}
