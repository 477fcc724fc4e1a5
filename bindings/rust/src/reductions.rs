//! The smallest strong rule with the same grades, at once or by rounds, and whether one that was made elsewhere is right.

use crate::answer::{foreign, unpack, unpack_bool, unpack_length};
use crate::{raw, Refused};

/// A reduction that was written.
#[derive(Clone, Copy, Debug, PartialEq, Eq, Hash)]
pub struct Reduced {
    /// How many bytes it has, from the first byte of the buffer on.
    pub length: usize,
}

/// The smallest strong rule that gives every lasso the grade that a strong rule gives it; it marks every linked pair whose lassos it
/// grades 1 or more, with that grade.
///
/// The first bytes of `map`, one for each element of the rule, say which element of the reduction it went to; the others are kept.
///
/// `out` has [`RULE_OUT`](crate::RULE_OUT) bytes or more, `map` [`MAP_OUT`](crate::MAP_OUT). A weak rule is refused.
pub fn reduce(
    rule: &[u8],
    out: &mut [u8],
    map: &mut [u8],
    scratch: &mut [u8],
) -> Result<Reduced, Refused> {
    let length = unpack_length(raw::reduce(rule, out, map, scratch), out.len())?;
    Ok(Reduced { length })
}

/// Whether a reduction that was made elsewhere is right.
#[derive(Clone, Copy, Debug, PartialEq, Eq, Hash)]
pub enum Confirmation {
    /// The second rule is the first one reduced by the map.
    Yes,
    /// It is not.
    No,
}

/// Whether the rule `second` is the strong rule `first` reduced, where the bytes of `map` say for each element of the first which element
/// of the second it went to.
///
/// Yes exactly if there is a byte for each element of the first rule, each names an element of the second, and each of these is named;
/// products go to products and the letters' elements to the letters' elements, as many in both; every lasso has the same grade by both
/// rules; and the second is strong and no strong rule with these grades has fewer elements. Its elements may be numbered in any way, and
/// its marks may be any that give the grades. What [`reduce`] writes gets yes.
///
/// No is answered only where nothing is refused: a weak first rule is refused, and what is wrong with the second file alone has input 2.
/// The map may have any length. The three inputs may be the same bytes.
pub fn confirm(
    first: &[u8],
    second: &[u8],
    map: &[u8],
    scratch: &mut [u8],
) -> Result<Confirmation, Refused> {
    Ok(
        match unpack_bool(raw::confirm(first, second, map, scratch))? {
            true => Confirmation::Yes,
            false => Confirmation::No,
        },
    )
}

/// Where the rounds of a reduction stand.
#[derive(Clone, Copy, Debug, PartialEq, Eq, Hash)]
pub struct Partition {
    /// How many rounds were done after round 0: at most the limit, and as many as that where they are not finished.
    pub rounds: usize,
    /// Whether one round more would change nothing. The blocks are then the elements of the smallest rule.
    pub finished: bool,
}

/// The reduction of a strong rule by rounds: which elements stand together after at most `limit` rounds.
///
/// Round 0 puts s and t together if lassos with the values (s, z) and (t, z), and those with (z, s) and (z, t), have equal grades for
/// every element z. A further round keeps them together if their products with each letter's element, on the right and on the left,
/// stood together too. The rounds stop at the first that one more would not change, or at the limit.
///
/// The first bytes of `blocks`, one for each element, are the least elements of the elements' blocks; the others are kept. `blocks` has
/// [`BLOCKS`](crate::BLOCKS) bytes or more, and `limit` is at most [`MOST_ROUNDS`](crate::MOST_ROUNDS); a weak rule is refused.
pub fn reduce_rounds(
    rule: &[u8],
    limit: usize,
    blocks: &mut [u8],
    scratch: &mut [u8],
) -> Result<Partition, Refused> {
    let packed = raw::reduce_rounds(rule, limit, blocks, scratch);
    match unpack(packed)? {
        [rounds, finished @ 0..=1, 0] if rounds <= limit => Ok(Partition {
            rounds,
            finished: finished == 1,
        }),
        _ => foreign(packed, "the result is no number of rounds within the limit"),
    }
}
