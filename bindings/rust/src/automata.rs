//! The rule of a Büchi automaton.

use crate::answer::unpack_length;
use crate::{raw, Refused};

/// A rule that was made from an automaton.
#[derive(Clone, Copy, Debug, PartialEq, Eq, Hash)]
pub struct Translated {
    /// How many bytes it has, from the first byte of the buffer on.
    pub length: usize,
}

/// The strong rule that gives grade 3 to the lassos on which some run of the automaton from an initial state meets a final state
/// again and again, and grade 0 to all others. Its elements are the matrices of the non-empty words; an automaton with more than 64
/// is refused.
///
/// `out` has [`RULE_OUT`](crate::RULE_OUT) bytes or more.
pub fn automaton_rule(
    automaton: &[u8],
    out: &mut [u8],
    scratch: &mut [u8],
) -> Result<Translated, Refused> {
    let length = unpack_length(raw::automaton_rule(automaton, out, scratch), out.len())?;
    Ok(Translated { length })
}
