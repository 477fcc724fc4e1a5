//! A rule as a Büchi automaton, asked state by state.
//!
//! A state is (s, e): e is an idempotent element, e·e = e, and s an element or [`NONE`](crate::NONE). Initial are the pairs that the rule
//! marks with a least grade or more, final the states whose s is none. A letter a leads from (s, e) to (t, e) if h(a)·t is s or s·e, where
//! h(a) is the letter's element, h(a)·none is h(a), and none·e is e. The automaton accepts just the lassos that the rule gives the least
//! grade or more, whether the rule is strong or weak.

use crate::answer::{foreign, unpack, unpack_length};
use crate::{raw, Refused};

/// What a state of a rule's automaton is. No state is both initial and final.
#[derive(Clone, Copy, Debug, PartialEq, Eq, Hash)]
pub enum StateKind {
    /// Neither.
    Plain,
    /// Marked with the least grade or more.
    Initial,
    /// s is none.
    Final,
}

/// How many states a letter leads to.
#[derive(Clone, Copy, Debug, PartialEq, Eq, Hash)]
pub struct Successors {
    /// How many bytes of the buffer name one, from its first byte on.
    pub count: usize,
}

/// The kind of the state (s, e) for a least grade, 1 to 3. The rule may be weak.
pub fn state_kind(
    rule: &[u8],
    s: usize,
    e: usize,
    least: u8,
    scratch: &mut [u8],
) -> Result<StateKind, Refused> {
    let packed = raw::state_kind(rule, s, e, least, scratch);
    match unpack(packed)? {
        [0, 0, 0] => Ok(StateKind::Plain),
        [1, 0, 0] => Ok(StateKind::Initial),
        [2, 0, 0] => Ok(StateKind::Final),
        _ => foreign(packed, "the result is no state's kind"),
    }
}

/// The states that a letter leads to from (s, e): the t of each (t, e), a byte each in rising order, [`NONE`](crate::NONE) last. The rule may
/// be weak.
///
/// `out` has [`SUCCESSORS_OUT`](crate::SUCCESSORS_OUT) bytes or more.
pub fn successors(
    rule: &[u8],
    s: usize,
    e: usize,
    letter: u8,
    out: &mut [u8],
    scratch: &mut [u8],
) -> Result<Successors, Refused> {
    let packed = raw::successors(rule, s, e, letter, out, scratch);
    let count = unpack_length(packed, out.len())?;
    Ok(Successors { count })
}
