//! Why a pair is no state of a rule's automaton.

use super::{there_are, Asked};
use crate::files::Rule;
use crate::NONE;

pub fn words(asked: Asked<'_>) -> Option<String> {
    let (Asked::Kind { rule, state, .. } | Asked::Successors { rule, state, .. }) = asked else {
        return None;
    };
    let rule = Rule::take_apart(rule)?;
    let elements = usize::from(rule.elements);
    let there_are = there_are(elements, "element");
    let (s, e) = (state.s, state.e);
    let why = if s != NONE && s >= elements {
        format!("s is {s}, but {there_are}")
    } else if e >= elements {
        format!("e is {e}, but {there_are}")
    } else {
        let e = u8::try_from(e).ok()?;
        let square = rule.product(e, e)?;
        format!("{e}·{e} = {square}, so {e} is not idempotent")
    };
    Some(format!("{state} is no state: {why}"))
}
