//! A rule's own automaton in one value.

use crate::files::Rule;
use crate::words::{explain, Asked, Explained};
use crate::{owned, Refusal, StateKind, NONE};
use std::collections::BTreeMap;
use std::fmt;

/// A state (s, e) of a rule's automaton. States are ordered by e, then by s, none last.
#[derive(Clone, Copy, Debug, PartialEq, Eq, Hash, PartialOrd, Ord)]
pub struct RuleState {
    /// The idempotent, which stays the same along a run.
    pub e: usize,
    /// An element, or [`NONE`](crate::NONE).
    pub s: usize,
}

impl fmt::Display for RuleState {
    fn fmt(&self, f: &mut fmt::Formatter<'_>) -> fmt::Result {
        match self.s {
            NONE => write!(f, "(none, {})", self.e),
            s => write!(f, "({s}, {})", self.e),
        }
    }
}

/// A state with its kind, and where each letter leads from it.
#[derive(Clone, Debug, PartialEq, Eq)]
pub struct ListedState {
    /// The state.
    pub state: RuleState,
    /// Its kind.
    pub kind: StateKind,
    /// For each letter the t of the states (t, e) that it leads to, in rising order, [`NONE`](crate::NONE) last.
    pub leads: Vec<Vec<u8>>,
}

impl ListedState {
    /// One state of a rule's automaton for a least grade.
    pub fn of(rule: &[u8], state: RuleState, least: u8) -> Result<ListedState, Explained> {
        let kind = owned::state_kind(rule, state.s, state.e, least)?;
        let leads = Asking::of(rule)?.leads(state)?;
        Ok(ListedState { state, kind, leads })
    }

    /// The states that a letter leads to.
    pub fn next(&self, letter: u8) -> impl Iterator<Item = RuleState> + '_ {
        let e = self.state.e;
        let leads = self.leads.get(usize::from(letter)).into_iter().flatten();
        leads.map(move |t| RuleState {
            e,
            s: usize::from(*t),
        })
    }
}

/// The automaton of a rule for a least grade, as the calls [`state_kind`](crate::state_kind) and [`successors`](crate::successors) tell it. It
/// accepts just the lassos that the rule gives that grade or more, whether the rule is strong or weak.
///
/// ```
/// use duknavet::RuleAutomaton;
///
/// // Only (0, 0) is marked, and no letter changes the second half of a state.
/// let rule = [2, 0, 0, 0, 1, 2, 0, 1, 1, 0, 0, 0, 3];
/// let automaton = RuleAutomaton::reached(&rule, 1)?;
/// let states: Vec<String> = automaton.states.iter().map(|own| own.state.to_string()).collect();
/// assert_eq!(states, ["(0, 0)", "(1, 0)", "(none, 0)"]);
/// # Ok::<(), duknavet::words::Explained>(())
/// ```
#[derive(Clone, Debug, PartialEq, Eq)]
pub struct RuleAutomaton {
    /// How many letters the rule has.
    pub letters: u8,
    /// States in their order.
    pub states: Vec<ListedState>,
}

impl RuleAutomaton {
    /// All of it.
    pub fn whole(rule: &[u8], least: u8) -> Result<RuleAutomaton, Explained> {
        let asking = Asking::of(rule)?;
        let states = asking.kinds(least)?.into_iter();
        let listed = states.map(|(state, kind)| {
            let leads = asking.leads(state)?;
            Ok(ListedState { state, kind, leads })
        });
        Ok(RuleAutomaton {
            letters: asking.letters,
            states: listed.collect::<Result<_, _>>()?,
        })
    }

    /// The states that are reached from initial ones, these included: the same lassos are accepted without the others.
    pub fn reached(rule: &[u8], least: u8) -> Result<RuleAutomaton, Explained> {
        let asking = Asking::of(rule)?;
        let kinds = asking.kinds(least)?;
        let initial = kinds
            .iter()
            .filter(|(_, kind)| **kind == StateKind::Initial);
        let mut waiting: Vec<RuleState> = initial.map(|(state, _)| *state).collect();
        let mut found: BTreeMap<RuleState, ListedState> = BTreeMap::new();
        while let Some(state) = waiting.pop() {
            let Some(kind) = kinds.get(&state).filter(|_| !found.contains_key(&state)) else {
                continue;
            };
            let listed = ListedState {
                state,
                kind: *kind,
                leads: asking.leads(state)?,
            };
            let next = (0..asking.letters).flat_map(|letter| listed.next(letter));
            waiting.extend(next.filter(|to| !found.contains_key(to)));
            found.insert(state, listed);
        }
        Ok(RuleAutomaton {
            letters: asking.letters,
            states: found.into_values().collect(),
        })
    }
}

/// A rule that passes the checks, to be asked for its automaton.
struct Asking<'a> {
    rule: &'a [u8],
    elements: usize,
    letters: u8,
}

impl Asking<'_> {
    fn of(rule: &[u8]) -> Result<Asking<'_>, Explained> {
        let parts = Rule::read(rule).map_err(|refused| explain(refused, Asked::Rule(rule)))?;
        Ok(Asking {
            rule,
            elements: usize::from(parts.elements),
            letters: u8::try_from(parts.images.len()).unwrap_or(u8::MAX),
        })
    }

    /// All states with their kinds. If (none, e) is one, so is (s, e) for each element s, and else none is.
    fn kinds(&self, least: u8) -> Result<BTreeMap<RuleState, StateKind>, Explained> {
        let mut kinds = BTreeMap::new();
        for e in 0..self.elements {
            for s in std::iter::once(NONE).chain(0..self.elements) {
                match owned::state_kind(self.rule, s, e, least) {
                    Ok(kind) => drop(kinds.insert(RuleState { e, s }, kind)),
                    Err(explained) if explained.refused.refusal == Refusal::NoSuchState => break,
                    Err(explained) => return Err(explained),
                }
            }
        }
        Ok(kinds)
    }

    /// Where each letter leads from a state.
    fn leads(&self, state: RuleState) -> Result<Vec<Vec<u8>>, Explained> {
        let letters = 0..self.letters;
        let lead = |letter| owned::successors(self.rule, state.s, state.e, letter);
        letters.map(lead).collect()
    }
}
