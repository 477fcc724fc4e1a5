//! An automaton whose states or transitions accept, and the automaton file that accepts the same.

use super::condition::Valuations;
use crate::files::{Automaton, Transition};
use crate::text::{Place, TextError};
use std::collections::BTreeMap;

/// The most states that are looked at.
const MOST: usize = 4096;

/// That too many states are left for an automaton file.
pub fn too_many_left(states: usize) -> String {
    format!("after trimming {states} states are left, more than 6")
}

pub struct Edge {
    pub from: usize,
    pub letters: Valuations,
    pub to: usize,
    pub accepting: bool,
}

/// States are numbered from 0 in the order in which they were first named.
#[derive(Default)]
pub struct Graph {
    pub initial: Vec<usize>,
    pub edges: Vec<Edge>,
    numbers: BTreeMap<String, usize>,
    /// Whether runs accept that meet the state again and again.
    finals: Vec<bool>,
}

impl Graph {
    pub fn states(&self) -> usize {
        self.finals.len()
    }

    /// The state of a name; a new one where there is none.
    pub fn state(&mut self, name: &str) -> usize {
        let next = self.finals.len();
        let number = *self.numbers.entry(name.to_string()).or_insert(next);
        if number == next {
            self.finals.push(false);
        }
        number
    }

    pub fn accept(&mut self, state: usize) {
        if let Some(own) = self.finals.get_mut(state) {
            *own = true;
        }
    }

    /// The automaton without useless states. Where transitions accept and not states, a state that such a transition goes to is
    /// doubled: the copy, which is final, is met by way of it.
    pub fn automaton(&self, letters: u8) -> Result<Automaton, TextError> {
        let start = Place { line: 1, column: 1 };
        if self.states() > MOST {
            let message = format!("there are {} states, more than {MOST}", self.states());
            return Err(TextError::new(start, message));
        }
        let doubled = self.doubled();
        let kept = doubled.useful();
        if kept.len() > 255 {
            return Err(TextError::new(start, too_many_left(kept.len())));
        }
        Ok(doubled.only(&kept, letters))
    }

    /// The same with states that accept. Copies have the numbers behind the states'.
    fn doubled(&self) -> Plain {
        let states = self.states();
        // A state all of whose transitions accept is final itself.
        let mut leaving = vec![(false, true); states];
        for edge in &self.edges {
            let (any, all) = &mut leaving[edge.from];
            *any = true;
            *all &= edge.accepting;
        }
        let finals = self.finals.iter().zip(&leaving);
        let finals: Vec<bool> = finals
            .map(|(own, (any, all))| *own || *any && *all)
            .collect();
        let marks = |edge: &Edge| edge.accepting && !finals[edge.from] && !finals[edge.to];
        let mut copies: BTreeMap<usize, usize> = BTreeMap::new();
        for edge in self.edges.iter().filter(|edge| marks(edge)) {
            let next = states + copies.len();
            copies.entry(edge.to).or_insert(next);
        }
        let mut plain = Plain {
            initial: self.initial.clone(),
            finals: finals.clone(),
            edges: Vec::new(),
        };
        plain.finals.resize(states + copies.len(), true);
        for edge in &self.edges {
            let to = match marks(edge) {
                true => copies[&edge.to],
                false => edge.to,
            };
            let froms = [Some(edge.from), copies.get(&edge.from).copied()];
            for from in froms.into_iter().flatten() {
                plain.edges.push((from, edge.letters, to));
            }
        }
        // A run may as well begin in a copy: a final state at the start changes nothing, and the state may then be useless.
        for state in &mut plain.initial {
            *state = copies.get(state).copied().unwrap_or(*state);
        }
        plain
    }
}

/// An automaton whose states accept.
struct Plain {
    initial: Vec<usize>,
    finals: Vec<bool>,
    edges: Vec<(usize, Valuations, usize)>,
}

impl Plain {
    /// The states that some run that accepts meets, in their order.
    fn useful(&self) -> Vec<usize> {
        let (mut forwards, mut backwards) = (self.neighbours(), self.neighbours());
        for (from, letters, to) in &self.edges {
            if *letters != 0 {
                forwards[*from].push(*to);
                backwards[*to].push(*from);
            }
        }
        let reached = closure(&forwards, self.initial.iter().copied());
        let component = components(&forwards, &backwards);
        // A state is on a cycle if it leads to a state of its own component, itself included.
        let repeated = (0..self.finals.len()).filter(|state| {
            let mut next = forwards[*state].iter();
            let on_cycle = next.any(|to| component[*to] == component[*state]);
            self.finals[*state] && reached[*state] && on_cycle
        });
        let leading = closure(&backwards, repeated);
        (0..self.finals.len())
            .filter(|state| reached[*state] && leading[*state])
            .collect()
    }

    fn neighbours(&self) -> Vec<Vec<usize>> {
        vec![Vec::new(); self.finals.len()]
    }

    /// The automaton of some of the states; one that accepts nothing where there are none.
    fn only(&self, kept: &[usize], letters: u8) -> Automaton {
        let number = |state: usize| {
            let place = kept.iter().position(|own| *own == state)?;
            u8::try_from(place).ok()
        };
        let kind = |state: &usize| {
            let initial = self.initial.contains(state) as u8 * Automaton::INITIAL;
            initial + self.finals[*state] as u8 * Automaton::FINAL
        };
        let mut transitions = Vec::new();
        for (from, set, to) in &self.edges {
            let (Some(from), Some(to)) = (number(*from), number(*to)) else {
                continue;
            };
            for letter in (0..letters).filter(|letter| set >> letter & 1 == 1) {
                transitions.push(Transition { from, letter, to });
            }
        }
        transitions.sort_unstable();
        transitions.dedup();
        let mut kinds: Vec<u8> = kept.iter().map(kind).collect();
        if kinds.is_empty() {
            kinds.push(Automaton::INITIAL);
        }
        Automaton {
            kinds,
            letters,
            transitions,
        }
    }
}

/// The states that are reached from some, these included.
fn closure(next: &[Vec<usize>], from: impl Iterator<Item = usize>) -> Vec<bool> {
    let mut found = vec![false; next.len()];
    let mut waiting: Vec<usize> = from.collect();
    while let Some(state) = waiting.pop() {
        if !std::mem::replace(&mut found[state], true) {
            waiting.extend(&next[state]);
        }
    }
    found
}

/// A number for each state, equal for states that lead to each other. The states are taken by when a walk along the edges leaves them,
/// the last first, and each takes with it those that lead to it (Kosaraju).
fn components(forwards: &[Vec<usize>], backwards: &[Vec<usize>]) -> Vec<usize> {
    let mut left = Vec::new();
    let mut entered = vec![false; forwards.len()];
    for start in 0..forwards.len() {
        let mut walk = vec![(start, 0)];
        while let Some((state, next)) = walk.pop() {
            if next == 0 && std::mem::replace(&mut entered[state], true) {
                continue;
            }
            match forwards[state].get(next) {
                Some(to) => {
                    walk.push((state, next + 1));
                    if !entered[*to] {
                        walk.push((*to, 0));
                    }
                }
                None => left.push(state),
            }
        }
    }
    let mut component = vec![usize::MAX; forwards.len()];
    for start in left.into_iter().rev() {
        let mut waiting = vec![start];
        while let Some(state) = waiting.pop() {
            if component[state] == usize::MAX {
                component[state] = start;
                waiting.extend(&backwards[state]);
            }
        }
    }
    component
}
