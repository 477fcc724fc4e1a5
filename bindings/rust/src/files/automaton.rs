//! A Büchi automaton as a Rust value.

use super::bytes::{count_byte, count_bytes, Rest};

/// A transition of an automaton.
#[derive(Clone, Copy, Debug, PartialEq, Eq, Hash, PartialOrd, Ord)]
pub struct Transition {
    /// The state that it leaves.
    pub from: u8,
    /// Its letter.
    pub letter: u8,
    /// The state that it goes to.
    pub to: u8,
}

/// A Büchi automaton.
///
/// ```
/// use duknavet::files::{Automaton, Transition};
///
/// let transition = |from, letter, to| Transition { from, letter, to };
/// let automaton = Automaton { kinds: vec![3], letters: 1, transitions: vec![transition(0, 0, 0)] };
/// assert_eq!(automaton.bytes(), [1, 3, 1, 1, 0, 0, 0, 0]);
/// assert_eq!(Automaton::take_apart(&automaton.bytes()), Some(automaton));
/// ```
#[derive(Clone, Debug, PartialEq, Eq, Hash)]
pub struct Automaton {
    /// For each state 0 plain, 1 initial, 2 final, 3 both; 1 to 6 states.
    pub kinds: Vec<u8>,
    /// How many letters it has, 1 to 16.
    pub letters: u8,
    /// The transitions, in the order of the file.
    pub transitions: Vec<Transition>,
}

impl Automaton {
    /// The bit of a kind that says initial.
    pub const INITIAL: u8 = 1;
    /// The bit of a kind that says final.
    pub const FINAL: u8 = 2;

    /// The bytes of its file. Where the fields are no automaton, these are not either, and a call that gets them says so.
    pub fn bytes(&self) -> Vec<u8> {
        let mut bytes = vec![count_byte(self.kinds.len())];
        bytes.extend(&self.kinds);
        bytes.push(self.letters);
        bytes.extend(count_bytes(self.transitions.len()));
        let triple = |transition: &Transition| [transition.from, transition.letter, transition.to];
        bytes.extend(self.transitions.iter().flat_map(triple));
        bytes
    }

    /// The three sections of a file that need not be an automaton; none where the bytes are not as many as its counts say.
    pub fn take_apart(bytes: &[u8]) -> Option<Automaton> {
        let mut rest = Rest::new(bytes);
        let states = rest.count()?;
        let kinds = rest.part(states)?.to_vec();
        let letters = count_byte(rest.count()?);
        let count = rest.wide_count()?;
        let triples = rest.part(3 * count)?.chunks_exact(3);
        let transition = |triple: &[u8]| Transition {
            from: triple[0],
            letter: triple[1],
            to: triple[2],
        };
        let transitions = triples.map(transition).collect();
        rest.is_empty().then_some(Automaton {
            kinds,
            letters,
            transitions,
        })
    }
}
