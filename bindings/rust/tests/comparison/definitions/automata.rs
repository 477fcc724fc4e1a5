//! Automata: paths and runs, followed state by state.

use super::checks::Automaton;
use super::runs;
use std::collections::hash_map::{Entry, HashMap};

/// A word's matrix: entry p·states + q.
pub type Matrix = Vec<u8>;

impl Automaton {
    pub fn states(&self) -> usize {
        self.kinds.len()
    }

    pub fn initial(&self, q: usize) -> bool {
        self.kinds[q] & 1 != 0
    }

    pub fn is_final(&self, q: usize) -> bool {
        self.kinds[q] & 2 != 0
    }

    pub fn bytes(&self) -> Vec<u8> {
        let mut bytes = vec![self.states() as u8];
        bytes.extend(&self.kinds);
        bytes.push(self.letters as u8);
        bytes.extend((self.transitions.len() as u16).to_le_bytes());
        for (from, letter, to) in &self.transitions {
            bytes.extend([*from, *letter, *to]);
        }
        bytes
    }

    /// Where the paths of a word from p can end, with and without having met a final state: bit 2·q + met.
    fn ends(&self, p: usize, word: &[u8]) -> u64 {
        let bit = |q: usize, met: bool| 1u64 << (2 * q + met as usize);
        let mut ends = bit(p, self.is_final(p));
        for a in word {
            let mut next = 0;
            for (from, letter, to) in &self.transitions {
                for met in [false, true] {
                    if letter == a && ends & bit(*from as usize, met) != 0 {
                        next |= bit(*to as usize, met || self.is_final(*to as usize));
                    }
                }
            }
            ends = next;
        }
        ends
    }

    /// The matrix of a word: 2 where some path meets a final state, 1 where only other paths exist, 0 where none does.
    pub fn matrix(&self, word: &[u8]) -> Matrix {
        let entry = |ends: u64, q: usize| match (ends >> (2 * q)) & 3 {
            0 => 0,
            1 => 1,
            _ => 2,
        };
        let row = |p: usize| {
            let ends = self.ends(p, word);
            (0..self.states()).map(move |q| entry(ends, q))
        };
        (0..self.states()).flat_map(row).collect()
    }

    /// A word for each matrix of a non-empty word, or None if there are more than 64. A matrix decides that of the word with
    /// one letter more, so a word need be extended only where its matrix is new.
    pub fn matrices(&self) -> Option<HashMap<Matrix, Vec<u8>>> {
        let mut found: HashMap<Matrix, Vec<u8>> = HashMap::new();
        let mut list: Vec<Vec<u8>> = vec![Vec::new()];
        let mut next = 0;
        while next < list.len() {
            for a in 0..self.letters as u8 {
                let word = [&list[next][..], &[a]].concat();
                let matrix = self.matrix(&word);
                if let Entry::Vacant(entry) = found.entry(matrix) {
                    entry.insert(word.clone());
                    list.push(word);
                    if found.len() > 64 {
                        return None;
                    }
                }
            }
            next += 1;
        }
        Some(found)
    }

    /// Whether a pair of matrices is to be marked, if it is linked.
    pub fn marks(&self, r: &Matrix, e: &Matrix) -> bool {
        let m = self.states();
        let through = |p: usize, q: usize| r[p * m + q] != 0 && e[q * m + q] == 2;
        (0..m).any(|p| self.initial(p) && (0..m).any(|q| through(p, q)))
    }

    /// Whether some run on u, then v for ever, from an initial state meets a final state again and again.
    pub fn accepts(&self, u: &[u8], v: &[u8]) -> bool {
        let next = |q: usize, a: u8| {
            let steps = self.transitions.iter();
            let from = steps.filter(|(from, letter, _)| *from as usize == q && *letter == a);
            from.map(|(_, _, to)| *to as usize).collect()
        };
        let (initial, is_final) = (|q| self.initial(q), |q| self.is_final(q));
        runs::accepted(self.states(), initial, is_final, next, (u, v))
    }
}
