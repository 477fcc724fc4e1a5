//! Automata to rules.

use super::file::write;
use super::matrices::{Matrices, Matrix};
use super::sections::{below, ended, section};
use super::{lengths, on_memory, Length, Needs, Refusal, Strategy, PAIRS, RULE_OUT, SCRATCH};

/// A checked automaton: the kind of each state, and the matrix of each letter.
struct Automaton<'a> {
    kinds: &'a [u8],
    letters: usize,
    matrices: [Matrix; 16],
}

fn check(strategy: Strategy, bytes: &[u8]) -> Result<Automaton<'_>, Refusal> {
    let (states, kinds, at) = section(bytes, 0, 1, (1, 1, 6), |states| states)?;
    below(strategy, kinds, 4, 1, 1)?;
    let (letters, _, at) = section(bytes, at, 1, (1, 1, 16), |_| 0)?;
    let (_, triples, end) = section(bytes, at, 1, (2, 0, 576), |count| 3 * count)?;
    let (begin, limits) = (at + 2, [states, letters, states]);
    if let Some(i) = (0..triples.len()).find(|i| triples[*i] as usize >= limits[i % 3]) {
        return Err((3, 1, (begin + i) as u64));
    }
    ended(bytes, 1, end)?;
    let mut matrices = [[[0; 6]; 6]; 16];
    for (i, triple) in triples.chunks_exact(3).enumerate() {
        let (p, a, q) = (triple[0] as usize, triple[1] as usize, triple[2] as usize);
        if matrices[a][p][q] != 0 {
            return Err((8, 1, (begin + 3 * i) as u64));
        }
        matrices[a][p][q] = 1 + u8::from((kinds[p] | kinds[q]) & 2 != 0);
    }
    Ok(Automaton {
        kinds,
        letters,
        matrices,
    })
}

pub fn automaton_rule(
    strategy: Strategy,
    bytes: &[u8],
    out: &mut [u8],
    scratch: &mut [u8],
) -> Length {
    lengths(&[(out.len(), RULE_OUT), (scratch.len(), SCRATCH)])?;
    on_memory(strategy, Needs::Marks, scratch, |memory| {
        let automaton = check(strategy, bytes)?;
        let (kinds, letters) = (automaton.kinds, automaton.letters);
        let all = Matrices::list(kinds.len(), &automaton.matrices[..letters])?;
        let table = &mut memory[..PAIRS];
        match strategy {
            Strategy::Plain => all.multiply(table),
            Strategy::Same => all.look_up(table),
        }
        let at = |s: usize, t: usize| table[s * 64 + t] as usize;
        let marked = |s: usize, e: usize| {
            at(e, e) == e
                && at(s, e) == s
                && (0..kinds.len()).any(|p| {
                    let through = |q: usize| all.list[s][p][q] != 0 && all.list[e][q][q] == 2;
                    kinds[p] & 1 != 0 && (0..kinds.len()).any(through)
                })
        };
        let grade = |s: usize, e: usize| 3 * u8::from(marked(s, e));
        let images = &all.images[..letters];
        Ok(write(out, (all.count, 64), table, images, grade))
    })
}
