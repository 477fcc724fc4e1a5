//! Whether a reduction that was made elsewhere is right.

use super::file::check;
use super::markings::decide;
use super::reductions::{blocks, lay_outcomes};
use super::{lengths, on_memory, Needs, Refusal, Rule, Strategy};
use super::{MARKS, PAIRS, SCRATCH, SECOND, WORK};

/// Whether the map takes elements to elements, onto all of them, products to products and letters to letters.
fn carries(first: &Rule, second: &Rule, map: &[u8]) -> bool {
    let n = first.n;
    if map.len() != n || first.images.len() != second.images.len() {
        return false;
    }
    let mut named = [false; 64];
    for to in map {
        if *to as usize >= second.n {
            return false;
        }
        named[*to as usize] = true;
    }
    let to = |s: usize| map[s] as usize;
    let letters = (0..first.images.len()).all(|a| to(first.image(a)) == second.image(a));
    let products = |s: usize| {
        let row = second.row(to(s));
        let own = first.row(s).iter().zip(map);
        own.into_iter()
            .all(|(product, t)| map[*product as usize] == row[*t as usize])
    };
    named[..second.n].iter().all(|named| *named) && letters && (0..n).all(products)
}

/// Whether the lassos with two values have the grade of those with the values they go to.
fn same_grades((n, first): (usize, &[u8]), second: &[u8], map: &[u8]) -> bool {
    (0..n).all(|s| {
        let row = &second[map[s] as usize * 64..][..64];
        let own = first[s * 64..][..n].iter().zip(map);
        own.into_iter().all(|(grade, z)| *grade == row[*z as usize])
    })
}

pub fn confirm(
    strategy: Strategy,
    first: &[u8],
    second: &[u8],
    map: &[u8],
    scratch: &mut [u8],
) -> Result<bool, Refusal> {
    lengths(&[(scratch.len(), SCRATCH)])?;
    on_memory(strategy, Needs::TwoMarkings, scratch, |memory| {
        // The search for a lasso uses no more than is in front of this.
        let (mut new, room) = (Vec::new(), memory.len());
        let (memory, beside) = match room < SCRATCH {
            true => {
                new.resize(3 * PAIRS, 0);
                (memory, &mut new[..])
            }
            false => {
                let (memory, beside) = memory.split_at_mut(SCRATCH - PAIRS);
                beside.fill(0);
                (memory, beside)
            }
        };
        let one = check(strategy, first, memory)?;
        let two = check(strategy, second, beside).map_err(|(number, _, at)| (number, 2, at))?;
        if !decide(&one, memory) {
            return Err((12, 1, 0));
        }
        if !carries(&one, &two, map) {
            return Ok(false);
        }
        // The second's marks to the front, the first's closure to where they were.
        memory[MARKS..SECOND].copy_from_slice(&beside[..PAIRS]);
        beside[..PAIRS].copy_from_slice(&memory[SECOND..WORK]);
        memory[SECOND..WORK].fill(0);
        if !decide(&two, memory) {
            return Ok(false);
        }
        let (tables, rest) = memory.split_at_mut(WORK);
        let mut more = Vec::new();
        let tables_of_outcomes = super::lent_or_new(rest, &mut more, 2 * PAIRS);
        let (own, other) = tables_of_outcomes.split_at_mut(PAIRS);
        lay_outcomes(&one, &beside[..PAIRS], own);
        lay_outcomes(&two, &tables[SECOND..], other);
        if !same_grades((one.n, own), other, map) {
            return Ok(false);
        }
        let blocks = blocks(&two, other);
        Ok((0..two.n).all(|s| blocks[s] as usize == s))
    })
}
