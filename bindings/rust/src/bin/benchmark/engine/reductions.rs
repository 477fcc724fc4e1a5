//! Reduction by rounds.

use super::file::write;
use super::markings::from_strong;
use super::reached::reached;
use super::{lengths, lent_or_new, Length, Rule, Strategy, PAIRS, SECOND, WORK};

/// The least element of each element's block, once no round changes anything.
pub fn blocks(rule: &Rule, outcomes: &[u8]) -> [u8; 64] {
    let n = rule.n;
    let alike = |s: usize, t: usize| {
        outcomes[s * 64..][..n] == outcomes[t * 64..][..n]
            && (0..n).all(|z| outcomes[z * 64 + s] == outcomes[z * 64 + t])
    };
    let mut blocks = [0u8; 64];
    for (s, block) in blocks[..n].iter_mut().enumerate() {
        *block = (0..s).find(|t| alike(*t, s)).unwrap_or(s) as u8;
    }
    loop {
        let kept = |s: usize, t: usize| {
            let together = |s: usize, t: usize| blocks[s] == blocks[t];
            together(s, t)
                && rule.images.iter().all(|h| {
                    let h = *h as usize;
                    together(rule.product(s, h), rule.product(t, h))
                        && together(rule.product(h, s), rule.product(h, t))
                })
        };
        let mut next = [0u8; 64];
        for (s, block) in next[..n].iter_mut().enumerate() {
            *block = (0..s).find(|t| kept(*t, s)).unwrap_or(s) as u8;
        }
        if next == blocks {
            return blocks;
        }
        blocks = next;
    }
}

/// Lays out the grades of the lassos with each two values, from the closure of the marks.
pub fn lay_outcomes(rule: &Rule, closure: &[u8], outcomes: &mut [u8]) {
    for z in 0..rule.n {
        let (e, _) = rule.power(z);
        for s in 0..rule.n {
            outcomes[s * 64 + z] = closure[rule.product(s, e) * 64 + e];
        }
    }
}

/// Writes the rule of the blocks, from the closure of the marks as the second table, and the number of each element's block; answers its
/// length.
fn write_reduced(rule: &Rule, memory: &mut [u8], out: &mut [u8], map: &mut [u8]) -> usize {
    let n = rule.n;
    let (tables, rest) = memory.split_at_mut(WORK);
    let closure = &tables[SECOND..];
    let mut new = Vec::new();
    let (outcomes, table) = lent_or_new(rest, &mut new, 2 * PAIRS).split_at_mut(PAIRS);
    lay_outcomes(rule, closure, outcomes);
    let blocks = blocks(rule, outcomes);
    // Blocks are numbered by the first of their elements in the order of first words.
    let reached = reached(rule);
    let (mut numbers, mut elements, mut count) = ([64u8; 64], [0u8; 64], 0);
    for s in &reached.order[..n] {
        let block = blocks[*s as usize] as usize;
        if numbers[block] == 64 {
            numbers[block] = count as u8;
            elements[count] = *s;
            count += 1;
        }
    }
    let number = |s: usize| numbers[blocks[s] as usize];
    for (s, to) in map[..n].iter_mut().enumerate() {
        *to = number(s);
    }
    for s in 0..count {
        for t in 0..count {
            let product = rule.product(elements[s] as usize, elements[t] as usize);
            table[s * 64 + t] = number(product);
        }
    }
    let mut images = [0; 16];
    for (a, image) in rule.images.iter().enumerate() {
        images[a] = number(*image as usize);
    }
    let at = |s: usize, t: usize| table[s * 64 + t] as usize;
    let grade = |s: usize, e: usize| match at(e, e) == e && at(s, e) == s {
        true => outcomes[elements[s] as usize * 64 + elements[e] as usize],
        false => 0,
    };
    let images = &images[..rule.images.len()];
    write(out, (count, 64), table, images, grade)
}

pub fn reduce(
    strategy: Strategy,
    bytes: &[u8],
    (out, map): (&mut [u8], &mut [u8]),
    scratch: &mut [u8],
) -> Length {
    lengths(&[(map.len(), 64)])?;
    from_strong(strategy, bytes, out, scratch, |rule, memory, out| {
        write_reduced(rule, memory, out, map)
    })
}
