//! The grade of a lasso.

use super::file::check;
use super::sections::first_out;
use super::{lengths, lent_or_new, on_memory, Needs, Refusal, Rule, Strategy, SCRATCH, SECOND};

fn words(strategy: Strategy, rule: &Rule, u: &[u8], v: &[u8]) -> Result<(), Refusal> {
    for (input, word, least) in [(1, u, 0), (2, v, 1)] {
        if word.len() < least || word.len() > 4_224 {
            return Err((11, input, 0));
        }
    }
    for (input, word) in [(1, u), (2, v)] {
        if let Some(i) = first_out(strategy, word, rule.images.len()) {
            return Err((10, input, i as u64));
        }
    }
    Ok(())
}

/// The highest grade of the pairs that a power of the turn's value gives at some cut of a turn of v; and the exponent that makes v's own
/// value idempotent.
fn grade(rule: &Rule, u: &[u8], v: &[u8], memory: &mut [u8]) -> (u8, usize) {
    let (marks, rest) = memory.split_at_mut(SECOND);
    let mut new = Vec::new();
    let values = lent_or_new(rest, &mut new, 2 * v.len());
    let (beginnings, ends) = values.split_at_mut(v.len());
    let letter = |a: &u8| rule.image(*a as usize);
    // A turn of the cycle stands for an empty start.
    let u = if u.is_empty() { v } else { u };
    let s = u[1..]
        .iter()
        .fold(letter(&u[0]), |s, a| rule.product(s, letter(a)));
    let mut x = letter(&v[0]);
    beginnings[0] = x as u8;
    for (a, slot) in v.iter().zip(beginnings.iter_mut()).skip(1) {
        x = rule.product(x, letter(a));
        *slot = x as u8;
    }
    let last = v.len() - 1;
    let mut y = letter(&v[last]);
    ends[last] = y as u8;
    for (a, slot) in v.iter().zip(ends.iter_mut()).rev().skip(1) {
        y = rule.product(letter(a), y);
        *slot = y as u8;
    }
    // No pair has a higher grade than this one: with it the search ends.
    let highest = *marks[..rule.n * 64].iter().max().expect("a pair");
    let mut found = 0;
    for j in 0..v.len() {
        if found == highest {
            break;
        }
        let x = beginnings[j] as usize;
        let r = match j < last {
            true => rule.product(ends[j + 1] as usize, x),
            false => x,
        };
        let (e, exponent) = rule.power(r);
        let mut p = rule.product(rule.product(s, x), e);
        for _ in 0..exponent {
            found = marks[p * 64 + e].max(found);
            if found == highest {
                break;
            }
            p = rule.product(p, r);
        }
    }
    (found, rule.power(x).1)
}

pub fn member(
    strategy: Strategy,
    bytes: &[u8],
    u: &[u8],
    v: &[u8],
    scratch: &mut [u8],
) -> Result<(u8, usize), Refusal> {
    lengths(&[(scratch.len(), SCRATCH)])?;
    on_memory(strategy, Needs::Marks, scratch, |memory| {
        let rule = check(strategy, bytes, memory)?;
        words(strategy, &rule, u, v)?;
        Ok(grade(&rule, u, v, memory))
    })
}
