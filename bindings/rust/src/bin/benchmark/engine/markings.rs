//! Classes, strength, complement.

use super::file::{check, write};
use super::search::search_grades;
use super::{lengths, on_memory, Length, Needs, Refusal, Rule, Strategy};
use super::{MARKS, RULE_OUT, SCRATCH, SECOND, WORK};

/// Each linked pair (s, e) with each conjugate (t, f), by one pass over x and y.
#[inline]
fn conjugates(rule: &Rule, mut visit: impl FnMut(usize, usize, usize, usize)) {
    let n = rule.n;
    for x in 0..n {
        for y in 0..n {
            let (e, f) = (rule.product(x, y), rule.product(y, x));
            if rule.product(e, e) != e || rule.product(f, f) != f {
                continue;
            }
            for s in 0..n {
                if rule.product(s, e) == s {
                    visit(s, e, rule.product(s, x), f);
                }
            }
        }
    }
}

pub fn classes(
    strategy: Strategy,
    bytes: &[u8],
    out: &mut [u8],
    scratch: &mut [u8],
) -> Result<[usize; 3], Refusal> {
    lengths(&[(out.len(), 8_192), (scratch.len(), SCRATCH)])?;
    on_memory(strategy, Needs::Marks, scratch, |memory| {
        let rule = check(strategy, bytes, memory)?;
        let n = rule.n;
        let number = |out: &[u8], at: usize| u16::from_le_bytes([out[at], out[at + 1]]) as usize;
        for s in 0..n {
            for e in 0..n {
                let own = if rule.linked(s, e) { s * n + e } else { 65_535 };
                out[2 * (s * n + e)..][..2].copy_from_slice(&(own as u16).to_le_bytes());
            }
        }
        conjugates(&rule, |s, e, t, f| {
            let (at, other) = (2 * (s * n + e), t * n + f);
            if other < number(out, at) {
                out[at..at + 2].copy_from_slice(&(other as u16).to_le_bytes());
            }
        });
        let (mut linked, mut own) = (0, 0);
        for at in 0..n * n {
            let class = number(out, 2 * at);
            linked += (class != 65_535) as usize;
            own += (class == at) as usize;
        }
        Ok([linked, own, linked - own])
    })
}

/// Lays the closure of the marks out as the second table: the highest grade of each pair's conjugates.
fn close(rule: &Rule, memory: &mut [u8]) {
    let (marks, rest) = memory.split_at_mut(SECOND);
    conjugates(rule, |s, e, t, f| {
        let byte = &mut rest[s * 64 + e];
        *byte = marks[t * 64 + f].max(*byte);
    });
}

/// Strength of a checked rule; the closure of its marks stands in the second table then.
pub fn decide(rule: &Rule, memory: &mut [u8]) -> bool {
    close(rule, memory);
    let pairs = rule.n * 64;
    if memory[SECOND..][..pairs] == memory[MARKS..][..pairs] {
        return true;
    }
    search_grades(rule, memory, &mut Vec::new(), (SECOND, MARKS)).is_none()
}

pub fn strong(strategy: Strategy, bytes: &[u8], scratch: &mut [u8]) -> Result<bool, Refusal> {
    lengths(&[(scratch.len(), SCRATCH)])?;
    on_memory(strategy, Needs::TwoMarkings, scratch, |memory| {
        let rule = check(strategy, bytes, memory)?;
        Ok(decide(&rule, memory))
    })
}

/// Runs the work of a call that writes a rule, on a checked strong one; answers how many bytes the written one has.
pub fn from_strong(
    strategy: Strategy,
    bytes: &[u8],
    out: &mut [u8],
    scratch: &mut [u8],
    work: impl FnOnce(&Rule, &mut [u8], &mut [u8]) -> usize,
) -> Length {
    lengths(&[(out.len(), RULE_OUT), (scratch.len(), SCRATCH)])?;
    on_memory(strategy, Needs::TwoMarkings, scratch, |memory| {
        let rule = check(strategy, bytes, memory)?;
        if !decide(&rule, memory) {
            return Err((12, 1, 0));
        }
        Ok(work(&rule, memory, out))
    })
}

pub fn complement(strategy: Strategy, bytes: &[u8], out: &mut [u8], scratch: &mut [u8]) -> Length {
    from_strong(strategy, bytes, out, scratch, |rule, memory, out| {
        let closure = &memory[SECOND..WORK];
        let grade = |s: usize, e: usize| match rule.linked(s, e) {
            true => 3 - closure[s * 64 + e],
            false => 0,
        };
        write(out, (rule.n, rule.n), rule.table, rule.images, grade)
    })
}
