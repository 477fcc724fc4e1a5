//! Inclusion of one marking in another.

use super::file::{check, check_second};
use super::reached::reached;
use super::search::search_grades;
use super::{lengths, on_memory, Needs, Refusal, Rule, Strategy, MARKS, SCRATCH, SECOND};

/// Writes the first word of an element, and answers how many letters it has.
fn write_start(rule: &Rule, s: usize, out: &mut [u8]) -> usize {
    let reached = reached(rule);
    let (mut length, mut at) = (0, s as u8);
    while at != 64 {
        out[length] = reached.letter[at as usize];
        at = reached.parent[at as usize];
        length += 1;
    }
    out[..length].reverse();
    length
}

/// None where the first marking is included; else how many letters u and v have.
pub fn included(
    strategy: Strategy,
    bytes: &[u8],
    second: &[u8],
    (u, v): (&mut [u8], &mut [u8]),
    scratch: &mut [u8],
) -> Result<Option<(usize, usize)>, Refusal> {
    lengths(&[(u.len(), 64), (v.len(), 4_224), (scratch.len(), SCRATCH)])?;
    on_memory(strategy, Needs::TwoMarkings, scratch, |memory| {
        let rule = check(strategy, bytes, memory)?;
        check_second(strategy, &rule, second, memory)?;
        let mut new = Vec::new();
        let escape = search_grades(&rule, memory, &mut new, (MARKS, SECOND));
        Ok(escape.map(|escape| {
            let start = write_start(&rule, escape.start, u);
            (start, escape.write_cycle(rule.n, v))
        }))
    })
}
