//! Rule files: the checks, and a rule written.

use super::associativity::{tests, triples, worth_testing};
use super::reached::reached;
use super::sections::{below, ended, marks_fit, section};
use super::{Refusal, Rule, Strategy, MARKS, SECOND, WORK};

/// 5 and 6.
fn check_table(strategy: Strategy, rule: &Rule) -> Result<(), Refusal> {
    if strategy == Strategy::Plain {
        triples(rule)?;
    }
    let reached = reached(rule);
    let all = reached.count == rule.n;
    if strategy == Strategy::Same {
        if all && worth_testing(rule, &reached) && tests(rule, &reached) {
            return Ok(());
        }
        triples(rule)?;
    }
    match (0..rule.n).find(|s| !reached.found[*s]) {
        Some(s) => Err((6, 1, s as u64)),
        None => Ok(()),
    }
}

/// 7 and 8, mark by mark; the grades are laid out in a table of zeros.
fn check_marks(
    rule: &Rule,
    triples: &[u8],
    input: u8,
    begin: usize,
    table: &mut [u8],
) -> Result<(), Refusal> {
    for (i, triple) in triples.chunks_exact(3).enumerate() {
        let (s, e) = (triple[0] as usize, triple[1] as usize);
        let place = (begin + 3 * i) as u64;
        if !rule.linked(s, e) {
            return Err((7, input, place));
        }
        let byte = &mut table[s * 64 + e];
        if *byte != 0 {
            return Err((8, input, place));
        }
        *byte = triple[2];
    }
    Ok(())
}

/// The idempotent power of every element.
fn find_powers(rule: &mut Rule) {
    let mut powers = [(0, 0); 64];
    for (s, power) in powers[..rule.n].iter_mut().enumerate() {
        *power = rule.find_power(s);
    }
    rule.powers = Some(powers);
}

/// Every check of a rule file; its marks stand in memory then.
pub fn check<'a>(
    strategy: Strategy,
    bytes: &'a [u8],
    memory: &mut [u8],
) -> Result<Rule<'a>, Refusal> {
    let (n, table, at) = section(bytes, 0, 1, (1, 1, 64), |n| n * n)?;
    below(strategy, table, n, 1, 1)?;
    let (_, images, marks_at) = section(bytes, at, 1, (1, 1, 16), |k| k)?;
    below(strategy, images, n, 1, at + 1)?;
    let (_, triples, end) = section(bytes, marks_at, 1, (2, 0, 4_096), |c| 3 * c)?;
    marks_fit(strategy, triples, n, 1, marks_at + 2)?;
    ended(bytes, 1, end)?;
    let mut rule = Rule {
        n,
        table,
        images,
        powers: None,
    };
    check_table(strategy, &rule)?;
    check_marks(&rule, triples, 1, marks_at + 2, &mut memory[MARKS..SECOND])?;
    if strategy == Strategy::Plain {
        find_powers(&mut rule);
    }
    Ok(rule)
}

/// The checks of a marks section as a second input; its marks stand in the second table then.
pub fn check_second(
    strategy: Strategy,
    rule: &Rule,
    bytes: &[u8],
    memory: &mut [u8],
) -> Result<(), Refusal> {
    let (_, triples, end) = section(bytes, 0, 2, (2, 0, 4_096), |c| 3 * c)?;
    marks_fit(strategy, triples, rule.n, 2, 2)?;
    ended(bytes, 2, end)?;
    check_marks(rule, triples, 2, 2, &mut memory[SECOND..WORK])
}

/// Writes a rule whose table has `stride` bytes a row, marking each pair that has a grade of 1 or more, and answers its length.
pub fn write(
    out: &mut [u8],
    (n, stride): (usize, usize),
    table: &[u8],
    images: &[u8],
    grade: impl Fn(usize, usize) -> u8,
) -> usize {
    out[0] = n as u8;
    for s in 0..n {
        out[1 + s * n..][..n].copy_from_slice(&table[s * stride..][..n]);
    }
    let mut at = 1 + n * n;
    out[at] = images.len() as u8;
    out[at + 1..][..images.len()].copy_from_slice(images);
    at += 1 + images.len();
    let begin = at + 2;
    let mut end = begin;
    for s in 0..n {
        for e in 0..n {
            let grade = grade(s, e);
            if grade > 0 {
                out[end..end + 3].copy_from_slice(&[s as u8, e as u8, grade]);
                end += 3;
            }
        }
    }
    let count = ((end - begin) / 3) as u16;
    out[at..begin].copy_from_slice(&count.to_le_bytes());
    end
}
