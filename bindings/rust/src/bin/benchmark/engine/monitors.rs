//! Monitors: two values, each an element or 64 for none.

use super::file::check;
use super::markings::decide;
use super::{lengths, on_memory, Needs, Refusal, Rule, Strategy, SCRATCH, SECOND, WORK};

pub type Values = (usize, usize);

/// The most letters of a word of events.
const LONGEST_LOG: usize = 1 << 24;

/// Runs a call's work on a checked rule, if the monitor's values fit it.
fn with_monitor<T>(
    (strategy, needs): (Strategy, Needs),
    bytes: &[u8],
    (before, since): Values,
    scratch: &mut [u8],
    work: impl FnOnce(&Rule, &mut [u8]) -> Result<T, Refusal>,
) -> Result<T, Refusal> {
    lengths(&[(scratch.len(), SCRATCH)])?;
    on_memory(strategy, needs, scratch, |memory| {
        let rule = check(strategy, bytes, memory)?;
        let fits = |value: usize| value < rule.n || value == 64;
        if !fits(before) || !fits(since) {
            return Err((3, 1, 0));
        }
        work(&rule, memory)
    })
}

fn join(rule: &Rule, a: usize, b: usize) -> usize {
    match (a, b) {
        (64, b) => b,
        (a, 64) => a,
        (a, b) => rule.product(a, b),
    }
}

pub fn event(
    strategy: Strategy,
    bytes: &[u8],
    values: Values,
    letter: u8,
    scratch: &mut [u8],
) -> Result<Values, Refusal> {
    let how = (strategy, Needs::Marks);
    with_monitor(how, bytes, values, scratch, |rule, _| {
        let image = *rule.images.get(letter as usize).ok_or((10, 1, 0))? as usize;
        Ok((values.0, join(rule, values.1, image)))
    })
}

/// A loop over the table, once the letters are known.
pub fn feed(
    strategy: Strategy,
    bytes: &[u8],
    values: Values,
    word: &[u8],
    scratch: &mut [u8],
) -> Result<Values, Refusal> {
    let how = (strategy, Needs::Marks);
    with_monitor(how, bytes, values, scratch, |rule, _| {
        if word.len() > LONGEST_LOG {
            return Err((11, 1, 0));
        }
        let known = |letter: &u8| usize::from(*letter) < rule.images.len();
        if let Some(place) = word.iter().position(|letter| !known(letter)) {
            return Err((10, 1, place as u64));
        }
        let since = word.iter().fold(values.1, |since, letter| {
            join(rule, since, usize::from(rule.images[usize::from(*letter)]))
        });
        Ok((values.0, since))
    })
}

pub fn mark(
    strategy: Strategy,
    bytes: &[u8],
    values: Values,
    scratch: &mut [u8],
) -> Result<Values, Refusal> {
    let how = (strategy, Needs::Marks);
    with_monitor(how, bytes, values, scratch, |rule, _| {
        Ok((join(rule, values.0, values.1), 64))
    })
}

pub fn verdict(
    strategy: Strategy,
    bytes: &[u8],
    (before, since): Values,
    scratch: &mut [u8],
) -> Result<(u8, usize), Refusal> {
    let how = (strategy, Needs::TwoMarkings);
    with_monitor(how, bytes, (before, since), scratch, |rule, memory| {
        if since == 64 {
            return Err((11, 1, 0));
        }
        if !decide(rule, memory) {
            return Err((12, 1, 0));
        }
        Ok(judged(rule, (before, since), memory))
    })
}

/// The grade of a strong rule's lassos with two values, from its closure, and the turns of their cycles.
fn judged(rule: &Rule, (before, since): Values, memory: &[u8]) -> (u8, usize) {
    let start = if before == 64 { since } else { before };
    let (e, turns) = rule.power(since);
    let closure = &memory[SECOND..WORK];
    (closure[rule.product(start, e) * 64 + e], turns)
}

/// An event and the grade that a strong rule's monitor then stands for, from one check of its file.
pub fn advance(
    strategy: Strategy,
    bytes: &[u8],
    values: Values,
    letter: u8,
    scratch: &mut [u8],
) -> Result<(Values, u8), Refusal> {
    let how = (strategy, Needs::TwoMarkings);
    with_monitor(how, bytes, values, scratch, |rule, memory| {
        if !decide(rule, memory) {
            return Err((12, 1, 0));
        }
        let image = *rule.images.get(letter as usize).ok_or((10, 1, 0))? as usize;
        let moved = (values.0, join(rule, values.1, image));
        Ok((moved, judged(rule, moved, memory).0))
    })
}
