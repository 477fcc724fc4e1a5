//! Where two rules over the same letters differ: a lasso to which they give different grades.
//!
//! Two strong rules are reduced: equal bytes are equal grades. Else the grade that each gives to a pair of values is asked of `verdict`,
//! and the shortest words of all pairs of values that a word has in both rules are looked through. A weak rule has no such grades;
//! then both markings are lifted to the table of the pairs of values, and `included` is asked both ways. Where that table would be too large
//! for a rule, some lassos are tried: a difference may be found, and equality cannot be.

use super::pairs::Pairs;
use super::shorten::shortened;
use crate::files::{marks_bytes, Lasso, Mark, Rule};
use crate::owned;
use crate::words::{explain, Asked, Explained};
use crate::{Monitor, Strength, NONE, SCRATCH};

/// A lasso with a different grade by each of two rules.
#[derive(Clone, Debug, PartialEq, Eq)]
pub struct Difference {
    /// The lasso; no single letter of it can be left out.
    pub lasso: Lasso,
    /// Its grade by the first rule.
    pub first: u8,
    /// Its grade by the second rule.
    pub second: u8,
}

/// How two rules compare.
#[derive(Clone, Debug, PartialEq, Eq)]
pub enum Comparison {
    /// They give every lasso the same grade, and both have this reduction.
    EqualReductions(Vec<u8>),
    /// They give every lasso the same grade, by inclusion both ways; at least one is weak and has no reduction.
    EqualGrades,
    /// They do not.
    Different(Difference),
    /// They have different numbers of letters.
    OtherLetters(usize, usize),
    /// One is weak, words have more than 64 pairs of values in both together, and no lasso of those that were tried tells them apart.
    TooLarge(usize),
}

/// Compares two rules; a refusal comes with 1 or 2 for the rule that it is of.
pub fn compare(first: &[u8], second: &[u8]) -> Result<Comparison, (u8, Explained)> {
    let small_first = smallest(first).map_err(|explained| (1, explained))?;
    let small_second = smallest(second).map_err(|explained| (2, explained))?;
    let (letters_a, letters_b) = (
        small_first.parts.images.len(),
        small_second.parts.images.len(),
    );
    if letters_a != letters_b {
        return Ok(Comparison::OtherLetters(letters_a, letters_b));
    }
    let found = if small_first.strong && small_second.strong {
        if small_first.bytes == small_second.bytes {
            return Ok(Comparison::EqualReductions(small_first.bytes));
        }
        by_verdicts(&small_first, &small_second, |own, other| own != other)
    } else {
        let pairs = Pairs::reached(&small_first.parts, &small_second.parts);
        match pairs.values.len() {
            0..=64 => by_inclusion(&small_first.parts, &small_second.parts, &pairs),
            count => match by_trying(first, second, &pairs).map_err(|explained| (1, explained))? {
                None => return Ok(Comparison::TooLarge(count)),
                found => Ok(found),
            },
        }
    };
    match found.map_err(|explained| (1, explained))? {
        None => Ok(Comparison::EqualGrades),
        Some(lasso) => difference(first, second, lasso).map(Comparison::Different),
    }
}

/// A rule that gives the same grades, the reduction of a strong one.
pub(super) struct Smallest {
    pub bytes: Vec<u8>,
    pub parts: Rule,
    pub strong: bool,
}

pub(super) fn smallest(rule: &[u8]) -> Result<Smallest, Explained> {
    let strong = owned::strong(rule)? == Strength::Strong;
    let bytes = match strong {
        true => owned::reduce(rule)?,
        false => rule.to_vec(),
    };
    let parts = Rule::read(&bytes).map_err(|refused| explain(refused, Asked::Rule(&bytes)))?;
    Ok(Smallest {
        bytes,
        parts,
        strong,
    })
}

/// How many lassos are tried where nothing better is to be had.
const TRIED: usize = 10_000;

/// A lasso whose words are first words of pairs of values and to which two rules give different grades, of the first so many.
fn by_trying(first: &[u8], second: &[u8], pairs: &Pairs) -> Result<Option<Lasso>, Explained> {
    let count = pairs.words.len();
    // Those with early words, in start and cycle together, come first.
    let diagonals = (0..2 * count).flat_map(|sum| (0..=sum).map(move |start| (start, sum - start)));
    let within = diagonals.filter(|(start, cycle)| *start < count && *cycle < count);
    for (start, cycle) in within.take(TRIED) {
        let (u, v) = (&pairs.words[start], &pairs.words[cycle]);
        if owned::member(first, u, v)?.grade != owned::member(second, u, v)?.grade {
            return Ok(Some(Lasso {
                u: u.clone(),
                v: v.clone(),
            }));
        }
    }
    Ok(None)
}

/// The lasso, shortened, with the grades that `member` gives it.
fn difference(first: &[u8], second: &[u8], lasso: Lasso) -> Result<Difference, (u8, Explained)> {
    let grade = |rule: &[u8], lasso: &Lasso| {
        owned::member(rule, &lasso.u, &lasso.v).map(|membership| membership.grade)
    };
    let differs = |lasso: &Lasso| Ok(grade(first, lasso)? != grade(second, lasso)?);
    let lasso = shortened(lasso, differs).map_err(|explained| (1, explained))?;
    Ok(Difference {
        first: grade(first, &lasso).map_err(|explained| (1, explained))?,
        second: grade(second, &lasso).map_err(|explained| (2, explained))?,
        lasso,
    })
}

/// The shortest lasso, of those whose words are first words of pairs of values, to which two strong rules give grades that are told apart.
pub(super) fn by_verdicts(
    first: &Smallest,
    second: &Smallest,
    apart: fn(u8, u8) -> bool,
) -> Result<Option<Lasso>, Explained> {
    let (grades_a, grades_b) = (
        grades(&first.bytes, first.parts.elements)?,
        grades(&second.bytes, second.parts.elements)?,
    );
    let pairs = Pairs::reached(&first.parts, &second.parts);
    let differ = |start: Option<usize>, cycle: usize| {
        let (a, b) = pairs.values[cycle];
        let (before_a, before_b) = match start {
            Some(start) => {
                let (a, b) = pairs.values[start];
                (usize::from(a), usize::from(b))
            }
            None => (NONE, NONE),
        };
        apart(
            grades_a[before_a][usize::from(a)],
            grades_b[before_b][usize::from(b)],
        )
    };
    let mut best: Option<(usize, Option<usize>, usize)> = None;
    let starts = || std::iter::once(None).chain((0..pairs.values.len()).map(Some));
    for cycle in 0..pairs.values.len() {
        for start in starts() {
            let letters =
                start.map_or(0, |start| pairs.words[start].len()) + pairs.words[cycle].len();
            if best.is_some_and(|(fewest, _, _)| fewest <= letters) {
                break; // First words grow, so no later start is shorter.
            }
            if differ(start, cycle) {
                best = Some((letters, start, cycle));
            }
        }
    }
    Ok(best.map(|(_, start, cycle)| Lasso {
        u: start.map_or_else(Vec::new, |start| pairs.words[start].clone()),
        v: pairs.words[cycle].clone(),
    }))
}

/// The grade that a strong rule gives to the lassos with each pair of values, an element or 64 for the start's.
fn grades(rule: &[u8], elements: u8) -> Result<Vec<Vec<u8>>, Explained> {
    let mut scratch = vec![0; SCRATCH];
    let mut grade = |before: usize, since: usize| {
        crate::verdict(rule, Monitor { before, since }, &mut scratch)
            .map(|verdict| verdict.grade)
            .map_err(|refused| explain(refused, Asked::Rule(rule)))
    };
    let elements = usize::from(elements);
    let mut rows = vec![Vec::new(); NONE + 1];
    for before in (0..elements).chain([NONE]) {
        rows[before] = (0..elements)
            .map(|since| grade(before, since))
            .collect::<Result<_, _>>()?;
    }
    Ok(rows)
}

/// A lasso that one of two markings, lifted to the table of the pairs of values, grades higher.
fn by_inclusion(a: &Rule, b: &Rule, pairs: &Pairs) -> Result<Option<Lasso>, Explained> {
    let Some(table) = product_table(a, b, pairs) else {
        return Ok(None);
    };
    let lifted = |mark: &dyn Fn((u8, u8), (u8, u8)) -> u8| {
        let mut marks = Vec::new();
        for (s, start) in (0..).zip(&pairs.values) {
            for (e, cycle) in (0..).zip(&pairs.values) {
                let grade = mark(*start, *cycle);
                if grade > 0 && table.linked(s, e) {
                    marks.push(Mark { s, e, grade });
                }
            }
        }
        marks
    };
    let marks_a = lifted(&|start, cycle| a.grade(start.0, cycle.0));
    let marks_b = lifted(&|start, cycle| b.grade(start.1, cycle.1));
    let higher = |own: &[Mark], other: &[Mark]| {
        let rule = Rule {
            marks: own.to_vec(),
            ..table.clone()
        };
        owned::included(&rule.bytes(), &marks_bytes(other))
    };
    match higher(&marks_a, &marks_b)? {
        Some(lasso) => Ok(Some(lasso)),
        None => higher(&marks_b, &marks_a),
    }
}

/// The table whose elements are the pairs of values, at most 64 of them.
fn product_table(a: &Rule, b: &Rule, pairs: &Pairs) -> Option<Rule> {
    let number = |pair: (u8, u8)| u8::try_from(pairs.number(pair)?).ok();
    let mut products = Vec::new();
    for (first_a, first_b) in &pairs.values {
        for (second_a, second_b) in &pairs.values {
            let product = (
                a.product(*first_a, *second_a)?,
                b.product(*first_b, *second_b)?,
            );
            products.push(number(product)?);
        }
    }
    let images = a.images.iter().copied().zip(b.images.iter().copied());
    Some(Rule {
        elements: u8::try_from(pairs.values.len()).ok()?,
        products,
        images: images.map(number).collect::<Option<_>>()?,
        marks: Vec::new(),
    })
}
