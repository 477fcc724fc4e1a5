//! `next` and `until`: the classes of words, found from the letters on, and the rule that they make.

use super::file::{check, write};
use super::markings::{decide, from_strong};
use super::reductions::lay_outcomes;
use super::{lengths, Length, Refusal, Rule, Strategy};
use super::{PAIRS, RULE_OUT, SCRATCH, SECOND, WORK};

pub const UNTIL_CLASSES: usize = 64 * PAIRS;

/// No value: that of the empty word.
const NONE: usize = 64;

/// Where letters lead from each entry of a list of classes (entry 0 is the empty word, entry j + 1 is class j), and the entry and letter by
/// which each class was found.
struct Steps {
    to: [[u8; 16]; 65],
    found: [(u8, u8); 64],
    count: usize,
}

/// Goes through the entries and their letters. `class` works out the class of an entry's word with a letter behind it and answers its number
/// where it is listed; where not it lists it behind the others if there is room.
fn list(
    letters: usize,
    mut enter: impl FnMut(usize),
    mut class: impl FnMut(usize, usize, usize) -> Option<usize>,
) -> Option<Steps> {
    let mut steps = Steps {
        to: [[0; 16]; 65],
        found: [(0, 0); 64],
        count: 0,
    };
    let mut from = 0;
    while from <= steps.count {
        enter(from);
        for letter in 0..letters {
            let number = class(from, letter, steps.count)?;
            steps.to[from][letter] = number as u8;
            if number == steps.count {
                steps.found[number] = (from as u8, letter as u8);
                steps.count += 1;
            }
        }
        from += 1;
    }
    Some(steps)
}

/// Writes the rule of listed classes: products go along the letters by which the second class was found.
fn write_classes(
    steps: &Steps,
    letters: usize,
    grade: impl Fn(usize, usize) -> u8,
    out: &mut [u8],
) -> usize {
    let count = steps.count;
    let mut table = [0u8; PAIRS];
    for i in 0..count {
        for j in 0..count {
            let (parent, letter) = steps.found[j];
            let before = match parent {
                0 => i,
                parent => table[i * count + parent as usize - 1] as usize,
            };
            table[i * count + j] = steps.to[before + 1][letter as usize];
        }
    }
    let at = |s: usize, e: usize| table[s * count + e] as usize;
    let marked = |s: usize, e: usize| match at(e, e) == e && at(s, e) == s {
        true => grade(s, e),
        false => 0,
    };
    write(out, (count, count), &table, &steps.to[0][..letters], marked)
}

pub fn next(strategy: Strategy, bytes: &[u8], out: &mut [u8], scratch: &mut [u8]) -> Length {
    let mut too_many = false;
    let length = from_strong(strategy, bytes, out, scratch, |rule, memory, out| {
        let mut outcomes = [0; PAIRS];
        lay_outcomes(rule, &memory[SECOND..WORK], &mut outcomes);
        let join = |value: usize, letter: usize| match value {
            NONE => rule.image(letter),
            value => rule.product(value, rule.image(letter)),
        };
        let mut pairs = [(NONE, NONE); 65];
        let class = |from: usize, letter: usize, count: usize| {
            let (tail, whole) = pairs[from];
            let tail = match from {
                0 => NONE,
                _ => join(tail, letter),
            };
            let pair = (tail, join(whole, letter));
            let number = pairs[1..][..count].iter().position(|other| *other == pair);
            if number.is_none() && count < 64 {
                pairs[count + 1] = pair;
            }
            number.or((count < 64).then_some(count))
        };
        let Some(steps) = list(rule.images.len(), |_| (), class) else {
            too_many = true;
            return 0;
        };
        let grade = |s: usize, e: usize| {
            let (tail, whole) = (pairs[s + 1].0, pairs[e + 1].1);
            let start = if tail == NONE { whole } else { tail };
            outcomes[start * 64 + whole]
        };
        write_classes(&steps, rule.images.len(), grade, out)
    })?;
    match too_many {
        true => Err((23, 1, 0)),
        false => Ok(length),
    }
}

/// A clamp in a byte: its lower end and four times its higher; both ends of a clamp, clamped by another.
#[inline]
fn over(outer: u8, inner: u8) -> u8 {
    let (low, high) = (outer % 4, outer / 4);
    let clamped = |grade: u8| high.min(grade).max(low);
    clamped(inner % 4) + 4 * clamped(inner / 4)
}

/// A rule checked with a memory that may hold anything.
fn checked<'a>(
    strategy: Strategy,
    bytes: &'a [u8],
    memory: &mut [u8],
) -> Result<Rule<'a>, Refusal> {
    memory[..WORK].fill(0);
    check(strategy, bytes, memory)
}

/// The pairs of values that words have, by letters from the left, with their table.
fn pairs(one: &Rule, two: &Rule) -> Option<(Vec<(usize, usize)>, Steps)> {
    let mut found = vec![(NONE, NONE)];
    let class = |from: usize, letter: usize, count: usize| {
        let join = |rule: &Rule, value: usize| match value {
            NONE => rule.image(letter),
            value => rule.product(value, rule.image(letter)),
        };
        let pair = (join(one, found[from].0), join(two, found[from].1));
        let number = found[1..].iter().position(|other| *other == pair);
        if number.is_none() && count < 64 {
            found.push(pair);
        }
        number.or((count < 64).then_some(count))
    };
    let steps = list(one.images.len(), |_| (), class)?;
    found.remove(0);
    Some((found, steps))
}

pub fn until(
    strategy: Strategy,
    (first, second): (&[u8], &[u8]),
    out: &mut [u8],
    classes: &mut [u8],
    scratch: &mut [u8],
) -> Length {
    lengths(&[
        (out.len(), RULE_OUT),
        (classes.len(), UNTIL_CLASSES),
        (scratch.len(), SCRATCH),
    ])?;
    let answer = until_long(strategy, (first, second), out, classes, scratch);
    classes.fill(0);
    scratch.fill(0);
    answer
}

fn until_long(
    strategy: Strategy,
    (first, second): (&[u8], &[u8]),
    out: &mut [u8],
    classes: &mut [u8],
    scratch: &mut [u8],
) -> Length {
    let mut beside = vec![0; SCRATCH];
    let one = checked(strategy, first, scratch)?;
    let two = checked(strategy, second, &mut beside).map_err(|(n, _, at)| (n, 2, at))?;
    if one.images.len() != two.images.len() {
        return Err((18, 1, 0));
    }
    if !decide(&one, scratch) {
        return Err((12, 1, 0));
    }
    if !decide(&two, &mut beside) {
        return Err((12, 2, 0));
    }
    let (mut by_first, mut by_second) = ([0; PAIRS], [0; PAIRS]);
    lay_outcomes(&one, &scratch[SECOND..WORK], &mut by_first);
    lay_outcomes(&two, &beside[SECOND..WORK], &mut by_second);
    let (pairs, steps) = pairs(&one, &two).ok_or((19, 1, 0))?;
    let np = pairs.len();
    let number = |pair: (usize, usize)| pairs.iter().position(|other| *other == pair);
    let product = |a: (usize, usize), b: (usize, usize)| {
        number((one.product(a.0, b.0), two.product(a.1, b.1))).unwrap() as u8
    };
    let mut products = [0u8; PAIRS];
    let mut grades = [0u8; PAIRS];
    for (t, (s1, s2)) in pairs.iter().enumerate() {
        for (z, (z1, z2)) in pairs.iter().enumerate() {
            products[t * 64 + z] = product((*s1, *s2), (*z1, *z2));
            let (a, b) = (by_first[s1 * 64 + z1], by_second[s2 * 64 + z2]);
            grades[t * 64 + z] = b + 4 * a.max(b);
        }
    }
    let mut made = [0u8; PAIRS];
    let mut own = [0u8; 65];
    let step = std::cell::RefCell::new(&mut made);
    let classes = std::cell::RefCell::new(classes);
    let enter = |from: usize| {
        let (mut step, classes) = (step.borrow_mut(), classes.borrow());
        for at in (0..np).flat_map(|s| s * 64..s * 64 + np) {
            let clamp = match from {
                0 => 12,
                _ => classes[(from - 1) * PAIRS + at],
            };
            step[at] = over(clamp, grades[at]);
        }
    };
    let mut new = [0u8; PAIRS];
    let class = |from: usize, letter: usize, count: usize| {
        let (step, mut classes) = (step.borrow(), classes.borrow_mut());
        let element = steps.to[0][letter] as usize;
        for t in 0..np {
            let row = products[element * 64 + t] as usize;
            new[t * 64..][..np].copy_from_slice(&step[row * 64..][..np]);
        }
        let pair = match from {
            0 => element as u8,
            _ => products[own[from] as usize * 64 + element],
        };
        let same = |j: &usize| {
            let other = &classes[j * PAIRS..];
            own[j + 1] == pair && (0..np).all(|t| other[t * 64..][..np] == new[t * 64..][..np])
        };
        let number = (0..count).find(same);
        if number.is_none() && count < 64 {
            classes[count * PAIRS..][..PAIRS].copy_from_slice(&new);
            own[count + 1] = pair;
        }
        number.or((count < 64).then_some(count))
    };
    let listed = list(one.images.len(), enter, class).ok_or((23, 1, 0))?;
    let classes = classes.borrow();
    let grade = |s: usize, e: usize| {
        let at = own[e + 1] as usize * 65;
        over(classes[s * PAIRS + at], classes[e * PAIRS + at]) % 4
    };
    Ok(write_classes(&listed, one.images.len(), grade, out))
}
