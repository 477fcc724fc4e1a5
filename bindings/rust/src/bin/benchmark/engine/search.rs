//! The search for a cycle that a first marking of a table grades higher than a second.

use super::{lent_or_new, Rule, WORK};

/// Regions of the search's memory: the worklist's fronts, backs, letters and parents, the states found, and the preimages.
const FRONT: usize = 0;
const BACK: usize = FRONT + 8_192;
const LETTER: usize = BACK + 8_192;
const PARENT: usize = LETTER + 8_192;
const FOUND: usize = PARENT + 16_384;
const HEAD: usize = FOUND + 8_192;
const NEXT: usize = HEAD + 2_048;
const END: usize = NEXT + 2_048;

/// A start value and the worklist's entry of a cycle that after it has some grade by the first marking and not by the second.
pub struct Escape<'a> {
    pub start: usize,
    entry: usize,
    lists: &'a [u8],
}

impl Escape<'_> {
    /// Writes the cycle, in a table of n elements, and answers how many letters it has.
    pub fn write_cycle(&self, n: usize, out: &mut [u8]) -> usize {
        let (mut length, mut at) = (0, self.entry);
        while self.lists[BACK + at] as usize != n {
            out[length] = self.lists[LETTER + at];
            length += 1;
            let parent = &self.lists[PARENT + 2 * at..];
            at = u16::from_le_bytes([parent[0], parent[1]]) as usize;
        }
        length
    }
}

/// For each letter a and each x the values x' (n for none) with x'·a = x, as a list linked from HEAD through NEXT; one more than
/// the value stands there, 0 at the end.
fn list_preimages(rule: &Rule, lists: &mut [u8]) {
    for a in 0..rule.images.len() {
        let image = rule.image(a);
        for value in 0..=rule.n {
            let x = if value == rule.n {
                image
            } else {
                rule.product(value, image)
            };
            lists[NEXT + a * 65 + value] = lists[HEAD + a * 65 + x];
            lists[HEAD + a * 65 + x] = value as u8 + 1;
        }
    }
}

#[inline]
fn add(
    lists: &mut [u8],
    count: &mut usize,
    s: usize,
    (x, y): (usize, usize),
    parent: usize,
    letter: usize,
) {
    let found = &mut lists[FOUND + x * 65 + y];
    if *found != s as u8 + 1 {
        *found = s as u8 + 1;
        lists[FRONT + *count] = x as u8;
        lists[BACK + *count] = y as u8;
        lists[LETTER + *count] = letter as u8;
        lists[PARENT + 2 * *count..][..2].copy_from_slice(&(parent as u16).to_le_bytes());
        *count += 1;
    }
}

/// The last entry of the worklist that begins at the start value s, where a cycle is found that has the least grade by the first
/// marking only.
fn search_from(
    rule: &Rule,
    tables: &[u8],
    lists: &mut [u8],
    (first, second): (usize, usize),
    least: u8,
    s: usize,
) -> Option<usize> {
    let n = rule.n;
    let mut count = 0;
    for e in 0..n {
        if tables[first + s * 64 + e] >= least {
            add(lists, &mut count, s, (e, n), 0, 0);
        }
    }
    let mut at = 0;
    while at < count {
        let (x, y) = (lists[FRONT + at] as usize, lists[BACK + at] as usize);
        if x == n {
            return Some(at);
        }
        let turned = if y == n { x } else { rule.product(y, x) };
        let f = rule.product(turned, turned);
        if tables[second + rule.product(s, x) * 64 + f] < least {
            for a in 0..rule.images.len() {
                let image = rule.image(a);
                let back = if y == n {
                    image
                } else {
                    rule.product(image, y)
                };
                let mut rest = lists[HEAD + a * 65 + x] as usize;
                while rest > 0 {
                    add(lists, &mut count, s, (rest - 1, back), at, a);
                    rest = lists[NEXT + a * 65 + rest - 1] as usize;
                }
            }
        }
        at += 1;
    }
    None
}

/// The grades that the first table has, highest first. A cycle that tells the markings apart at a grade that it has not does so at the
/// next higher one that it has.
fn grades(table: &[u8]) -> impl Iterator<Item = u8> {
    let mut has = [false; 4];
    for grade in table {
        has[*grade as usize] = true;
    }
    (1..4).rev().filter(move |grade| has[*grade as usize])
}

/// Compares the marking whose table stands at `first` with the one at `second`, grade by grade. The lists go to `new` where memory has
/// no room.
pub fn search_grades<'a>(
    rule: &Rule,
    memory: &'a mut [u8],
    new: &'a mut Vec<u8>,
    markings: (usize, usize),
) -> Option<Escape<'a>> {
    let (tables, rest) = memory.split_at_mut(WORK);
    let tables = &*tables;
    let lists = lent_or_new(rest, new, END);
    // of the worklist nothing is read that was not written before
    lists[HEAD..NEXT].fill(0);
    list_preimages(rule, lists);
    let found = grades(&tables[markings.0..][..rule.n * 64]).find_map(|least| {
        lists[FOUND..HEAD].fill(0);
        (0..rule.n).find_map(|start| {
            let entry = search_from(rule, tables, lists, markings, least, start);
            entry.map(|entry| (start, entry))
        })
    });
    found.map(|(start, entry)| Escape {
        start,
        entry,
        lists,
    })
}
