//! Rules of temporal formulas: the grades of lassos by their endless words, place by place, and the classes of whole words, each found from the
//! word and listed by first words.

use super::acceptance::{grade, letter, segment};
use super::combined::{pairs, Half};
use super::rule::{Mark, Morphism, Rule};

/// The rest of the endless word of u, v from a place on, as a lasso.
fn rest(u: &[u8], v: &[u8], from: usize) -> (Vec<u8>, Vec<u8>) {
    let start = segment(u, v, from, u.len().saturating_sub(from));
    let cycle = segment(u, v, from.max(u.len()), v.len());
    (start, cycle)
}

fn grade_from(rule: &Half, u: &[u8], v: &[u8], from: usize) -> u8 {
    let (start, cycle) = rest(u, v, from);
    grade(rule.morphism, rule.marking, &start, &cycle)
}

pub fn in_set(set: usize, letter: u8) -> bool {
    set >> letter & 1 == 1
}

pub fn first_letter_grade(set: usize, grade: u8, u: &[u8], v: &[u8]) -> u8 {
    match in_set(set, letter(u, v, 0)) {
        true => grade,
        false => 0,
    }
}

pub fn next_grade(rule: &Half, u: &[u8], v: &[u8]) -> u8 {
    grade_from(rule, u, v, 1)
}

/// The highest, over the places, of the lowest of the second's grade there and the first's at each place before. From |u| on the rests repeat
/// with v, so that a place behind |u| + |v| has no grade that is not there once before, and no fewer places before it.
pub fn until_grade(first: &Half, second: &Half, u: &[u8], v: &[u8]) -> u8 {
    let (mut highest, mut before) = (0, 3);
    for i in 0..u.len() + v.len() {
        highest = highest.max(before.min(grade_from(second, u, v, i)));
        before = before.min(grade_from(first, u, v, i));
    }
    highest
}

/// The table of the classes of non-empty words, with the first word of each; None for more than 64. The class of a word is found from the whole
/// word. A first word without its last letter is a first word, so that only these are made longer.
fn table<C: PartialEq>(
    letters: usize,
    class: impl Fn(&[u8]) -> C,
) -> Option<(Morphism, Vec<Vec<u8>>)> {
    let mut classes: Vec<C> = Vec::new();
    let mut words: Vec<Vec<u8>> = Vec::new();
    let mut longer: Vec<Vec<u8>> = vec![Vec::new()];
    let mut next = 0;
    while next < longer.len() {
        for a in 0..letters as u8 {
            let word = [&longer[next][..], &[a]].concat();
            let own = class(&word);
            if !classes.contains(&own) {
                classes.push(own);
                words.push(word.clone());
                longer.push(word);
            }
            if classes.len() > 64 {
                return None;
            }
        }
        next += 1;
    }
    let place = |word: &[u8]| {
        let own = class(word);
        let at = classes.iter().position(|other| *other == own);
        at.expect("the class of a word") as u8
    };
    let products = words
        .iter()
        .flat_map(|s| words.iter().map(move |t| [&s[..], t].concat()));
    let table = products.map(|word| place(&word)).collect();
    let images = (0..letters as u8).map(|a| place(&[a])).collect();
    let n = words.len();
    Some((Morphism { n, table, images }, words))
}

/// The rule with every linked pair marked whose lassos have a grade of 1 or more.
fn marked((morphism, words): (Morphism, Vec<Vec<u8>>), grade: impl Fn(&[u8], &[u8]) -> u8) -> Rule {
    let graded = morphism.linked_pairs().into_iter().map(|pair| Mark {
        pair,
        grade: grade(&words[pair.0 as usize], &words[pair.1 as usize]),
    });
    let marks = graded.filter(|mark| mark.grade > 0).collect();
    morphism.with(marks)
}

/// The smallest rules of a first letter: an element for the letters of the set and one for the others, where both are needed.
pub fn first_letter(letters: usize, set: usize, grade: u8) -> Rule {
    let class = |word: &[u8]| grade > 0 && in_set(set, word[0]);
    let table = table(letters, class).expect("two classes at most");
    marked(table, |u, v| first_letter_grade(set, grade, u, v))
}

pub fn constant(letters: usize, grade: u8) -> Rule {
    let table = table(letters, |_| ()).expect("one class");
    marked(table, |_, _| grade)
}

/// The pairs of the values behind the first letter, or none, and of the word.
pub fn next(rule: &Half) -> Option<Rule> {
    let value = |word: &[u8]| (!word.is_empty()).then(|| rule.morphism.value(word));
    let class = |word: &[u8]| (value(&word[1..]), value(word));
    let table = table(rule.morphism.letters(), class)?;
    Some(marked(table, |u, v| next_grade(rule, u, v)))
}

/// Which count is above 64 where there is no rule of until.
pub enum TooMany {
    Pairs,
    Classes,
}

/// The pair of values, and the grade of until at the word in front of every context, for each of the grades 0 and 3 at the context.
pub fn until(first: &Half, second: &Half) -> Result<Rule, TooMany> {
    let pairs = pairs(first.morphism, second.morphism).ok_or(TooMany::Pairs)?;
    let pairs: Vec<(u8, u8)> = pairs.into_iter().map(|(pair, _)| pair).collect();
    let contexts = || {
        let starts = pairs.iter();
        starts.flat_map(|t| pairs.iter().map(move |z| (*t, *z)))
    };
    let (one, two) = (Valued::new(first), Valued::new(second));
    let class = |word: &[u8]| {
        let rests = (0..word.len()).map(|from| &word[from..]);
        let rests: Vec<(u8, u8)> = rests.map(|w| (one.of(w), two.of(w))).collect();
        // The highest over the places of the word and the one behind it.
        let through = |(t, z): ((u8, u8), (u8, u8)), behind: u8| {
            let (mut highest, mut before) = (0, 3);
            for (x, y) in &rests {
                highest = highest.max(before.min(two.grade(*y, t.1, z.1)));
                before = before.min(one.grade(*x, t.0, z.0));
            }
            highest.max(before.min(behind))
        };
        let grades = contexts().map(|context| (through(context, 0), through(context, 3)));
        (rests[0], grades.collect::<Vec<(u8, u8)>>())
    };
    let table = table(first.morphism.letters(), class).ok_or(TooMany::Classes)?;
    Ok(marked(table, |u, v| until_grade(first, second, u, v)))
}

/// A strong rule with the grades of lassos by their values.
struct Valued<'a> {
    morphism: &'a Morphism,
    grades: Vec<u8>,
}

impl Valued<'_> {
    fn new<'a>(rule: &Half<'a>) -> Valued<'a> {
        let morphism = rule.morphism;
        let words = morphism.words().into_iter();
        let words: Vec<Vec<u8>> = words.map(|word| word.expect("reached")).collect();
        let pairs = words.iter().flat_map(|u| words.iter().map(move |v| (u, v)));
        let grades = pairs.map(|(u, v)| grade(morphism, rule.marking, u, v));
        Valued {
            morphism,
            grades: grades.collect(),
        }
    }

    fn of(&self, word: &[u8]) -> u8 {
        self.morphism.value(word)
    }

    /// Of a word with the value x, then one with the value t, then for ever one with the value z.
    fn grade(&self, x: u8, t: u8, z: u8) -> u8 {
        let start = self.morphism.product(x, t) as usize;
        self.grades[start * self.morphism.n + z as usize]
    }
}
