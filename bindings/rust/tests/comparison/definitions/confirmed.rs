//! Whether one rule is another reduced by a map: condition by condition, each from the definitions.

use super::contexts;
use super::order;
use super::rule::Morphism;

/// A condition that does not hold.
#[derive(Clone, Copy, Debug, PartialEq, Eq)]
pub enum Fault {
    /// The map has not a byte for each element.
    Length,
    /// The rules have different numbers of letters.
    Letters,
    /// An element goes to none of the second rule.
    Outside,
    /// No element goes to some element of the second rule.
    NotOnto,
    /// A letter's element does not go to the letter's element.
    Images,
    /// A product does not go to the product.
    Products,
    /// The second rule is weak.
    Weak,
    /// Some lasso has two grades.
    Grades,
    /// A strong rule with the second's grades has fewer elements.
    Size,
}

/// Where an element goes; a byte that is missing counts as 0.
fn to(map: &[u8], s: u8) -> u8 {
    map.get(s as usize).copied().unwrap_or(0)
}

/// What is wrong with the map, whatever the marks are.
pub fn of_map(first: &Morphism, second: &Morphism, map: &[u8]) -> Vec<Fault> {
    let to = |s: u8| to(map, s);
    let mut faults = Vec::new();
    let mut note = |fault: Fault, holds: bool| {
        if !holds {
            faults.push(fault);
        }
    };
    note(Fault::Length, map.len() == first.n);
    note(Fault::Letters, first.letters() == second.letters());
    let inside = first.elements().all(|s| (to(s) as usize) < second.n);
    note(Fault::Outside, inside);
    let gone_to = |t: u8| first.elements().any(|s| to(s) == t);
    note(Fault::NotOnto, second.elements().all(gone_to));
    let mut images = first.images.iter().zip(&second.images);
    note(Fault::Images, images.all(|(s, t)| to(*s) == *t));
    if inside {
        let elements = || first.elements();
        let mut pairs = elements().flat_map(|s| elements().map(move |t| (s, t)));
        let carried = |(s, t): (u8, u8)| to(first.product(s, t)) == second.product(to(s), to(t));
        note(Fault::Products, pairs.all(carried));
    }
    faults
}

/// Whether the lassos with two values of the first rule have the grades of those with the values that these go to. Each rule comes as its
/// number of elements and the grades by values. For strong rules over as many letters, and a map that takes the values of words to their
/// values, this says it of all lassos.
pub fn same_grades(first: (usize, &[u8]), second: (usize, &[u8]), map: &[u8]) -> bool {
    let at = |s: usize| to(map, s as u8) as usize;
    let mut pairs = (0..first.0).flat_map(|s| (0..first.0).map(move |z| (s, z)));
    pairs.all(|(s, z)| first.1[s * first.0 + z] == second.1[at(s) * second.0 + at(z)])
}

/// No two elements of a strong rule can stand for each other.
pub fn smallest(m: &Morphism, outcomes: &[u8]) -> bool {
    contexts::classes(m, outcomes).1 == m.n
}

/// Where the elements of a strong rule go when it is reduced: to the classes that no context tells apart, which are numbered in the order of
/// their first words.
pub fn own_map(m: &Morphism, outcomes: &[u8]) -> Vec<u8> {
    let (class, _) = contexts::classes(m, outcomes);
    let mut numbered: Vec<usize> = Vec::new();
    for (s, _) in order::first_words(m) {
        if !numbered.contains(&class[s as usize]) {
            numbered.push(class[s as usize]);
        }
    }
    let number = |own: &usize| numbered.iter().position(|class| class == own);
    let numbers = class.iter().map(|own| number(own).expect("a word") as u8);
    numbers.collect()
}
