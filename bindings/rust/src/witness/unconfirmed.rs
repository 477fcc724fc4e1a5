//! Why a reduction that was made elsewhere is not right: a condition that does not hold, and what shows it.

use super::differ::{compare, Comparison, Difference};
use super::weak::{why_weak, Weakness};
use crate::files::Rule;
use crate::owned;
use crate::text::{print_lasso, Names};
use crate::words::{count, Explained};
use crate::{Confirmation, Strength};

/// What is wrong with a reduced rule, or with the map to it.
#[derive(Clone, Debug, PartialEq, Eq)]
pub enum ReductionFault {
    /// The map has not a byte for each element.
    MapLength {
        /// How many bytes it has.
        bytes: usize,
        /// How many elements the rule has.
        elements: u8,
    },
    /// The two rules have different numbers of letters.
    Letters {
        /// Those of the rule.
        first: usize,
        /// Those of the reduced one.
        second: usize,
    },
    /// An element goes to none of the reduced rule.
    Foreign {
        /// The element.
        element: u8,
        /// Its byte.
        to: u8,
        /// How many elements the reduced rule has.
        elements: u8,
    },
    /// No element goes to this one.
    NotOnto {
        /// The element of the reduced rule.
        element: u8,
    },
    /// A letter's element does not go to the letter's element.
    Image {
        /// The letter.
        letter: u8,
        /// What it stands for in the rule.
        element: u8,
        /// Where that goes.
        to: u8,
        /// What it stands for in the reduced rule.
        image: u8,
    },
    /// A product does not go to the product.
    Product {
        /// Two elements of the rule.
        factors: (u8, u8),
        /// Their product.
        product: u8,
        /// Where that goes.
        to: u8,
        /// Where the two go.
        goals: (u8, u8),
        /// The product there.
        other: u8,
    },
    /// The reduced rule is weak; lassos that show it, if they are not too long.
    Weak(Option<Weakness>),
    /// A lasso has another grade by the reduced rule.
    Grades(Difference),
    /// A rule with fewer elements has the same grades.
    TooLarge {
        /// How many elements the reduced rule has.
        elements: u8,
        /// How many are enough.
        enough: u8,
    },
}

impl ReductionFault {
    /// What is wrong in words, with the letters by their names.
    pub fn in_words(&self, names: &Names) -> String {
        match self {
            ReductionFault::MapLength { bytes, elements } => {
                let (bytes, elements) = (count(*bytes, "byte"), counted(*elements));
                format!("the map has {bytes}, and the rule has {elements}")
            }
            ReductionFault::Letters { first, second } => {
                let letters = count(*first, "letter");
                format!("the rule has {letters}, and the reduced one has {second}")
            }
            ReductionFault::Foreign {
                element,
                to,
                elements,
            } => {
                let elements = counted(*elements);
                format!("element {element} goes to {to}, and the reduced rule has {elements}")
            }
            ReductionFault::NotOnto { element } => {
                format!("no element goes to {element} of the reduced rule")
            }
            ReductionFault::Image {
                letter,
                element,
                to,
                image,
            } => {
                let letter = names.show(*letter);
                format!("letter {letter} stands for {element}, which goes to {to}, and in the reduced rule for {image}")
            }
            ReductionFault::Product {
                factors: (a, b),
                product,
                to,
                goals: (c, d),
                other,
            } => format!(
                "products are not carried over: {a}·{b} = {product} goes to {to}, but {a} goes to {c} and {b} to {d}, and {c}·{d} = {other}"
            ),
            ReductionFault::Weak(weakness) => {
                let shown = weakness.as_ref().map(|own| own.in_words(names));
                let shown = shown.map_or_else(String::new, |lassos| format!(": {lassos}"));
                format!("the reduced rule is weak{shown}")
            }
            ReductionFault::Grades(difference) => {
                let lasso = print_lasso(&difference.lasso, names);
                let (first, second) = (difference.first, difference.second);
                format!("{lasso} has grade {first} by the rule and {second} by the reduced one")
            }
            ReductionFault::TooLarge { elements, enough } => {
                let elements = counted(*elements);
                let are = if *enough == 1 { "is" } else { "are" };
                format!("the reduced rule has {elements}, and {enough} {are} enough")
            }
        }
    }
}

fn counted(elements: u8) -> String {
    count(usize::from(elements), "element")
}

/// Why the second rule is not the first reduced by the map. None where it is.
pub fn why_not_confirmed(
    first: &[u8],
    second: &[u8],
    map: &[u8],
) -> Result<Option<ReductionFault>, Explained> {
    if owned::confirm(first, second, map)? == Confirmation::Yes {
        return Ok(None);
    }
    let parts = Rule::take_apart(first).zip(Rule::take_apart(second));
    let of_map = parts.and_then(|(rule, reduced)| {
        let found = lengths(&rule, &reduced, map).or_else(|| goals(&reduced, map));
        found.or_else(|| images(&rule, &reduced, map).or_else(|| products(&rule, &reduced, map)))
    });
    match of_map {
        None => of_grades(first, second),
        found => Ok(found),
    }
}

fn lengths(rule: &Rule, reduced: &Rule, map: &[u8]) -> Option<ReductionFault> {
    let (bytes, elements) = (map.len(), rule.elements);
    if bytes != usize::from(elements) {
        return Some(ReductionFault::MapLength { bytes, elements });
    }
    let (first, second) = (rule.images.len(), reduced.images.len());
    (first != second).then_some(ReductionFault::Letters { first, second })
}

fn goals(reduced: &Rule, map: &[u8]) -> Option<ReductionFault> {
    let elements = reduced.elements;
    let mut bytes = (0..=u8::MAX).zip(map);
    if let Some((element, to)) = bytes.find(|(_, to)| **to >= elements) {
        return Some(ReductionFault::Foreign {
            element,
            to: *to,
            elements,
        });
    }
    let mut left = (0..elements).filter(|element| !map.contains(element));
    left.next()
        .map(|element| ReductionFault::NotOnto { element })
}

fn images(rule: &Rule, reduced: &Rule, map: &[u8]) -> Option<ReductionFault> {
    let letters = rule.images.iter().zip(&reduced.images);
    let mut letters = (0..=u8::MAX).zip(letters);
    letters.find_map(|(letter, (element, image))| {
        let to = *map.get(usize::from(*element))?;
        (to != *image).then_some(ReductionFault::Image {
            letter,
            element: *element,
            to,
            image: *image,
        })
    })
}

fn products(rule: &Rule, reduced: &Rule, map: &[u8]) -> Option<ReductionFault> {
    let goal = |element: u8| map.get(usize::from(element)).copied();
    let elements = || 0..rule.elements;
    let mut factors = elements().flat_map(|a| elements().map(move |b| (a, b)));
    factors.find_map(|(a, b)| {
        let product = rule.product(a, b)?;
        let (to, goals) = (goal(product)?, (goal(a)?, goal(b)?));
        let other = reduced.product(goals.0, goals.1)?;
        (to != other).then_some(ReductionFault::Product {
            factors: (a, b),
            product,
            to,
            goals,
            other,
        })
    })
}

/// What is wrong with the reduced rule where its map carries everything over.
fn of_grades(first: &[u8], second: &[u8]) -> Result<Option<ReductionFault>, Explained> {
    if owned::strong(second)? == Strength::Weak {
        return Ok(Some(ReductionFault::Weak(why_weak(second)?)));
    }
    let compared = compare(first, second).map_err(|(_, explained)| explained)?;
    Ok(match compared {
        Comparison::Different(difference) => Some(ReductionFault::Grades(difference)),
        Comparison::EqualReductions(reduction) => {
            let sizes = second.first().zip(reduction.first());
            sizes.map(|(elements, enough)| ReductionFault::TooLarge {
                elements: *elements,
                enough: *enough,
            })
        }
        _ => None,
    })
}
