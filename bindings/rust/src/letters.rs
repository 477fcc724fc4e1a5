//! How the letters of two rules meet: by their names, by the propositions that they are valuations of, or by their
//! numbers.
//!
//! ```
//! use duknavet::letters::meet;
//! use duknavet::text::Names;
//!
//! let names = |names: &[&str]| Names::propositions(names).expect("different names");
//! let met = meet(&names(&["a", "b"]), &names(&["b", "c"])).expect("three propositions").expect("named letters");
//! assert_eq!(met.names, names(&["a", "b", "c"]));
//! // Letter 6, b & c, acts as b in the first, and as b & c in the second.
//! assert_eq!((met.first[6], met.second[6]), (2, 3));
//! ```

use crate::text::{listed, Names, MOST_PROPOSITIONS};

/// The letters that two rules have together.
#[derive(Clone, Debug, PartialEq, Eq)]
pub struct Common {
    /// How they are called.
    pub names: Names,
    /// For each of them the letter of the first rule that it acts as.
    pub first: Vec<u8>,
    /// For each of them the letter of the second rule that it acts as.
    pub second: Vec<u8>,
}

/// Why the letters of two rules do not meet.
#[derive(Clone, Debug, PartialEq, Eq)]
pub enum Apart {
    /// They have different names.
    Names {
        /// The names that only the first has.
        only_first: Vec<String>,
        /// The names that only the second has.
        only_second: Vec<String>,
    },
    /// One has names and the other propositions.
    Kinds {
        /// How the letters of the first are called.
        first: Names,
        /// How the letters of the second are called.
        second: Names,
    },
    /// Together they have too many propositions.
    TooMany(Vec<String>),
}

/// The letters that two rules have together, in the order of the first; none where one of them does not call its
/// letters, so that they go by their numbers.
pub fn meet(first: &Names, second: &Names) -> Result<Option<Common>, Apart> {
    if let (Some(own), Some(other)) = (first.as_propositions(), second.as_propositions()) {
        return by_proposition(own, other).map(Some);
    }
    if let (Some(own), Some(other)) = (first.as_letters(), second.as_letters()) {
        return by_name(first, &own, &other).map(Some);
    }
    match first.any() && second.any() {
        false => Ok(None),
        true => Err(Apart::Kinds {
            first: first.clone(),
            second: second.clone(),
        }),
    }
}

fn by_name(names: &Names, first: &[String], second: &[String]) -> Result<Common, Apart> {
    let only = |own: &[String], other: &[String]| -> Vec<String> {
        let own = own.iter().filter(|name| !other.contains(name));
        own.cloned().collect()
    };
    let (only_first, only_second) = (only(first, second), only(second, first));
    if !only_first.is_empty() || !only_second.is_empty() {
        return Err(Apart::Names {
            only_first,
            only_second,
        });
    }
    Ok(Common {
        names: names.clone(),
        first: (0..=u8::MAX).take(first.len()).collect(),
        second: places(first, second),
    })
}

/// For each name its place among others.
fn places(names: &[String], others: &[String]) -> Vec<u8> {
    let place = |name: &String| (0..=u8::MAX).zip(others).find(|(_, other)| *other == name);
    let places = names.iter().filter_map(place);
    places.map(|(place, _)| place).collect()
}

fn by_proposition(first: &[String], second: &[String]) -> Result<Common, Apart> {
    let new = second.iter().filter(|name| !first.contains(name));
    let all: Vec<String> = first.iter().chain(new).cloned().collect();
    match Names::propositions(&all) {
        Ok(names) => Ok(Common {
            names,
            first: restricted(&all, first),
            second: restricted(&all, second),
        }),
        Err(_) => Err(Apart::TooMany(all)),
    }
}

/// For each valuation of all propositions the valuation of some of them.
fn restricted(all: &[String], some: &[String]) -> Vec<u8> {
    let bits = places(some, all);
    let restricted = |valuation: u8| {
        let bits = bits.iter().enumerate();
        bits.fold(0, |letter, (own, bit)| {
            letter | (valuation >> bit & 1) << own
        })
    };
    (0..1_u8 << all.len()).map(restricted).collect()
}

impl Apart {
    /// What keeps the letters apart, with words for the two sides.
    pub fn in_words(&self, first: &str, second: &str) -> String {
        match self {
            Apart::Names {
                only_first,
                only_second,
            } => {
                let only = |side: &str, names: &[String]| {
                    let some = !names.is_empty();
                    some.then(|| format!("only {side} has {}", listed(names)))
                };
                let sides = [only(first, only_first), only(second, only_second)];
                let sides: Vec<String> = sides.into_iter().flatten().collect();
                format!("the letters have different names: {}", sides.join(", "))
            }
            Apart::Kinds {
                first: own,
                second: other,
            } => {
                let (own, other) = (called(own), called(other));
                format!("the letters of {first} are {own}, and those of {second} are {other}")
            }
            Apart::TooMany(all) => format!(
                "{first} and {second} have {} propositions together, more than {MOST_PROPOSITIONS}: {}",
                all.len(),
                listed(all)
            ),
        }
    }
}

/// How letters are called, in words.
fn called(names: &Names) -> String {
    match (names.as_propositions(), names.as_letters()) {
        (Some([]), _) => "valuations of no proposition".to_string(),
        (Some(own), _) => format!("valuations of {}", listed(own)),
        (None, own) => listed(&own.unwrap_or_default()),
    }
}

/// How letters are called, with their numbers where they are not: their names, or the propositions that they are
/// valuations of.
pub fn all_called(names: &Names, letters: usize) -> Vec<String> {
    match names.as_propositions() {
        Some(own) => own.to_vec(),
        None => names
            .as_letters()
            .unwrap_or_else(|| (0..letters).map(|own| own.to_string()).collect()),
    }
}

/// Letters, or the propositions that they are valuations of, in another order: how they are called then, and for
/// each letter the one that it acts as. What is wrong with the order is told in words.
pub fn in_order(
    names: &Names,
    letters: usize,
    order: &[String],
) -> Result<(Names, Vec<u8>), String> {
    let own = all_called(names, letters);
    let apart = by_name(names, order, &own).err();
    if let Some(apart) = apart {
        return Err(apart.in_words("the order", "the rule"));
    }
    if names.as_propositions().is_some() {
        let ordered = Names::propositions(order)?;
        return Ok((ordered, restricted(order, &own)));
    }
    let twice = (1..order.len()).find(|place| order[..*place].contains(&order[*place]));
    match twice {
        Some(place) => Err(format!("{} stands twice in the order", order[place])),
        None if names.any() => Ok((Names::letters(order)?, places(order, &own))),
        None => Ok((Names::none(), places(order, &own))),
    }
}
