//! A rule as a Rust value.

use super::bytes::{count_byte, Rest};
use super::marks::{marks_bytes, read_marks, Mark};
use crate::{Refusal, Refused};

/// A rule: a product table, an element for each letter, and marked pairs with grades.
///
/// ```
/// use duknavet::files::{Mark, Rule};
///
/// let rule = Rule {
///     elements: 2,
///     products: vec![0, 0, 0, 1],
///     images: vec![0, 1],
///     marks: vec![Mark { s: 0, e: 0, grade: 3 }],
/// };
/// let bytes = rule.bytes();
/// assert_eq!(bytes, [2, 0, 0, 0, 1, 2, 0, 1, 1, 0, 0, 0, 3]);
/// assert_eq!(Rule::read(&bytes), Ok(rule));
/// ```
#[derive(Clone, Debug, PartialEq, Eq, Hash)]
pub struct Rule {
    /// How many elements it has, 1 to 64.
    pub elements: u8,
    /// The products by rows: a·b at a·elements + b.
    pub products: Vec<u8>,
    /// The element that each letter stands for; 1 to 16 letters.
    pub images: Vec<u8>,
    /// The marked pairs, in the order of the file.
    pub marks: Vec<Mark>,
}

impl Rule {
    /// The bytes of its file. Where the fields are no rule, these are not either, and a call that gets them says so.
    pub fn bytes(&self) -> Vec<u8> {
        let mut bytes = vec![self.elements];
        bytes.extend(&self.products);
        bytes.push(count_byte(self.images.len()));
        bytes.extend(&self.images);
        bytes.extend(marks_bytes(&self.marks));
        bytes
    }

    /// The rule of a file that passes every check.
    pub fn read(bytes: &[u8]) -> Result<Rule, Refused> {
        crate::owned::checked(bytes)?;
        // A file that passes has sections of the lengths that its counts give.
        Rule::take_apart(bytes).ok_or(Refused {
            refusal: Refusal::Truncated,
            input: 1,
            place: bytes.len() as u64,
        })
    }

    /// The three sections of a file that need not be a rule; none where the bytes are not as many as its counts say.
    pub fn take_apart(bytes: &[u8]) -> Option<Rule> {
        let mut rest = Rest::new(bytes);
        let elements = rest.count()?;
        let products = rest.part(elements * elements)?.to_vec();
        let letters = rest.count()?;
        let images = rest.part(letters)?.to_vec();
        let marks = read_marks(&mut rest)?;
        rest.is_empty().then_some(Rule {
            elements: count_byte(elements),
            products,
            images,
            marks,
        })
    }

    /// The rule with other letters, each acting as one of its own; none where one of these is no letter of it.
    pub fn with_letters(&self, acts_as: &[u8]) -> Option<Rule> {
        let image = |letter: &u8| self.images.get(usize::from(*letter)).copied();
        Some(Rule {
            images: acts_as.iter().map(image).collect::<Option<_>>()?,
            ..self.clone()
        })
    }

    /// The product a·b; none where there is no such element.
    pub fn product(&self, a: u8, b: u8) -> Option<u8> {
        if a >= self.elements || b >= self.elements {
            return None;
        }
        let at = usize::from(a) * usize::from(self.elements) + usize::from(b);
        self.products.get(at).copied()
    }

    /// The value of a word; none where it is empty, or has a letter that the rule does not have.
    pub fn value(&self, word: &[u8]) -> Option<u8> {
        let mut letters = word.iter();
        let image = |letter: &u8| self.images.get(usize::from(*letter)).copied();
        let first = image(letters.next()?)?;
        letters.try_fold(first, |value, letter| self.product(value, image(letter)?))
    }

    /// Whether e·e = e and s·e = s.
    pub fn linked(&self, s: u8, e: u8) -> bool {
        self.product(e, e) == Some(e) && self.product(s, e) == Some(s)
    }

    /// The idempotent power of an element and its exponent, the least c with x^c·x^c = x^c; none where there is no such element, or
    /// the products are not associative.
    pub fn idempotent_power(&self, element: u8) -> Option<(u8, usize)> {
        let mut power = element;
        for exponent in 1..=usize::from(self.elements) {
            if self.product(power, power)? == power {
                return Some((power, exponent));
            }
            power = self.product(power, element)?;
        }
        None
    }

    /// The grade of a pair: that of the first mark that lists it, 0 where none does.
    pub fn grade(&self, s: u8, e: u8) -> u8 {
        let mut marks = self.marks.iter();
        let own = marks.find(|mark| (mark.s, mark.e) == (s, e));
        own.map_or(0, |mark| mark.grade)
    }

    /// The first word of each element, the shortest that has it for its value and of these the first in letter order; none for an
    /// element that is no word's value.
    pub fn first_words(&self) -> Vec<Option<Vec<u8>>> {
        let mut words = vec![None; usize::from(self.elements)];
        let mut found: Vec<(u8, Vec<u8>)> = Vec::new();
        let mut note = |value: Option<u8>, word: Vec<u8>, found: &mut Vec<(u8, Vec<u8>)>| {
            let Some(value) = value else { return };
            if let Some(place @ None) = words.get_mut(usize::from(value)) {
                *place = Some(word.clone());
                found.push((value, word));
            }
        };
        for (letter, &image) in (0..=u8::MAX).zip(&self.images) {
            note(Some(image), vec![letter], &mut found);
        }
        let mut next = 0;
        while let Some((value, word)) = found.get(next).cloned() {
            for (letter, &image) in (0..=u8::MAX).zip(&self.images) {
                let longer = word.iter().copied().chain([letter]).collect();
                note(self.product(value, image), longer, &mut found);
            }
            next += 1;
        }
        words
    }
}
