//! Pairs of values that the words over two rules' letters have.

use crate::files::Rule;
use std::collections::HashMap;

/// Every pair of values of a word in two rules over the same letters, by first words, each with that word.
pub struct Pairs {
    pub values: Vec<(u8, u8)>,
    pub words: Vec<Vec<u8>>,
    numbers: HashMap<(u8, u8), usize>,
}

impl Pairs {
    pub fn reached(first: &Rule, second: &Rule) -> Pairs {
        let mut pairs = Pairs {
            values: Vec::new(),
            words: Vec::new(),
            numbers: HashMap::new(),
        };
        let images: Vec<(u8, u8)> = first
            .images
            .iter()
            .copied()
            .zip(second.images.iter().copied())
            .collect();
        for (letter, image) in (0..=u8::MAX).zip(&images) {
            pairs.add(*image, vec![letter]);
        }
        let mut next = 0;
        while next < pairs.values.len() {
            let (a, b) = pairs.values[next];
            for (letter, (image_a, image_b)) in (0..=u8::MAX).zip(&images) {
                let product = (first.product(a, *image_a), second.product(b, *image_b));
                if let (Some(a), Some(b)) = product {
                    let longer = pairs.words[next].iter().copied().chain([letter]);
                    let longer = longer.collect();
                    pairs.add((a, b), longer);
                }
            }
            next += 1;
        }
        pairs
    }

    fn add(&mut self, pair: (u8, u8), word: Vec<u8>) {
        if !self.numbers.contains_key(&pair) {
            self.numbers.insert(pair, self.values.len());
            self.values.push(pair);
            self.words.push(word);
        }
    }

    pub fn number(&self, pair: (u8, u8)) -> Option<usize> {
        self.numbers.get(&pair).copied()
    }
}

/// How many pairs of values words have in two rules over the same letters.
pub(crate) fn pairs_of_values(first: &Rule, second: &Rule) -> usize {
    Pairs::reached(first, second).values.len()
}
