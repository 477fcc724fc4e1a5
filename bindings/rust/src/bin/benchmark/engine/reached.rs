//! The elements that are some word's value, by a worklist.

use super::Rule;

/// The elements in the order of their first words, each with its parent (64 for none) and letter.
pub struct Reached {
    pub count: usize,
    pub order: [u8; 64],
    pub parent: [u8; 64],
    pub letter: [u8; 64],
    pub found: [bool; 64],
    /// How many different images the letters have; they come first in the order.
    pub images: usize,
}

impl Reached {
    fn add(&mut self, s: usize, parent: usize, letter: usize) {
        if !self.found[s] {
            self.found[s] = true;
            self.order[self.count] = s as u8;
            self.parent[s] = parent as u8;
            self.letter[s] = letter as u8;
            self.count += 1;
        }
    }
}

pub fn reached(rule: &Rule) -> Reached {
    let mut r = Reached {
        count: 0,
        order: [0; 64],
        parent: [64; 64],
        letter: [0; 64],
        found: [false; 64],
        images: 0,
    };
    for a in 0..rule.images.len() {
        r.add(rule.image(a), 64, a);
    }
    r.images = r.count;
    let mut next = 0;
    while next < r.count {
        let s = r.order[next] as usize;
        for a in 0..rule.images.len() {
            r.add(rule.product(s, rule.image(a)), s, a);
        }
        next += 1;
    }
    r
}
