//! The parts of a document, by their names.

use super::tree::Tree;
use std::collections::HashMap;

/// Parts that were read, in their order.
#[derive(Default)]
pub(super) struct Parts {
    list: Vec<(String, Tree)>,
    places: HashMap<String, usize>,
}

impl Parts {
    pub fn get(&self, name: &str) -> Option<&Tree> {
        let place = self.places.get(name)?;
        self.list.get(*place).map(|(_, tree)| tree)
    }

    pub fn add(&mut self, name: &str, tree: Tree) {
        self.places.insert(name.to_string(), self.list.len());
        self.list.push((name.to_string(), tree));
    }

    pub fn names(&self) -> impl Iterator<Item = &String> {
        self.list.iter().map(|(name, _)| name)
    }
}
