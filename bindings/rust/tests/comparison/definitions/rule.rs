//! Rules, the values of words, and the bytes of a rule file.

pub type Pair = (u8, u8);

/// The grades that a mark can have; a pair without a mark has grade 0.
pub const GRADES: [u8; 3] = [1, 2, 3];

/// A marked pair and its grade.
#[derive(Clone, Copy, Debug, PartialEq, Eq)]
pub struct Mark {
    pub pair: Pair,
    pub grade: u8,
}

/// What an engine needs besides the marks: a table and the elements of the letters.
#[derive(Clone, Debug, PartialEq, Eq)]
pub struct Morphism {
    pub n: usize,
    pub table: Vec<u8>,
    pub images: Vec<u8>,
}

#[derive(Clone, Debug, PartialEq, Eq)]
pub struct Rule {
    pub morphism: Morphism,
    pub marks: Vec<Mark>,
}

impl Morphism {
    pub fn letters(&self) -> usize {
        self.images.len()
    }

    pub fn product(&self, a: u8, b: u8) -> u8 {
        self.table[a as usize * self.n + b as usize]
    }

    /// The value of a word that is not empty.
    pub fn value(&self, word: &[u8]) -> u8 {
        let (first, rest) = word.split_first().expect("a word that is not empty");
        let start = self.images[*first as usize];
        rest.iter()
            .fold(start, |s, a| self.product(s, self.images[*a as usize]))
    }

    pub fn elements(&self) -> impl Iterator<Item = u8> + Clone {
        (0..self.n).map(|s| s as u8)
    }

    pub fn linked(&self, (s, e): Pair) -> bool {
        self.product(e, e) == e && self.product(s, e) == s
    }

    pub fn linked_pairs(&self) -> Vec<Pair> {
        let pairs = self
            .elements()
            .flat_map(|s| self.elements().map(move |e| (s, e)));
        pairs.filter(|pair| self.linked(*pair)).collect()
    }

    /// A word for each element, shortest ones first found; None for an element that no word reaches.
    pub fn words(&self) -> Vec<Option<Vec<u8>>> {
        let mut words: Vec<Option<Vec<u8>>> = vec![None; self.n];
        let mut found: Vec<Vec<u8>> = vec![Vec::new()];
        while let Some(word) = found.pop() {
            // The list is kept shortest last, so that short words come first.
            for a in 0..self.letters() as u8 {
                let longer = [&word[..], &[a]].concat();
                let s = self.value(&longer) as usize;
                if words[s].is_none() {
                    words[s] = Some(longer.clone());
                    found.insert(0, longer);
                }
            }
        }
        words
    }

    pub fn with(&self, marks: Vec<Mark>) -> Rule {
        Rule {
            morphism: self.clone(),
            marks,
        }
    }

    pub fn bytes(&self) -> Vec<u8> {
        let mut bytes = vec![self.n as u8];
        bytes.extend(&self.table);
        bytes.push(self.images.len() as u8);
        bytes.extend(&self.images);
        bytes
    }
}

impl Rule {
    pub fn bytes(&self) -> Vec<u8> {
        let mut bytes = self.morphism.bytes();
        bytes.extend(marks_section(&self.marks));
        bytes
    }
}

pub fn marks_section(marks: &[Mark]) -> Vec<u8> {
    let mut bytes = (marks.len() as u16).to_le_bytes().to_vec();
    let each = |mark: &Mark| [mark.pair.0, mark.pair.1, mark.grade];
    bytes.extend(marks.iter().flat_map(each));
    bytes
}
